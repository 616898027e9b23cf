// Calls what host.c has, and writes what comes of it; compiled for this machine, what its own C library has. Both write the same.
typedef unsigned char u8;
typedef unsigned long u64;
typedef unsigned __int128 u128;

#ifdef __wasm__
typedef struct {
    u64 ok;
    u8 *block;
} Tried;
Tried rattle_alloc(u64 size, u64 align);
Tried rattle_realloc(u8 *block, u64 kept, u64 size, u64 align);
void rattle_dealloc(u8 *block);
long write(int fd, const u8 *from, u64 length);
long read(int fd, u8 *into, u64 length);
u64 rattle_arg_count(void);
long rattle_arg(u64 number, u8 *into, u64 length);
#define MAIN int program_main(void)
#else
#include <stdlib.h>
#include <string.h>
#include <unistd.h>
typedef struct {
    u64 ok;
    u8 *block;
} Tried;
static Tried rattle_alloc(u64 size, u64 align) {
    u8 *block = size > 1ul << 31 ? 0 : malloc(size ? size : align);
    return (Tried){block != 0, block};
}
static Tried rattle_realloc(u8 *old, u64 kept, u64 size, u64 align) {
    u8 *block = size > 1ul << 31 ? 0 : realloc(old, size ? size : align);
    return (Tried){block != 0, block};
}
static void rattle_dealloc(u8 *block) { free(block); }
static int words;
static char **word;
static u64 rattle_arg_count(void) { return words; }
static long rattle_arg(u64 number, u8 *into, u64 length) {
    if (number >= (u64)words) return -1;
    u64 size = strlen(word[number]);
    memcpy(into, word[number], size < length ? size : length);
    return size <= length ? (long)size : -2;
}
#define MAIN int main(int count, char **given)
#endif

static u64 state = 1;
static u64 chance(void) {
    state ^= state << 13, state ^= state >> 7, state ^= state << 17;
    return state;
}

static void put_number(u64 value) {
    u8 text[17];
    for (int k = 0; k < 16; k++) text[k] = "0123456789abcdef"[value >> (60 - 4 * k) & 15];
    text[16] = '\n';
    write(1, text, 17);
}

static void put_long(u128 value) {
    put_number(value >> 64);
    put_number(value);
}

enum { BLOCKS = 300, ROUNDS = 60000 };
static u8 *blocks[BLOCKS];
static u64 sizes[BLOCKS];

// Each byte of a block says whose it is and where.
static u8 mark(u64 block, u64 at) { return block * 31 + at * 7 + 1; }
static void fill(u64 block, u64 from) {
    for (u64 at = from; at < sizes[block]; at++) blocks[block][at] = mark(block, at);
}
static u64 wrong(u64 block) {
    u64 count = (u64)blocks[block] % 16;
    for (u64 at = 0; at < sizes[block]; at++) count += blocks[block][at] != mark(block, at);
    return count;
}

static u64 any_size(void) {
    u64 bits = chance() % 15;
    return chance() % (1ul << bits);
}

static u64 test_heap(void) {
    u64 bad = 0;
    for (u64 round = 0; round < ROUNDS; round++) {
        u64 it = chance() % BLOCKS, size = any_size();
        bad += blocks[it] ? wrong(it) : 0;
        if (blocks[it] && chance() % 3 == 0) {
            rattle_dealloc(blocks[it]);
            blocks[it] = 0;
            continue;
        }
        u64 kept = blocks[it] && sizes[it] < size ? sizes[it] : size;
        Tried tried = blocks[it] ? rattle_realloc(blocks[it], kept, size, 8) : rattle_alloc(size, 8);
        if (!(tried.ok & 255)) return 1ul << 40;
        u64 from = blocks[it] ? kept : 0;
        blocks[it] = tried.block, sizes[it] = size;
        fill(it, from);
    }
    return bad;
}

// Of what isn't there, a block stays as it was.
static u64 test_refusals(void) {
    static const u64 huge[] = {1ul << 32, (1ul << 32) + 1, 1ul << 40, 1ul << 62};
    u64 given = 0;
    for (int k = 0; k < 4; k++) given += rattle_alloc(huge[k], 16).ok & 255;
    Tried tried = rattle_alloc(100, 16);
    tried.block[99] = 7;
    for (int k = 0; k < 4; k++) given += rattle_realloc(tried.block, 100, huge[k], 16).ok & 255;
    return 100 * given + tried.block[99];
}

static void test_long_numbers(void) {
    for (int k = 0; k < 2000; k++) {
        u128 x = (u128)chance() << 64 | chance(), y = (u128)chance() << 64 | chance();
        int shift = k % 128;
        put_long(x * y);
        put_long(x << shift);
        put_long(x >> shift);
    }
}

static void test_words_and_input(void) {
    u8 text[9];
    for (u64 k = 1; k < rattle_arg_count() + 1; k++) {
        long length = rattle_arg(k, text, 8);
        put_number(length);
        if (length > 0) write(1, text, length);
    }
    for (long got; (got = read(0, text, 8)) > 0;) write(1, text, got);
}

MAIN {
#ifndef __wasm__
    words = count, word = given;
#endif
    put_number(test_heap());
    put_number(test_refusals());
    test_long_numbers();
    test_words_and_input();
    return 77;
}
