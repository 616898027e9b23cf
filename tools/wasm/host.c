// What the program's compiled code calls, on WebAssembly: a heap, and standard streams and arguments by WASI preview 1.
// Nothing proves this file, as nothing proves the C library whose place it takes.
//
// It is compiled for a memory of 64 bits, of which lower.py then makes one of 32 bits: so each address that leaves the
// module is an `int`.
typedef unsigned char u8;
typedef unsigned int u32;
typedef unsigned long u64;
typedef long i64;

#define IMPORT(name) __attribute__((import_module("wasi_snapshot_preview1"), import_name(#name)))
IMPORT(fd_read) int wasi_fd_read(int fd, int parts, int count, int got);
IMPORT(fd_write) int wasi_fd_write(int fd, int parts, int count, int took);
IMPORT(args_sizes_get) int wasi_args_sizes_get(int count, int bytes);
IMPORT(args_get) int wasi_args_get(int places, int bytes);
IMPORT(proc_exit) _Noreturn void wasi_proc_exit(int status);

#define AT(pointer) ((int)(u64)(pointer))

// --- The heap: blocks of some sizes, and for each size a list of those that are free ---

enum { PAGE = 65536, SIZES = 160 };
static const u64 MOST = 1ul << 32;

// What stands in front of a block. It has 16 bytes, so that blocks begin at multiples of 16, the most that is asked for.
typedef struct Head {
    u64 kind;
    struct Head *next; // while the block is free
} Head;

extern u8 __heap_base;
static Head *free_blocks[SIZES];
static u64 top, end;

// The sizes are 16, 32, .., 128, and from there four to each doubling.
static u64 size_of_kind(u64 kind) {
    if (kind < 8) return 16 * (kind + 1);
    u64 doubling = (kind - 8) / 4, step = (kind - 8) % 4 + 1;
    return (128ul << doubling) + (32ul << doubling) * step;
}

// The kind of the smallest size that has room for 1 to MOST bytes.
static u64 kind_of_size(u64 size) {
    if (size <= 128) return (size + 15) / 16 - 1;
    u64 doubling = 56 - __builtin_clzl(size - 1);
    u64 base = 128ul << doubling, quarter = 32ul << doubling;
    return 8 + 4 * doubling + (size - base + quarter - 1) / quarter - 1;
}

// Makes room for so many bytes above top; 0 where the host refuses.
static int make_room(u64 need) {
    if (!top) {
        top = ((u64)&__heap_base + 15) & ~15ul;
        end = __builtin_wasm_memory_size(0) * PAGE;
    }
    if (need <= end - top) return 1;
    u64 more = need - (end - top), least = 16 * PAGE;
    u64 pages = ((more > least ? more : least) + PAGE - 1) / PAGE;
    // (only the low half of the answer is sure to be that of a memory of 32 bits)
    if ((int)__builtin_wasm_memory_grow(0, pages) == -1) return 0;
    end += pages * PAGE;
    return 1;
}

static u8 *allocate(u64 size) {
    if (size > MOST) return 0;
    u64 kind = kind_of_size(size);
    Head *head = free_blocks[kind];
    if (head) {
        free_blocks[kind] = head->next;
        return (u8 *)(head + 1);
    }
    u64 need = sizeof(Head) + size_of_kind(kind);
    if (!make_room(need)) return 0;
    head = (Head *)top;
    top += need;
    head->kind = kind;
    return (u8 *)(head + 1);
}

static void release(u8 *block) {
    Head *head = (Head *)block - 1;
    head->next = free_blocks[head->kind];
    free_blocks[head->kind] = head;
}

typedef struct {
    u64 ok; // its lowest byte is a bool
    u8 *block;
} Tried;

static Tried tried(u8 *block) {
    static u8 nothing;
    return (Tried){block != 0, block ? block : &nothing};
}

// (a block of no bytes has an address of its own, too)
Tried rattle_alloc(u64 size, u64 align) {
    return tried(allocate(size ? size : align));
}

Tried rattle_realloc(u8 *block, u64 kept, u64 size, u64 align) {
    if (!size) size = align;
    if (size <= MOST && kind_of_size(size) == ((Head *)block - 1)->kind) return tried(block);
    u8 *larger = allocate(size);
    if (larger) {
        __builtin_memcpy(larger, block, kept < size ? kept : size);
        release(block);
    }
    return tried(larger);
}

void rattle_dealloc(u8 *block) {
    release(block);
}

// --- Streams ---

enum { NO_SUCH_FILE = 2, INPUT_OUTPUT = 5 };
static int error;

int rattle_errno(void) {
    return error;
}

void rattle_set_errno(int to) {
    error = to;
}

typedef struct {
    u32 at, length;
} Part;

static Part part_of(const void *at, u64 length) {
    return (Part){AT(at), length < 1u << 30 ? length : 1u << 30};
}

static i64 outcome(int failed, u32 count) {
    error = failed ? INPUT_OUTPUT : 0;
    return failed ? -1 : (i64)count;
}

i64 read(int fd, u8 *into, u64 length) {
    Part part = part_of(into, length);
    u32 count = 0;
    int failed = wasi_fd_read(fd, AT(&part), 1, AT(&count));
    return outcome(failed, count);
}

i64 write(int fd, const u8 *from, u64 length) {
    Part part = part_of(from, length);
    u32 count = 0;
    int failed = wasi_fd_write(fd, AT(&part), 1, AT(&count));
    return outcome(failed, count);
}

i64 __write(int fd, const u8 *from, u64 length) {
    return write(fd, from, length);
}

// --- Arguments ---

enum { MOST_WORDS = 64, MOST_BYTES = 65536, REFUSED = 2 };
static u32 word_count, word_bytes, word_at[MOST_WORDS];
static u8 word_text[MOST_BYTES];

u64 rattle_arg_count(void) {
    return word_count;
}

i64 rattle_arg(u64 number, u8 *into, u64 length) {
    if (number >= word_count) return -1;
    const u8 *from = (const u8 *)(u64)word_at[number];
    for (u64 n = 0;; n++) {
        if (!from[n]) return n;
        if (n == length) return -2;
        into[n] = from[n];
    }
}

// --- What the program is linked with and doesn't use: there is no environment, no directory and no signal ---

i64 rattle_env(const u8 *name, u8 *into, u64 length) {
    return -1;
}

i64 rattle_env_at(u64 number, u8 *into, u64 length) {
    return -1;
}

int chdir(const u8 *path) {
    error = NO_SUCH_FILE;
    return -1;
}

i64 __sysv_signal(int signal, i64 to) {
    return 0;
}

// Compiled for x86-64, the program asks which features its processor has as it starts. It is told: all of them.
const void *__x86_get_cpuid_feature_leaf(u32 leaf) {
    static const u32 features[16] = {-1, -1, -1, -1, -1, -1, -1, -1, -1, -1, -1, -1, -1, -1, -1, -1};
    return features;
}

// --- The start ---

int program_main(void);

__attribute__((export_name("_start"))) void start(void) {
    if (wasi_args_sizes_get(AT(&word_count), AT(&word_bytes)) || word_count > MOST_WORDS ||
        word_bytes > MOST_BYTES || wasi_args_get(AT(word_at), AT(word_text))) {
        wasi_proc_exit(REFUSED);
    }
    wasi_proc_exit(program_main());
}

// --- What LLVM calls by name ---

typedef unsigned __int128 u128;
typedef union {
    u128 whole;
    struct {
        u64 low, high;
    };
} Halves;

// The low 128 bits of a product, without one: LLVM would call this function for it.
u128 __multi3(u128 x, u128 y) {
    Halves a = {x}, b = {y}, product;
    u64 a0 = (u32)a.low, a1 = a.low >> 32, b0 = (u32)b.low, b1 = b.low >> 32;
    u64 first = a0 * b0;
    u64 second = a1 * b0 + (first >> 32);
    u64 third = a0 * b1 + (u32)second;
    product.low = third << 32 | (u32)first;
    product.high = a1 * b1 + (second >> 32) + (third >> 32) + a.low * b.high + a.high * b.low;
    return product.whole;
}

// Shifts of 128 bits by 0 to 127. One by 1 and then by 63 - n is one by 64 - n that is defined at n = 0, too.
u128 __ashlti3(u128 x, int n) {
    Halves a = {x}, shifted;
    int part = n & 63;
    shifted.low = n & 64 ? 0 : a.low << part;
    shifted.high = n & 64 ? a.low << part : a.high << part | a.low >> 1 >> (63 - part);
    return shifted.whole;
}

u128 __lshrti3(u128 x, int n) {
    Halves a = {x}, shifted;
    int part = n & 63;
    shifted.low = n & 64 ? a.high >> part : a.low >> part | a.high << 1 << (63 - part);
    shifted.high = n & 64 ? 0 : a.high >> part;
    return shifted.whole;
}
