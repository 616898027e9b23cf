// Runs what wasm2c makes of sancus.wasm, on any system with a C compiler and streams of POSIX:
//
//     wasm2c --module-name sancus release/sancus.wasm -o sancus.c
//     cc -O2 -I. -I WASM2C tools/wasm/native_host.c sancus.c WASM2C/wasm-rt-impl.c -lm -o sancus_run
//
// WASM2C is the folder of its run-time files, in Debian's package wabt /usr/share/wabt/wasm2c.
#include "sancus.h"
#include <stdlib.h>
#include <string.h>
#include <unistd.h>

enum { IO_ERROR = 29 };

struct Z_wasi_snapshot_preview1_instance_t {
    Z_sancus_instance_t program;
    int count;
    char **words;
} host;
typedef struct Z_wasi_snapshot_preview1_instance_t Host;

// WebAssembly stores the low byte first.
static u8 *at(u32 place) {
    return host.program.w2c_memory.data + place;
}

static u32 get(u32 place) {
    return at(place)[0] | at(place)[1] << 8 | at(place)[2] << 16 | (u32)at(place)[3] << 24;
}

static void put(u32 place, u32 value) {
    for (int k = 0; k < 4; k++) at(place)[k] = value >> (8 * k);
}

u32 Z_wasi_snapshot_preview1Z_args_sizes_get(Host *it, u32 count, u32 bytes) {
    u32 total = 0;
    for (int k = 0; k < it->count; k++) total += strlen(it->words[k]) + 1;
    put(count, it->count);
    put(bytes, total);
    return 0;
}

u32 Z_wasi_snapshot_preview1Z_args_get(Host *it, u32 places, u32 bytes) {
    for (int k = 0; k < it->count; k++) {
        size_t length = strlen(it->words[k]) + 1;
        put(places + 4 * k, bytes);
        memcpy(at(bytes), it->words[k], length);
        bytes += length;
    }
    return 0;
}

// (the module gives one part at a time)
u32 Z_wasi_snapshot_preview1Z_fd_read(Host *it, u32 file, u32 parts, u32 count, u32 got) {
    ssize_t moved = read(file, at(get(parts)), get(parts + 4));
    if (moved < 0) return IO_ERROR;
    put(got, moved);
    return 0;
}

u32 Z_wasi_snapshot_preview1Z_fd_write(Host *it, u32 file, u32 parts, u32 count, u32 took) {
    ssize_t moved = write(file, at(get(parts)), get(parts + 4));
    if (moved < 0) return IO_ERROR;
    put(took, moved);
    return 0;
}

void Z_wasi_snapshot_preview1Z_proc_exit(Host *it, u32 status) {
    exit(status);
}

int main(int count, char **words) {
    host.count = count;
    host.words = words;
    wasm_rt_init();
    Z_sancus_init_module();
    Z_sancus_instantiate(&host.program, &host);
    Z_sancusZ__start(&host.program);
    return 0;
}
