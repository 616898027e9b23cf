// Calls of protected modules from C, for clang --target=msp430 (docs/PROTOCOL.md, "Calling a module").
#pragma once
#include <stdint.h>

typedef uint16_t word;

enum entry { SET_KEY, ATTEST, INPUT, SAMPLE };

// R12 is the entry, R13 the in-window, R14 the out-window and R15 the return address. On return R12 is the status, R13
// the number of pieces, and R4 to R11, R14, R15 and SR are 0: interrupts are off afterwards, so SR is kept here.
static inline __attribute__((noinline)) word call_module(word text, word entry, const void *in, void *out, word *pieces) {
  register word r11 __asm__("r11") = text;
  register word r12 __asm__("r12") = entry;
  register word r13 __asm__("r13") = (word)in;
  register word r14 __asm__("r14") = (word)out;
  __asm__ volatile("push r2\n\t"
                   "mov #.Lback%=, r15\n\t"
                   "br r11\n"
                   ".Lback%=:\n\t"
                   "pop r2"
                   : "+r"(r11), "+r"(r12), "+r"(r13), "+r"(r14)
                   :
                   : "r4", "r5", "r6", "r7", "r8", "r9", "r10", "r15", "memory");
  if (pieces) *pieces = r13;
  return r12;
}
