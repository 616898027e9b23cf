// The untrusted code of node a: it carries what eye sends to logic by itself, counts, and then turns hostile.
#include "sancus.h"

#define EYE 0x4000
#define LOGIC 0x6000
#define LOGIC_DATA ((volatile word *)0x2000)
// An actuator that no module drives: each write is an item `raw port VALUE`, and so this program's way to print.
#define PORT (*(volatile word *)0x0210)
// A sensor that no module drives: a read of a new sample is an item `drain knob`. Bit 15 says that the sample is new.
#define KNOB (*(volatile word *)0x0212)

static uint8_t event[48];
uint8_t sent[48];
static word calls;
static volatile word table[4] = {3, 1, 4, 1};
volatile word ticks;

__attribute__((interrupt(3))) void tick(void) { ticks++; }

static word product(word a, word b) { return a * b; }

// One round of an honest event loop: eye samples, and logic gets the event. Says both statuses.
static void carry(void) {
  word pieces, status;
  status = call_module(EYE, SAMPLE, event, event, &pieces);
  calls++;
  PORT = 0x100 + status;
  if (status != 1 || pieces != 1) return;
  status = call_module(LOGIC, INPUT, event, sent, &pieces);
  calls++;
  PORT = 0x200 + status;
}

// What a processor without a multiplier computes, and data that was put with the code.
static void compute(void) {
  PORT = product(calls, 1000) + 1;
  PORT = table[2] + 0x300;
  PORT = 40000u / (calls + 1);
}

int main(void) {
  __asm__ volatile("eint");
  carry();
  compute();
  word knob = KNOB & 0x7fff;
  PORT = knob;
  // A word of logic's private section: the node is reset, and the knob alone has said so before.
  if (knob == 7) PORT = LOGIC_DATA[0];
  // Sleep. CPUOFF stops nothing here, and an interrupt is taken all the same.
  for (;;) __asm__ volatile("bis #16, r2");
}
