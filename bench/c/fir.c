// A filter of 16 taps over 120 samples, whose products are made by shifts and additions.
#include "bench.h"

uint16_t result;
static const int16_t taps[16] = {12,   -40, 88,   -150, 210,  -260, 300, 1800,
                                 1800, 300, -260, 210,  -150, 88,   -40, 12};
static int16_t samples[16];

static int32_t product(int16_t a, int16_t b) {
  uint16_t left = a < 0 ? -a : a, right = b < 0 ? -b : b;
  uint32_t sum = 0, shifted = left;
  while (right) {
    if (right & 1)
      sum += shifted;
    shifted += shifted;
    right >>= 1;
  }
  return (a ^ b) < 0 ? -(int32_t)sum : (int32_t)sum;
}

static int32_t filtered(uint8_t newest) {
  int32_t sum = 0;
  for (uint8_t i = 0, at = newest; i < 16; i++) {
    sum += product(taps[i], samples[at]);
    at = (at - 1) & 15;
  }
  return sum;
}

int main(void) {
  uint16_t sum = 0;
  int16_t phase = 0;
  uint8_t at = 0;
  for (uint16_t k = 0; k < 120; k++) {
    phase += 777;
    samples[at] = (phase >> 2) ^ (k << 3);
    sum += (uint16_t)(filtered(at) >> 12);
    at = (at + 1) & 15;
  }
  result = sum;
  return 0;
}
