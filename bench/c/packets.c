// A parser of packets, byte by byte: a start, a length, an address, data with escapes, and a sum.
#include "bench.h"

enum { IDLE, LENGTH, ADDRESS, DATA, SUM, ESCAPED };

uint16_t result;
static uint8_t given[300], data[64];
static uint16_t counts[6];
static uint8_t state, sum, left, at;

static void take(uint8_t byte) {
  data[at++] = byte;
  sum += byte;
  state = --left ? DATA : SUM;
}

static void feed(uint8_t byte) {
  counts[state]++;
  switch (state) {
    case IDLE:
      if (byte == 0x7e) {
        state = LENGTH;
        sum = 0;
      }
      break;
    case LENGTH:
      if (byte > 48 || !byte) {
        state = IDLE;
        break;
      }
      left = byte;
      sum += byte;
      at = 0;
      state = ADDRESS;
      break;
    case ADDRESS:
      sum ^= byte;
      state = (byte & 0x80) ? IDLE : DATA;
      break;
    case DATA:
      if (byte == 0x7d)
        state = ESCAPED;
      else
        take(byte);
      break;
    case ESCAPED:
      take(byte ^ 0x20);
      break;
    case SUM:
      if (byte == sum)
        counts[5] += at;
      else
        counts[0] += 2;
      state = IDLE;
      break;
  }
}

static uint16_t write_packets(void) {
  uint16_t end = 0;
  for (uint16_t k = 0; k < 6; k++) {
    uint8_t length = 20 + k, sum_of_it = length;
    given[end++] = 0x7e;
    given[end++] = length;
    given[end++] = k * 9;
    sum_of_it ^= k * 9;
    for (uint8_t i = 0; i < length; i++) {
      uint8_t byte = i * 11 + k;
      if (byte == 0x7d || byte == 0x7e) {
        given[end++] = 0x7d;
        given[end++] = byte ^ 0x20;
      } else {
        given[end++] = byte;
      }
      sum_of_it += byte;
    }
    given[end++] = sum_of_it;
    given[end++] = 0;
  }
  return end;
}

int main(void) {
  uint16_t end = write_packets(), sum_of_counts = 0;
  for (uint16_t k = 0; k < 40; k++)
    for (uint16_t i = 0; i < end; i++)
      feed(given[i]);
  for (uint8_t i = 0; i < 6; i++)
    sum_of_counts = sum_of_counts * 3 + counts[i];
  result = sum_of_counts;
  return 0;
}
