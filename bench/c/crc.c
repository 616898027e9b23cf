// CRC-16 of 512 bytes, bit by bit and by a table.
#include "bench.h"

uint16_t result;
static uint8_t bytes[512];
static uint16_t table[256];

static uint16_t crc_by_bits(const uint8_t *at, uint16_t count) {
  uint16_t crc = 0xffff;
  while (count--) {
    crc ^= (uint16_t)*at++ << 8;
    for (uint8_t bit = 0; bit < 8; bit++)
      crc = (crc & 0x8000) ? (crc << 1) ^ 0x1021 : crc << 1;
  }
  return crc;
}

static uint16_t crc_by_table(const uint8_t *at, uint16_t count) {
  uint16_t crc = 0xffff;
  while (count--)
    crc = (crc << 8) ^ table[(uint8_t)((crc >> 8) ^ *at++)];
  return crc;
}

static void fill(void) {
  for (uint16_t i = 0; i < 512; i++)
    bytes[i] = i * 7 + (i >> 3);
  for (uint16_t i = 0; i < 256; i++) {
    uint16_t crc = i << 8;
    for (uint8_t bit = 0; bit < 8; bit++)
      crc = (crc & 0x8000) ? (crc << 1) ^ 0x1021 : crc << 1;
    table[i] = crc;
  }
}

int main(void) {
  fill();
  uint16_t sum = 0;
  for (uint16_t k = 0; k < 8; k++) {
    uint16_t one = crc_by_bits(bytes, 512), other = crc_by_table(bytes, 512);
    sum += one;
    if (one != other)
      sum = 0xdead;
    bytes[k] ^= sum;
  }
  for (uint16_t k = 0; k < 60; k++)
    sum ^= crc_by_table(bytes, 512) + k;
  result = sum;
  return 0;
}
