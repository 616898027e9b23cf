// Fills and copies 28 KB, by bytes and by words.
#include "bench.h"

#define SIZE (28 * 1024)

uint16_t result;
static uint8_t area[SIZE];

void *memset(void *to, int byte, unsigned count);
void *memcpy(void *to, const void *from, unsigned count);

static void copy_words(uint16_t *to, const uint16_t *from, uint16_t count) {
  while (count--)
    *to++ = *from++;
}

int main(void) {
  uint16_t sum = 0;
  for (uint16_t k = 0; k < 3; k++) {
    memset(area, k + 1, SIZE);
    for (uint16_t i = 0; i < 200; i++)
      area[i * 70] = i + k;
    memcpy(area + SIZE / 2, area, SIZE / 2);
    copy_words((uint16_t *)area, (uint16_t *)(area + SIZE / 2), SIZE / 4);
    for (uint16_t i = 0; i < SIZE; i += 97)
      sum = (sum << 1) + area[i] + (sum >> 15);
  }
  result = sum;
  return 0;
}
