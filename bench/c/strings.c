// Copies, turns around, compares, searches and converts strings.
#include "bench.h"

uint16_t result;
static char one[256], other[256];
static const char text[] =
    "the quick brown fox jumps over the lazy dog and runs away from 12345 angry bees";

static uint16_t length(const char *s) {
  const char *at = s;
  while (*at)
    at++;
  return at - s;
}

static int compare(const char *s, const char *t) {
  while (*s && *s == *t)
    s++, t++;
  return (uint8_t)*s - (uint8_t)*t;
}

static void copy(char *to, const char *from) {
  while ((*to++ = *from++)) {
  }
}

static void turn_around(char *s) {
  for (uint16_t i = 0, j = length(s) - 1; i < j; i++, j--) {
    char it = s[i];
    s[i] = s[j];
    s[j] = it;
  }
}

static char *find(char *s, const char *what) {
  for (; *s; s++) {
    const char *q = what;
    for (char *p = s; *q && *p == *q; p++)
      q++;
    if (!*q)
      return s;
  }
  return 0;
}

static void write_number(uint16_t number, char *to) {
  uint16_t count = 0;
  do {
    to[count++] = '0' + number % 10;
    number /= 10;
  } while (number);
  to[count] = 0;
  turn_around(to);
}

static uint16_t read_number(const char *s) {
  uint16_t number = 0;
  while (*s >= '0' && *s <= '9')
    number = number * 10 + (*s++ - '0');
  return number;
}

static void to_upper_case(char *s) {
  for (; *s; s++)
    if (*s >= 'a' && *s <= 'z')
      *s -= 32;
}

int main(void) {
  uint16_t sum = 0;
  for (uint16_t k = 0; k < 60; k++) {
    copy(one, text);
    turn_around(one);
    copy(other, one);
    turn_around(other);
    sum += compare(other, text);
    char *found = find(other, "12345");
    sum += found ? read_number(found) + k : 1;
    to_upper_case(other);
    sum += length(other) + compare(one, other);
    write_number(sum, one);
    sum ^= read_number(one) + k;
  }
  result = sum;
  return 0;
}
