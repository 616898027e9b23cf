// Sorts 1,000 words by quicksort and heapsort, and 400 by insertion.
#include "bench.h"

uint16_t result;
static uint16_t words[1000];

static void exchange(uint16_t *a, int16_t i, int16_t j) {
  uint16_t it = a[i];
  a[i] = a[j];
  a[j] = it;
}

static void quicksort(uint16_t *a, int16_t low, int16_t high) {
  while (low < high) {
    uint16_t pivot = a[low + ((high - low) >> 1)];
    int16_t i = low, j = high;
    while (i <= j) {
      while (a[i] < pivot)
        i++;
      while (a[j] > pivot)
        j--;
      if (i <= j)
        exchange(a, i++, j--);
    }
    if (j - low < high - i) {
      quicksort(a, low, j);
      low = i;
    } else {
      quicksort(a, i, high);
      high = j;
    }
  }
}

static void insertion_sort(uint16_t *a, int16_t count) {
  for (int16_t i = 1; i < count; i++) {
    uint16_t it = a[i];
    int16_t j = i - 1;
    for (; j >= 0 && a[j] > it; j--)
      a[j + 1] = a[j];
    a[j + 1] = it;
  }
}

static void sift(uint16_t *a, int16_t root, int16_t count) {
  for (int16_t child; (child = 2 * root + 1) < count; root = child) {
    if (child + 1 < count && a[child] < a[child + 1])
      child++;
    if (a[root] >= a[child])
      break;
    exchange(a, root, child);
  }
}

static void heapsort(uint16_t *a, int16_t count) {
  for (int16_t root = count / 2 - 1; root >= 0; root--)
    sift(a, root, count);
  for (int16_t end = count - 1; end > 0; end--) {
    exchange(a, 0, end);
    sift(a, 0, end);
  }
}

static uint16_t fill(uint16_t random) {
  for (uint16_t i = 0; i < 1000; i++) {
    random ^= random << 7;
    random ^= random >> 9;
    random ^= random << 8;
    words[i] = random;
  }
  return random;
}

int main(void) {
  uint16_t random = 1, sum = 0;
  for (uint16_t k = 0; k < 6; k++) {
    uint16_t count = k < 5 ? 1000 : 400;
    random = fill(random);
    if (k < 3)
      quicksort(words, 0, 999);
    else if (k < 5)
      heapsort(words, 1000);
    else
      insertion_sort(words, 400);
    for (uint16_t i = 1; i < count; i++)
      if (words[i - 1] > words[i])
        sum |= 1 << k;
    sum += words[k] << 1;
  }
  result = sum;
  return 0;
}
