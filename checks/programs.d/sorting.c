// Sorting and searching with a comparison that is passed as a pointer.
// > up: -90 2 24 45 66 75 170 802
// > down: 802 170 75 66 45 24 2 -90
// > heap: -90 2 24 45 66 75 170 802
// > names: Bell Curie Franklin Gauss Hopper Noether
// > found at 5, not found -1
// > 500 mixed numbers are in order
// ends 0
#include "base.h"

typedef int (*comparison)(const void *, const void *);

static void swap(byte *a, byte *b, word size) {
  while (size--) {
    byte t = *a;
    *a++ = *b;
    *b++ = t;
  }
}

static void quick_sort(void *data, word count, word size, comparison compare) {
  byte *items = data;
  if (count < 2) return;
  swap(items, items + count / 2 * size, size);
  word last = 0;
  for (word k = 1; k < count; k++)
    if (compare(items + k * size, items) < 0) swap(items + ++last * size, items + k * size, size);
  swap(items, items + last * size, size);
  quick_sort(items, last, size, compare);
  quick_sort(items + (last + 1) * size, count - last - 1, size, compare);
}

static void sink(byte *items, word at, word count, word size, comparison compare) {
  for (word child; (child = 2 * at + 1) < count; at = child) {
    if (child + 1 < count && compare(items + child * size, items + (child + 1) * size) < 0) child++;
    if (compare(items + at * size, items + child * size) >= 0) return;
    swap(items + at * size, items + child * size, size);
  }
}

static void heap_sort(void *data, word count, word size, comparison compare) {
  for (word k = count / 2; k-- > 0;) sink(data, k, count, size, compare);
  for (word k = count; k-- > 1;) {
    swap(data, (byte *)data + k * size, size);
    sink(data, 0, k, size, compare);
  }
}

static int find(const void *key, const void *data, int count, word size, comparison compare) {
  int low = 0, high = count;
  while (low < high) {
    int middle = (low + high) / 2, order = compare(key, (const byte *)data + middle * size);
    if (order == 0) return middle;
    if (order < 0) high = middle;
    else low = middle + 1;
  }
  return -1;
}

static int up(const void *a, const void *b) {
  int x = *(const int *)a, y = *(const int *)b;
  return (x > y) - (x < y);
}
static int down(const void *a, const void *b) { return up(b, a); }
static int by_text(const void *a, const void *b) {
  const byte *x = *(const byte *const *)a, *y = *(const byte *const *)b;
  while (*x && *x == *y) x++, y++;
  return *x - *y;
}

static const int numbers[] = {170, 45, 75, -90, 802, 24, 2, 66};
static void show(const char *title, void (*sort)(void *, word, word, comparison), comparison compare) {
  int copy[8];
  for (int k = 0; k < 8; k++) copy[k] = numbers[k];
  sort(copy, 8, sizeof(int), compare);
  put(title);
  for (int k = 0; k < 8; k++) {
    put(" ");
    put_number(copy[k]);
  }
  put("\n");
}

int run(int count, char **words) {
  (void)count, (void)words;
  show("up:", quick_sort, up);
  show("down:", quick_sort, down);
  show("heap:", heap_sort, up);
  const char *names[] = {"Noether", "Gauss", "Curie", "Hopper", "Bell", "Franklin"};
  quick_sort(names, 6, sizeof(char *), by_text);
  put("names:");
  for (int k = 0; k < 6; k++) {
    put(" ");
    put(names[k]);
  }
  const char *known = "Noether", *other = "Newton";
  put("\nfound at ");
  put_number(find(&known, names, 6, sizeof(char *), by_text));
  put(", not found ");
  put_number(find(&other, names, 6, sizeof(char *), by_text));
  static int mixed[500];
  word x = 7;
  for (int k = 0; k < 500; k++) mixed[k] = (int)(x = x * 1664525 + 1013904223);
  heap_sort(mixed, 250, sizeof(int), up);
  quick_sort(mixed, 500, sizeof(int), up);
  int wrong = 0;
  for (int k = 1; k < 500; k++) wrong += mixed[k - 1] > mixed[k];
  put(wrong ? "\n500 mixed numbers are out of order\n" : "\n500 mixed numbers are in order\n");
  return wrong;
}
