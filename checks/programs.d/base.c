#include "base.h"

static int call(int number, word a, word b, word c) {
  int result;
  __asm__ volatile("int $0x80" : "=a"(result) : "a"(number), "b"(a), "c"(b), "d"(c) : "memory");
  return result;
}

void put(const char *text) {
  word length = 0;
  while (text[length]) length++;
  call(4, 1, (word)text, length);
}

void put_char(char c) { call(4, 1, (word)&c, 1); }

void put_number(int n) {
  char digits[12];
  int at = 11;
  word left = n < 0 ? -(word)n : (word)n;
  digits[at] = 0;
  do digits[--at] = '0' + left % 10;
  while (left /= 10);
  if (n < 0) digits[--at] = '-';
  put(digits + at);
}

void put_hex(word n) {
  char digits[9];
  for (int k = 7; k >= 0; k--, n >>= 4) digits[k] = "0123456789abcdef"[n & 15];
  digits[8] = 0;
  put(digits);
}

word get(char *to, word size) {
  int length = call(3, 0, (word)to, size);
  return length < 0 ? 0 : length;
}

/* gcc may call these two where a program copies or clears */
void *memcpy(void *to, const void *from, word length) {
  void *at = to;
  __asm__ volatile("rep movsb" : "+D"(at), "+S"(from), "+c"(length) : : "memory");
  return to;
}

void *memset(void *to, int value, word length) {
  void *at = to;
  __asm__ volatile("rep stosb" : "+D"(at), "+c"(length) : "a"(value) : "memory");
  return to;
}
