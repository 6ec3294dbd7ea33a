// Functions with any number of arguments, and the words of the command line.
// > -42 of 4000000000, 0xbeef, x, text, 100%
// > sums: 6 55 0
// > wide: 0123456789abcdef
// > words: 3 (one) (two words) ()
// ends 3
#include "base.h"
#include <stdarg.h>

static void put_unsigned(word n) {
  if (n >= 10) put_unsigned(n / 10);
  put_char('0' + n % 10);
}

static void print(const char *format, ...) {
  va_list list;
  va_start(list, format);
  for (; *format; format++) {
    if (*format != '%') {
      put_char(*format);
      continue;
    }
    switch (*++format) {
      case 'd': put_number(va_arg(list, int)); break;
      case 'u': put_unsigned(va_arg(list, word)); break;
      case 'x': {
        word n = va_arg(list, word), shift = 28;
        while (shift && !(n >> shift)) shift -= 4;
        put("0x");
        for (;; shift -= 4) {
          put_char("0123456789abcdef"[n >> shift & 15]);
          if (shift == 0) break;
        }
        break;
      }
      case 'w': {
        wide n = va_arg(list, wide);
        put_hex(n >> 32);
        put_hex((word)n);
        break;
      }
      case 'c': put_char(va_arg(list, int)); break;
      case 's': put(va_arg(list, char *)); break;
      case '%': put_char('%'); break;
    }
  }
  va_end(list);
}

static int sum(int count, ...) {
  va_list list, again;
  int total = 0;
  va_start(list, count);
  va_copy(again, list);
  for (int k = 0; k < count; k++) total += va_arg(list, int);
  for (int k = 0; k < count; k++) total -= va_arg(again, int) - va_arg(list, int);
  va_end(again);
  va_end(list);
  return total;
}

int run(int count, char **words) {
  print("%d of %u, %x, %c, %s, 100%%\n", -42, 4000000000u, 0xBEEF, 'x', "text");
  print("sums: %d %d %d\n", sum(3, 1, 2, 3, 1, 2, 3), sum(10, 1, 2, 3, 4, 5, 6, 7, 8, 9, 10, 1, 2, 3, 4, 5, 6, 7, 8, 9, 10),
        sum(0));
  print("wide: %w\n", 0x0123456789ABCDEFull);
  print("words: %d", count - 1);
  for (int k = 1; k < count; k++) print(" (%s)", words[k]);
  print("\n");
  return count - 1;
}
