// Dense switches, and jumps to computed labels: a small machine of bytes, run both ways.
// > 10 factorial by switch: 3628800
// > 10 factorial by labels: 3628800
// > days: 31 28 31 30 31 30 31 31 30 31 30 31 0
// > kinds: ddaasspo
// ends 6
#include "base.h"

enum { PUSH, MULTIPLY, SUBTRACT, DUPLICATE, SWAP, OVER, ROTATE, JUMP_ABOVE_ONE, DROP, HALT };
/* result n: while n above 1, result times n, n less one */
static const byte program[] = {PUSH, 1, PUSH, 10, SWAP, OVER, MULTIPLY, SWAP, PUSH, 1, SUBTRACT,
                               DUPLICATE, JUMP_ABOVE_ONE, 4, DROP, HALT};

static int by_switch(const byte *code) {
  int stack[16], *top = stack, t;
  const byte *at = code;
  for (;;) switch (*at++) {
      case PUSH: *top++ = *at++; break;
      case MULTIPLY: top--; top[-1] *= top[0]; break;
      case SUBTRACT: top--; top[-1] -= top[0]; break;
      case DUPLICATE: top[0] = top[-1]; top++; break;
      case SWAP: t = top[-1]; top[-1] = top[-2]; top[-2] = t; break;
      case OVER: top[0] = top[-2]; top++; break;
      case ROTATE: t = top[-3]; top[-3] = top[-2]; top[-2] = top[-1]; top[-1] = t; break;
      case JUMP_ABOVE_ONE: at = *--top > 1 ? code + *at : at + 1; break;
      case DROP: top--; break;
      case HALT: return top[-1];
    }
}

static int by_labels(const byte *code) {
  static void *const labels[] = {&&push, &&multiply, &&subtract, &&duplicate, &&swap,
                                 &&over, &&halt,     &&jump,     &&drop,      &&halt};
  int stack[16], *top = stack, t;
  const byte *at = code;
#define NEXT goto *labels[*at++]
  NEXT;
push: *top++ = *at++; NEXT;
multiply: top--; top[-1] *= top[0]; NEXT;
subtract: top--; top[-1] -= top[0]; NEXT;
duplicate: top[0] = top[-1]; top++; NEXT;
swap: t = top[-1]; top[-1] = top[-2]; top[-2] = t; NEXT;
over: top[0] = top[-2]; top++; NEXT;
jump: at = *--top > 1 ? code + *at : at + 1; NEXT;
drop: top--; NEXT;
halt: return top[-1];
}

static __attribute__((noinline)) int days(int month) {
  switch (month) {
    case 2: return 28;
    case 4: case 6: case 9: case 11: return 30;
    case 1: case 3: case 5: case 7: case 8: case 10: case 12: return 31;
    default: return 0;
  }
}

static __attribute__((noinline)) char kind(char c) {
  switch (c) {
    case '0': case '1': case '2': case '3': case '4': case '5': case '6': case '7': case '8': case '9': return 'd';
    case 'a': case 'b': case 'c': case 'd': case 'e': case 'f': return 'a';
    case ' ': case '\t': return 's';
    case '.': case ',': case ';': return 'p';
  }
  return 'o';
}

int run(int count, char **words) {
  (void)count, (void)words;
  put("10 factorial by switch: ");
  put_number(by_switch(program));
  put("\n10 factorial by labels: ");
  put_number(by_labels(program));
  put("\ndays:");
  int long_months = 0;
  for (int month = 1; month <= 13; month++) {
    put(" ");
    put_number(days(month));
    long_months += days(month) == 31;
  }
  put("\nkinds: ");
  for (const char *text = "07af \t;z"; *text; text++) put_char(kind(*text));
  put("\n");
  return long_months - 1;
}
