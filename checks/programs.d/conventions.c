// Functions that take their arguments in registers, that drop them themselves, that return structures or use much stack.
// > dropped: 6 321 60
// > registers: 123 10
// > structure: 3 4 7 12
// > drops: 0 4 12 65532
// > large frame: 4950
// > sized frame: 15 55 120
// ends 44
#include "base.h"

static __attribute__((noinline, stdcall)) int sum_three(int a, int b, int c) { return a + b + c; }
static __attribute__((noinline, stdcall)) int digits(int a, int b, int c) { return a + 10 * b + 100 * c; }
static __attribute__((noinline, fastcall)) int digits_fast(int c, int b, int a) { return a + 10 * b + 100 * c; }
static __attribute__((noinline, regparm(3))) int in_registers(int a, int b, int c, int d) { return a + b + c + d; }
static __attribute__((stdcall)) int product(int a, int b, int c) { return a * b * c; }
static __attribute__((stdcall)) int (*volatile through)(int, int, int) = product;

struct four { int a, b, c, d; };
static __attribute__((noinline)) struct four make(int a, int b) {
  struct four made = {a, b, a + b, a * b};
  return made;
}

/* how far the stack pointer stands above the place of the call, after a return that drops so much */
word after_drop_0(void), after_drop_4(void), after_drop_12(void), after_drop_65532(void);
__asm__(
    ".macro after_drop bytes\n"
    "after_drop_\\bytes: push %ebp\n mov %esp, %ebp\n sub $\\bytes, %esp\n mov %esp, %ecx\n call 1f\n"
    " sub %esp, %ecx\n neg %ecx\n mov %ecx, %eax\n mov %ebp, %esp\n pop %ebp\n ret\n"
    "1: ret $\\bytes\n .endm\n"
    ".text\nafter_drop 0\nafter_drop 4\nafter_drop 12\nafter_drop 65532\n");

static __attribute__((noinline)) int large_frame(int n) {
  volatile int cells[20000];
  int sum = 0;
  for (int k = 0; k < n; k++) cells[k * 199] = k;
  for (int k = 0; k < n; k++) sum += cells[k * 199];
  return sum;
}
static __attribute__((noinline)) int sized_frame(int n) {
  volatile int *cells = __builtin_alloca(n * sizeof(int));
  int sum = 0;
  for (int k = 0; k < n; k++) cells[k] = k + 1;
  for (int k = 0; k < n; k++) sum += cells[k];
  return sum;
}

static void show(const char *title, const int *numbers, int count) {
  put(title);
  for (int k = 0; k < count; k++) {
    put(" ");
    put_number(numbers[k]);
  }
  put("\n");
}

int run(int count, char **words) {
  (void)words;
  int one = count - 3;
  int dropped[] = {sum_three(one, 2, 3), digits(one, 2, 3), through(3, 4, 5)};
  int registers[] = {digits_fast(one, 2, 3), in_registers(one, 2, 3, 4)};
  struct four made = make(one + 2, 4);
  int structure[] = {made.a, made.b, made.c, made.d};
  int drops[] = {after_drop_0(), after_drop_4(), after_drop_12(), after_drop_65532()};
  int large = large_frame(100);
  int sized[] = {sized_frame(5), sized_frame(10), sized_frame(15)};
  show("dropped:", dropped, 3);
  show("registers:", registers, 2);
  show("structure:", structure, 4);
  show("drops:", drops, 4);
  show("large frame:", &large, 1);
  show("sized frame:", sized, 3);
  return 44;
}
