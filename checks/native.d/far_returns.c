// Handlers that leave by longjmp: of signals that were sent, of a timer, and of faults of every kind.
// > sent: 300
// > timer: 100
// > null read: 11
// > null call: 11
// > jump into data: 11
// > call through a null table: 11
// > return to nowhere: 11
// > no stack: 11
// > divide: 8
// > ud2: 4
// > int3: 5
// > hlt: 11
// ends 12
#include "kernel.h"

static place back;
static void leave(int sig) { go_to(&back, sig); }
static word cells[4096], spare[2048];

static void null_read(void) { put_number(*(int *volatile)0); }
static void null_call(void) {
  void (*volatile f)(void) = 0;
  f();
}
static void data_jump(void) { __asm__ volatile("jmp *%0" : : "r"(cells)); }
static void table_call(void) {
  void (**volatile table)(void) = (void (**)(void))16;
  table[1]();
}
static void bad_return(void) { __asm__ volatile("push $0x20\n ret"); }
static void no_stack(void) { __asm__ volatile("mov %%esp, %%ebp\n xor %%esp, %%esp\n call 1f\n1:" : : : "memory"); }
static void divide(void) {
  volatile int zero = 0, n = 10;
  put_number(n / zero);
}
static void ud2(void) { __asm__ volatile("ud2"); }
static void int3(void) { __asm__ volatile("int3"); }
static void hlt(void) { __asm__ volatile("hlt"); }

static void (*const faults[])(void) = {null_read, null_call, data_jump, table_call, bad_return,
                                       no_stack, divide, ud2, int3, hlt};
static const char *const names[] = {"null read: ", "null call: ", "jump into data: ", "call through a null table: ",
                                    "return to nowhere: ", "no stack: ", "divide: ", "ud2: ", "int3: ", "hlt: "};
enum { FAULTS = sizeof faults / sizeof faults[0] };

static __attribute__((noinline)) word fibonacci(word n) { return n < 2 ? n : fibonacci(n - 1) + fibonacci(n - 2); }

static void many_sent(void) {
  static volatile int n;
  set_place(&back);
  if (n++ < 300) send(USR1);
  line("sent: ", n - 1);
}
static void many_ticks(void) {
  static volatile int n;
  tick(500);
  set_place(&back);
  block(0);
  while (n++ < 100)
    for (;;) fibonacci(12);
  tick(0);
  line("timer: ", n - 1);
}

int run(int count, char **words) {
  (void)count, (void)words;
  static const int signals[] = {USR1, SEGV, FPE, ILL, TRAP};
  for (word k = 0; k < sizeof signals / sizeof signals[0]; k++) on(signals[k], leave, RESTORER | AGAIN | ON_STACK, 0);
  on(ALRM, leave, RESTORER, 0);
  word stack[3] = {(word)spare, 0, sizeof spare};
  kernel(SIGALTSTACK, (word)stack, 0, 0, 0);
  many_sent();
  many_ticks();
  for (volatile int k = 0; k < FAULTS; k++) {
    int thrown = set_place(&back);
    if (thrown == 0) faults[k]();
    line(names[k], thrown);
  }
  return 12;
}
