// A timer's signals come at any instruction, while pieces of calls, returns, jumps and conditions are under way: each
// round of work must come to what it came to before the timer ran.
// > 400 signals came, and all rounds are alike
// > signals that weren't the timer's: 0
// ends 0
#include "kernel.h"

enum { TICKS = 400, MANY = 4000000, SENT_BY_KERNEL = 128 };
static volatile int ticks, others;
static volatile word spoiled;

static word add(word a, word b) { return a + b; }
static word turn(word a, word b) { return (a << 7 | a >> 25) ^ b; }
static word spread(word a, word b) { return a * 2654435761u + b; }
static word (*volatile ways[])(word, word) = {add, turn, spread};

static __attribute__((noinline)) word choose(word which, word a) {
  switch (which % 8) {
    case 0: return a + 1;
    case 1: return a ^ 0x55;
    case 2: return ways[2](a, 3);
    case 3: return a - which;
    case 4: return ~a;
    case 5: return ways[1](a, which);
    case 6: return a >> 3;
    default: return a * 5;
  }
}

static __attribute__((noinline)) word climb(word n, word a) { return n ? climb(n - 1, ways[n % 3](a, n)) + n : a; }

/* carries and stored flags, kept over a call that drops its operand */
word flags_round(word a);
__asm__(
    "flags_round: mov 4(%esp), %eax\n mov $9, %ecx\n clc\n"
    "1: adc $0x71234567, %eax\n pushf\n push %eax\n call drops\n popf\n loop 1b\n sbb %edx, %edx\n xor %edx, %eax\n ret\n"
    "drops: xor %edx, %edx\n ret $4\n");

static word work(word seed) {
  word sum = seed;
  for (word k = 0; k < 24; k++) {
    sum = choose(k, sum);
    sum = climb(k % 5, sum);
    sum ^= flags_round(sum);
  }
  return sum;
}

static void on_tick(int sig, word *info, word *context) {
  (void)context;
  ticks++;
  others += sig != ALRM || info[0] != ALRM || info[2] != SENT_BY_KERNEL;
  spoiled += climb(6, ticks) + choose(ticks, 1) + flags_round(ticks);
}

int run(int count, char **words) {
  (void)count, (void)words;
  word wanted[4];
  for (word k = 0; k < 4; k++) wanted[k] = work(k);
  on(ALRM, on_tick, RESTORER | WITH_INFO, 0);
  tick(300);
  for (int round = 0; ticks < TICKS && round < MANY; round++)
    if (work(round % 4) != wanted[round % 4]) {
      line("a round differs after ticks: ", ticks);
      return 1;
    }
  tick(0);
  put(ticks >= TICKS ? "400 signals came, and all rounds are alike\n" : "the timer is too slow\n");
  line("signals that weren't the timer's: ", others);
  return 0;
}
