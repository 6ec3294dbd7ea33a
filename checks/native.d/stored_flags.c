// Signals that come at instructions which store and load the flags: the trap flag is in none of them.
// > after a system call: 42
// > 200 signals, flags never spoiled
// ends 5
#include "kernel.h"

static volatile int ticks;
static void on_signal(int sig) {
  (void)sig;
  ticks++;
}

/* sends itself a signal, and loads flags by the next instruction */
word send_and_load(word process, word sig);
/* the flags' image after many loads of the flags: its carry and its trap flag */
word load_often(word times);
__asm__(
    "send_and_load: push %ebx\n mov 8(%esp), %ebx\n mov 12(%esp), %ecx\n pushf\n mov $37, %eax\n int $0x80\n popf\n"
    " pop %ebx\n mov $42, %eax\n ret\n"
    "load_often: mov 4(%esp), %ecx\n stc\n pushf\n"
    "1: popf\n pushf\n popf\n pushf\n dec %ecx\n jnz 1b\n popf\n pushf\n pop %eax\n and $0x101, %eax\n ret\n");

int run(int count, char **words) {
  (void)count, (void)words;
  on(USR1, on_signal, RESTORER, 0);
  line("after a system call: ", (int)send_and_load(kernel(GETPID, 0, 0, 0, 0), USR1));
  ticks = 0;
  on(ALRM, on_signal, RESTORER, 0);
  tick(300);
  int spoiled = 0;
  while (ticks < 200) spoiled += load_often(500) != 1;
  tick(0);
  put(spoiled ? "flags were spoiled\n" : "200 signals, flags never spoiled\n");
  return 5;
}
