// Children: their statuses, their own handlers, the parent's handler of their end, and memory shared until an end.
// > child ends with 7
// > child ended by signal 15
// > child handles: got 10, got 10, ends with 2
// > a child's child ends with 9
// > ends that were told: 5
// > shared until its end: 33
// > ten at once: 45
// ends 1
#include "kernel.h"

static volatile int ended, got;
static void on_end(int sig) {
  (void)sig;
  ended++;
}
static void on_signal(int sig) {
  put("got ");
  put_number(sig);
  put(", ");
  got++;
}
static int fork(void) { return kernel(FORK, 0, 0, 0, 0); }
static void leave(int status) {
  kernel(EXIT, status, 0, 0, 0);
}
static int status_of(int child) { return wait_for(child) >> 8 & 255; }

static void with_own_handler(void) {
  put("child handles: ");
  int child = fork();
  if (child == 0) {
    on(USR1, on_signal, RESTORER, 0);
    send(USR1);
    send(USR1);
    leave(got);
  }
  line("ends with ", status_of(child));
}

/* The child lives on the parent's memory and stack until it ends, so it calls nothing. */
static __attribute__((noinline)) int shared(volatile int *cell) {
  int child;
  __asm__ volatile(
      "int $0x80\n test %%eax, %%eax\n jnz 1f\n movl $33, (%%esi)\n mov $1, %%eax\n xor %%ebx, %%ebx\n int $0x80\n1:"
      : "=a"(child) : "a"(VFORK), "S"(cell) : "ebx", "memory");
  return child;
}

int run(int count, char **words) {
  (void)count, (void)words;
  on(CHLD, on_end, RESTORER | RESTARTS, 0);
  int child = fork();
  if (child == 0) leave(7);
  line("child ends with ", status_of(child));
  child = fork();
  if (child == 0)
    for (;;) kernel(PAUSE, 0, 0, 0, 0);
  kernel(KILL, child, TERM, 0, 0);
  line("child ended by signal ", wait_for(child) & 127);
  with_own_handler();
  child = fork();
  if (child == 0) {
    int inner = fork();
    if (inner == 0) leave(9);
    leave(status_of(inner));
  }
  line("a child's child ends with ", status_of(child));
  volatile int cell = 0;
  child = shared(&cell);
  wait_for(child);
  line("ends that were told: ", ended);
  line("shared until its end: ", cell);
  int children[10], sum = 0;
  for (int k = 0; k < 10; k++)
    if ((children[k] = fork()) == 0) leave(k);
  for (int k = 0; k < 10; k++) sum += status_of(children[k]);
  line("ten at once: ", sum);
  return 1;
}
