// Children that stop and go on.
// > stopped by 19
// > went on, ends with 3
// > stopped by 20
// > ended by 9
// > stopped while it worked, went on, ends with 50
// ends 2
#include "kernel.h"

enum { UNTRACED = 2 };
static volatile int ticks, told;
static void on_tick(int sig) {
  (void)sig;
  ticks++;
}
static void on_word(int sig) {
  (void)sig;
  told = 1;
}
static __attribute__((noinline)) word fibonacci(word n) { return n < 2 ? n : fibonacci(n - 1) + fibonacci(n - 2); }
static int wait_stop(int child) {
  int status = 0;
  kernel(WAIT4, child, (word)&status, UNTRACED, 0);
  return (status & 255) == 127 ? status >> 8 : -1;
}

int run(int count, char **words) {
  (void)count, (void)words;
  int child = kernel(FORK, 0, 0, 0, 0);
  if (child == 0) {
    send(STOP);
    kernel(EXIT, 3, 0, 0, 0);
  }
  line("stopped by ", wait_stop(child));
  kernel(KILL, child, CONT, 0, 0);
  line("went on, ends with ", wait_for(child) >> 8);
  child = kernel(FORK, 0, 0, 0, 0);
  if (child == 0) {
    send(TSTP);
    kernel(EXIT, 4, 0, 0, 0);
  }
  line("stopped by ", wait_stop(child));
  kernel(KILL, child, 9, 0, 0);
  line("ended by ", wait_for(child) & 127);
  block(bit(USR1));
  child = kernel(FORK, 0, 0, 0, 0);
  if (child == 0) {
    on(ALRM, on_tick, RESTORER, 0);
    on(USR1, on_word, RESTORER, 0);
    block(0);
    tick(1000);
    while (ticks < 50 || !told) fibonacci(10);
    kernel(EXIT, 50, 0, 0, 0);
  }
  for (int k = 0; k < 10; k++) {
    word time[2] = {0, 2000000};
    kernel(NANOSLEEP, (word)time, 0, 0, 0);
    kernel(KILL, child, STOP, 0, 0);
    if (wait_stop(child) != STOP) break;
    kernel(KILL, child, CONT, 0, 0);
  }
  kernel(KILL, child, USR1, 0, 0);
  int ended = wait_for(child) >> 8;
  line("stopped while it worked, went on, ends with ", ended);
  return 2;
}
