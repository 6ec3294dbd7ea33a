// The program that others execute: it has its own handlers, at its own addresses.
// > other: 20 signals
// ends 77
#include "kernel.h"

static volatile int handled;
static void count(int sig) {
  (void)sig;
  handled++;
}

int run(int count_of_words, char **words) {
  (void)count_of_words, (void)words;
  on(USR2, count, RESTORER, 0);
  on(ALRM, count, RESTORER, 0);
  for (int k = 0; k < 10; k++) send(USR2);
  tick(1000);
  while (handled < 20) kernel(PAUSE, 0, 0, 0, 0);
  tick(0);
  put("other: 20 signals\n");
  return 77;
}
