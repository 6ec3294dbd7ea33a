// System calls that a signal interrupts: those that end, and those that begin again.
// > pause: -4
// > suspend: -4 with 1 signal
// > sleep: -4, some time is left
// > read: -4
// > read that begins again: 5 hello
// > signals while it waited: some
// > alarm: -4
// ends 11
#include "kernel.h"

static volatile int ticks;
static void on_signal(int sig) {
  (void)sig;
  ticks++;
}
/* the fifth tells the child to write */
static int child;
static void tell_child(int sig) {
  (void)sig;
  if (++ticks == 5) kernel(KILL, child, USR1, 0, 0);
}

int run(int count, char **words) {
  (void)count, (void)words;
  on(ALRM, on_signal, RESTORER, 0);
  on(USR1, on_signal, RESTORER, 0);
  tick(20000);
  line("pause: ", kernel(PAUSE, 0, 0, 0, 0));
  tick(0);
  block(bit(USR1));
  ticks = 0;
  send(USR1);
  word none[2] = {0, 0};
  put("suspend: ");
  put_number(kernel(SIGSUSPEND, (word)none, sizeof none, 0, 0));
  put(" with ");
  put_number(ticks);
  put(" signal\n");
  block(0);
  word time[2] = {20, 0}, left[2] = {0, 0};
  tick(20000);
  put("sleep: ");
  put_number(kernel(NANOSLEEP, (word)time, (word)left, 0, 0));
  put(left[0] ? ", some time is left\n" : ", no time is left\n");
  int ends[2];
  char text[6] = {0};
  kernel(PIPE, (word)ends, 0, 0, 0);
  line("read: ", kernel(READ, ends[0], (word)text, 5, 0));
  tick(0);
  block(bit(USR1));
  child = kernel(FORK, 0, 0, 0, 0);
  if (child == 0) {
    kernel(SIGSUSPEND, (word)none, sizeof none, 0, 0);
    kernel(WRITE, ends[1], (word) "hello", 5, 0);
    kernel(EXIT, 0, 0, 0, 0);
  }
  on(ALRM, tell_child, RESTORER | RESTARTS, 0);
  ticks = 0;
  tick(10000);
  put("read that begins again: ");
  put_number(kernel(READ, ends[0], (word)text, 5, 0));
  tick(0);
  put(" ");
  put(text);
  put(ticks >= 5 ? "\nsignals while it waited: some\n" : "\nsignals while it waited: none\n");
  wait_for(child);
  kernel(ALARM, 1, 0, 0, 0);
  line("alarm: ", kernel(PAUSE, 0, 0, 0, 0));
  return 11;
}
