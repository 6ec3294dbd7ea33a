// Executes itself and another program of the same kind, whose name is its first word, in children and in its own place.
// > again: handled
// > child ends with 66
// > other: 20 signals
// > child ends with 77
// > no such file: -2
// > other: 20 signals
// ends 77
#include "kernel.h"

static void on_signal(int sig) {
  (void)sig;
  put("again: handled\n");
}
static int execute(char *name, char *word_) {
  char *words[] = {name, word_, 0}, *none[] = {0};
  return kernel(EXECVE, (word)name, (word)words, (word)none, 0);
}
static void in_child(char *name, char *word_) {
  int child = kernel(FORK, 0, 0, 0, 0);
  if (child == 0) {
    execute(name, word_);
    kernel(EXIT, 1, 0, 0, 0);
  }
  line("child ends with ", wait_for(child) >> 8);
}

int run(int count, char **words) {
  on(USR1, on_signal, RESTORER, 0);
  if (count == 2) {
    send(USR1);
    return 66;
  }
  in_child(words[0], "again");
  in_child(words[1], "other");
  line("no such file: ", execute("/nowhere/at/all", "x"));
  execute(words[1], "other");
  return 1;
}
