// Handlers of signals that the program sends itself: one in another, for once, with what is known of the signal.
// > in order: u1 t1 u1 t1
// > 500 signals, 500 handled
// > inside one another: 5 4 3 2 1 done
// > once: u1, then the handler is gone
// > with info: signal 12 code -1 value 77
// > back through the kernel's own code: u1 t1
// > ended by the default
// ends 143
#include "kernel.h"

static volatile int handled, depth;

static void short_name(int sig) {
  put(" ");
  put(sig == USR1 ? "u1" : "u2");
  send(sig == USR1 ? TERM : USR1);
}
static void other_name(int sig) {
  (void)sig;
  put(" t1");
}
static void count(int sig) {
  (void)sig;
  handled++;
}
static void nest(int sig) {
  put(" ");
  put_number(depth);
  if (--depth) send(sig);
}
static void once(int sig) {
  (void)sig;
  put("u1, then");
}
static void tell(int sig, word *info, word *context) {
  (void)context;
  put("signal ");
  put_number(sig);
  put(" code ");
  put_number((int)info[2]);
  line(" value ", (int)info[5]);
}

int run(int count_of_words, char **words) {
  (void)count_of_words, (void)words;
  put("in order:");
  on(USR1, short_name, RESTORER, 0);
  on(TERM, other_name, RESTORER, 0);
  send(USR1);
  send(USR1);
  on(USR2, count, RESTORER, 0);
  for (int k = 0; k < 500; k++) send(USR2);
  put("\n500 signals, ");
  put_number(handled);
  put(" handled\ninside one another:");
  on(USR1, nest, RESTORER | AGAIN, 0);
  depth = 5;
  send(USR1);
  put(" done\nonce: ");
  on(USR2, once, RESTORER | ONCE, 0);
  send(USR2);
  put(handler_of(USR2) ? " there is a handler\n" : " the handler is gone\n");
  put("with info: ");
  on(USR2, tell, RESTORER | WITH_INFO, 0);
  word info[32] = {USR2, 0, (word)-1, kernel(GETPID, 0, 0, 0, 0), 0, 77};
  kernel(SIGQUEUEINFO, info[3], USR2, (word)info, 0);
  put("back through the kernel's own code:");
  on(USR1, short_name, 0, 0);
  on(TERM, other_name, 0, 0);
  send(USR1);
  put("\nended by the default\n");
  on(TERM, 0, 0, 0);
  send(TERM);
  return 0;
}
