// What is blocked and what handles what: neither changes by signals that come while pieces are under way.
// > blocked: none came, pending: u1 u2
// > unblocked: 10 and 12 came
// > 200 signals with all others blocked
// > blocked as before, handled as before
// > in the handler all but two are blocked
// ends 6
#include "kernel.h"

#define IGNORED ((void *)1)

static volatile int came[32], ticks;
static volatile word inside;

static void note(int sig) { came[sig]++; }
static void unused(int sig) { (void)sig; }
static void on_tick(int sig) {
  (void)sig;
  ticks++;
  inside = block(~0u);
}
static __attribute__((noinline)) word fibonacci(word n) { return n < 2 ? n : fibonacci(n - 1) + fibonacci(n - 2); }

int run(int count, char **words) {
  (void)count, (void)words;
  on(USR1, note, RESTORER, 0);
  on(USR2, note, RESTORER, 0);
  block(bit(USR1) | bit(USR2));
  send(USR1);
  send(USR2);
  word pending[2];
  kernel(SIGPENDING, (word)pending, sizeof pending, 0, 0);
  put(came[USR1] + came[USR2] ? "blocked: some came" : "blocked: none came, pending:");
  put(pending[0] & bit(USR1) ? " u1" : "");
  put(pending[0] & bit(USR2) ? " u2\n" : "\n");
  block(0);
  if (came[USR1] == 1 && came[USR2] == 1) put("unblocked: 10 and 12 came\n");
  on(SEGV, unused, RESTORER, 0);
  on(TRAP, unused, RESTORER, 0);
  on(FPE, IGNORED, RESTORER, 0); 
  on(ALRM, on_tick, RESTORER, ~0u);
  word blocked = bit(USR2) | bit(SEGV) | bit(TRAP);
  block(blocked);
  tick(300);
  while (ticks < 200) fibonacci(10);
  tick(0);
  put("200 signals with all others blocked\n");
  int alike = block(0) == blocked && handler_of(SEGV) == unused && handler_of(TRAP) == unused &&
              handler_of(FPE) == IGNORED && handler_of(ALRM) == on_tick;
  put(alike ? "blocked as before, handled as before\n" : "something changed\n");
  /* a handler can't block the signals 9 and 19 */
  put(inside == (word)~(1u << 8 | 1u << 18) ? "in the handler all but two are blocked\n" : "another mask in the handler\n");
  return 6;
}
