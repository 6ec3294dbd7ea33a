// Ends by a call to address 0 (SIGSEGV).
// > before
// ends 139
#include "base.h"

int run(int count, char **words) {
  (void)count, (void)words;
  put("before\n");
  void (*volatile f)(void) = 0;
  f();
  put("after\n");
  return 0;
}
