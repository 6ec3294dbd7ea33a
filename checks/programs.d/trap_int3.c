// Ends by a breakpoint (SIGTRAP).
// > before
// ends 133
#include "base.h"

int run(int count, char **words) {
  (void)count, (void)words;
  put("before\n");
  __asm__ volatile("int3");
  put("after\n");
  return 0;
}
