// Ends by a call whose target stands at address 0 (SIGSEGV).
// > before
// ends 139
#include "base.h"

int run(int count, char **words) {
  (void)count, (void)words;
  put("before\n");
  __asm__ volatile("call *0");
  put("after\n");
  return 0;
}
