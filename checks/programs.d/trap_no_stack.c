// Ends by a call without a stack (SIGSEGV).
// > before
// ends 139
#include "base.h"

int run(int count, char **words) {
  (void)count, (void)words;
  put("before\n");
  __asm__ volatile("xor %esp, %esp\n call run");
  put("after\n");
  return 0;
}
