// Ends by an instruction of the system (SIGSEGV).
// > before
// ends 139
#include "base.h"

int run(int count, char **words) {
  (void)count, (void)words;
  put("before\n");
  __asm__ volatile("hlt");
  put("after\n");
  return 0;
}
