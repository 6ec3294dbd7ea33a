// Ends by a return to an address that is in no file (SIGSEGV).
// > before
// ends 139
#include "base.h"

int run(int count, char **words) {
  (void)count, (void)words;
  put("before\n");
  __asm__ volatile("push $0x7ffffffc\n ret");
  put("after\n");
  return 0;
}
