// Ends by a write to its own code (SIGSEGV).
// > before
// ends 139
#include "base.h"

int run(int count, char **words) {
  (void)count, (void)words;
  put("before\n");
  volatile byte *code = (volatile byte *)run;
  *code = 0x90;
  put("after\n");
  return 0;
}
