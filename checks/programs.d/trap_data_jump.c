// Ends by a jump to where there is no code (SIGSEGV).
// > before
// ends 139
#include "base.h"

int run(int count, char **words) {
  (void)count, (void)words;
  put("before\n");
  static volatile word data[] = {0xC3C3C3C3};
  ((void (*)(void))data)();
  put("after\n");
  return 0;
}
