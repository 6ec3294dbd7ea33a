// Ends by an invalid instruction (SIGILL).
// > before
// ends 132
#include "base.h"

int run(int count, char **words) {
  (void)count, (void)words;
  put("before\n");
  __asm__ volatile("ud2");
  put("after\n");
  return 0;
}
