// Ends by a division by zero (SIGFPE).
// > before
// ends 136
#include "base.h"

int run(int count, char **words) {
  (void)count, (void)words;
  put("before\n");
  volatile int zero = 0;
  put_number(count / zero);
  put("after\n");
  return 0;
}
