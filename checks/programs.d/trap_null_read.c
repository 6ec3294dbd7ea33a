// Ends by a read at address 0 (SIGSEGV).
// > before
// ends 139
#include "base.h"

int run(int count, char **words) {
  (void)count, (void)words;
  put("before\n");
  int *volatile p = 0;
  put_number(*p);
  put("after\n");
  return 0;
}
