// Functions that call themselves and one another.
// > ackermann 2 9: 21
// > fibonacci 20: 6765
// > hanoi 10: 1023
// > 1001 is odd
// > mccarthy 50: 91
// > partitions of 30: 5604
// > orders of 6: 720
// > sum to 20000: 200010000
// ends 21
#include "base.h"

static word ackermann(word m, word n) {
  if (m == 0) return n + 1;
  if (n == 0) return ackermann(m - 1, 1);
  return ackermann(m - 1, ackermann(m, n - 1));
}
static word fibonacci(word n) { return n < 2 ? n : fibonacci(n - 1) + fibonacci(n - 2); }
static word hanoi(word n, int from, int to) {
  return n == 0 ? 0 : hanoi(n - 1, from, 3 - from - to) + 1 + hanoi(n - 1, 3 - from - to, to);
}
static int is_odd(word n);
static int is_even(word n) { return n == 0 || is_odd(n - 1); }
static int is_odd(word n) { return n != 0 && is_even(n - 1); }
static int mccarthy(int n) { return n > 100 ? n - 10 : mccarthy(mccarthy(n + 11)); }
static word partitions(int n, int largest) {
  if (n == 0) return 1;
  word ways = 0;
  for (int part = largest < n ? largest : n; part > 0; part--) ways += partitions(n - part, part);
  return ways;
}
static word orders(word used, int left) {
  if (left == 0) return 1;
  word ways = 0;
  for (int k = 0; k < 6; k++)
    if (!(used & 1u << k)) ways += orders(used | 1u << k, left - 1);
  return ways;
}
static word gcd(word a, word b) { return b ? gcd(b, a % b) : a; }
static __attribute__((noinline)) int sum(volatile int n) { return n == 0 ? 0 : n + sum(n - 1); }

static void show(const char *title, word value) {
  put(title);
  put_number(value);
  put("\n");
}

int run(int count, char **words) {
  (void)count, (void)words;
  show("ackermann 2 9: ", ackermann(2, 9));
  show("fibonacci 20: ", fibonacci(20));
  show("hanoi 10: ", hanoi(10, 0, 2));
  put(is_odd(1001) ? "1001 is odd\n" : "1001 is even\n");
  show("mccarthy 50: ", mccarthy(50));
  show("partitions of 30: ", partitions(30, 30));
  show("orders of 6: ", orders(0, 6));
  show("sum to 20000: ", sum(20000));
  return gcd(1071, 462);
}
