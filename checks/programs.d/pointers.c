// Functions in tables, in objects, as arguments and as results.
// > 12 and 5: 17 7 60 2 2
// > areas: 49 24 6
// > three times: 15
// > chosen: 30
// > pairs 2, letters 3, digits 3
// ends 73
#include "base.h"

typedef int (*binary)(int, int);
static int add(int a, int b) { return a + b; }
static int subtract(int a, int b) { return a - b; }
static int multiply(int a, int b) { return a * b; }
static int divide(int a, int b) { return a / b; }
static int rest(int a, int b) { return a % b; }
static binary volatile table[] = {add, subtract, multiply, divide, rest};

struct shape {
  int (*area)(const struct shape *);
  int a, b;
};
static int square(const struct shape *s) { return s->a * s->a; }
static int rectangle(const struct shape *s) { return s->a * s->b; }
static int triangle(const struct shape *s) { return s->a * s->b / 2; }

static int repeat(int times, int (*volatile f)(int), int start) {
  while (times-- > 0) start = f(start);
  return start;
}
static int plus_four(int n) { return n + 4; }
static binary choose(char c) { return c == '*' ? multiply : c == '+' ? add : subtract; }

/* a reader whose state is the function that takes the next character */
struct reader {
  void (*next)(struct reader *, char);
  int pairs, letters, digits;
};
static void in_value(struct reader *r, char c);
static void in_name(struct reader *r, char c) {
  if (c == '=') r->next = in_value;
  else r->letters++;
}
static void in_value(struct reader *r, char c) {
  if (c == ';') {
    r->pairs++;
    r->next = in_name;
  } else r->digits++;
}

int run(int count, char **words) {
  (void)count, (void)words;
  put("12 and 5:");
  for (int k = 0; k < 5; k++) {
    put(" ");
    put_number(table[k](12, 5));
  }
  const struct shape shapes[] = {{square, 7, 0}, {rectangle, 3, 8}, {triangle, 3, 4}};
  const struct shape *volatile all = shapes;
  int sum = 0;
  put("\nareas:");
  for (int k = 0; k < 3; k++) {
    put(" ");
    put_number(all[k].area(&all[k]));
    sum += k < 2 ? all[k].area(&all[k]) : 0;
  }
  put("\nthree times: ");
  put_number(repeat(3, plus_four, 3));
  put("\nchosen: ");
  volatile char sign = '*';
  put_number(choose(sign)(5, 6));
  struct reader r = {in_name, 0, 0, 0};
  for (const char *text = "a=1;bb=22;"; *text; text++) r.next(&r, *text);
  put("\npairs ");
  put_number(r.pairs);
  put(", letters ");
  put_number(r.letters);
  put(", digits ");
  put_number(r.digits);
  put("\n");
  return sum;
}
