// String instructions with their repeats, both ways.
// > length 11, empty 0
// > copied: hello world
// > moved up: ababcdefgh
// > moved down: cdefghghij
// > compared: 0 1 -1
// > filled: ******......====
// > last o at 7, no z
// > reversed: dlrow olleh
// > total: 1116
// > words: 00000007 00000007 00000007
// ends 11
#include "base.h"

static word length(const char *text) {
  word left = ~0u;
  __asm__ volatile("repne scasb" : "+D"(text), "+c"(left) : "a"(0) : "memory", "cc");
  return ~left - 1;
}
static void copy(char *to, const char *from, word count) {
  word fours = count / 4, ones = count % 4;
  __asm__ volatile("rep movsl\n mov %3, %2\n rep movsb" : "+D"(to), "+S"(from), "+c"(fours) : "r"(ones) : "memory");
}
static void move(char *to, const char *from, word count) {
  if (to <= from) {
    __asm__ volatile("rep movsb" : "+D"(to), "+S"(from), "+c"(count) : : "memory");
    return;
  }
  to += count - 1, from += count - 1;
  __asm__ volatile("std\n rep movsb\n cld" : "+D"(to), "+S"(from), "+c"(count) : : "memory");
}
static int compare(const char *a, const char *b, word count) {
  byte above, below;
  __asm__ volatile("cmp %%eax, %%eax\n repe cmpsb\n seta %b3\n setb %b4"
                   : "+S"(a), "+D"(b), "+c"(count), "=&q"(above), "=&q"(below) : : "memory", "cc");
  return above - below;
}
static void fill(char *to, char c, word count) {
  __asm__ volatile("rep stosb" : "+D"(to), "+c"(count) : "a"(c) : "memory");
}
static int last(const char *text, word count, char c) {
  const char *at = text + count - 1;
  word left = count;
  byte found;
  __asm__ volatile("test %%edi, %%edi\n std\n repne scasb\n cld\n sete %b2"
                   : "+D"(at), "+c"(left), "=d"(found) : "a"(c) : "memory", "cc");
  return found ? (int)left : -1;
}
static int total(const char *text, word count) {
  int sum = 0, c = 0;
  __asm__ volatile("1: lodsb\n add %%eax, %2\n loop 1b" : "+S"(text), "+c"(count), "+r"(sum), "+a"(c) : : "memory", "cc");
  return sum;
}

int run(int count, char **words) {
  (void)count, (void)words;
  char line[20];
  const char *hello = "hello world";
  word n = length(hello);
  put("length ");
  put_number(n);
  put(", empty ");
  put_number(length(""));
  fill(line, 0, sizeof line);
  copy(line, hello, n);
  put("\ncopied: ");
  put(line);
  copy(line, "abcdefghij", 11);
  move(line + 2, line, 8);
  put("\nmoved up: ");
  put(line);
  copy(line, "abcdefghij", 11);
  move(line, line + 2, 6);
  put("\nmoved down: ");
  put(line);
  put("\ncompared: ");
  put_number(compare("same", "same", 4));
  put(" ");
  put_number(compare("b", "a", 1));
  put(" ");
  put_number(compare("abc\x7f", "abc\x80", 4));
  fill(line, '*', 6);
  fill(line + 6, '.', 6);
  fill(line + 12, '=', 4);
  line[16] = 0;
  put("\nfilled: ");
  put(line);
  put("\nlast o at ");
  put_number(last(hello, n, 'o'));
  put(last(hello, n, 'z') < 0 ? ", no z" : ", z");
  fill(line, 0, sizeof line);
  for (word k = 0; k < n; k++) line[n - 1 - k] = hello[k];
  put("\nreversed: ");
  put(line);
  put("\ntotal: ");
  put_number(total(hello, n));
  word cells[3] = {0}, three = 3;
  word *to = cells;
  __asm__ volatile("rep stosl" : "+D"(to), "+c"(three) : "a"(7) : "memory");
  put("\nwords:");
  for (int k = 0; k < 3; k++) {
    put(" ");
    put_hex(cells[k]);
  }
  put("\n");
  return n;
}
