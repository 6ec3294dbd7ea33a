// A thread area that is reached through GS, and what CPUID tells.
// > area 0 holds 7, 0, 1992
// > a call through it: 49
// > area 1 holds 29
// > area 0 again: 1992, selector kept
// > none: 0
// > cpuid knows leaf 1, name of 12 letters
// ends 41
#include "base.h"

/* what Linux calls a user_desc: the entry -1 asks for a free one */
struct descriptor { word entry, base, limit, flags; };

/* Linux reads no more than the address of the structure; the base in ECX is for who records the call */
static word selector_of(struct descriptor *d) {
  int result;
  __asm__ volatile("int $0x80" : "=a"(result) : "a"(243), "b"(d), "c"(d->base) : "memory");
  return result == 0 ? d->entry * 8 + 3 : 0;
}

static void load(word selector) { __asm__ volatile("mov %w0, %%gs" : : "r"(selector)); }
static word loaded(void) {
  word selector;
  __asm__ volatile("mov %%gs, %0" : "=r"(selector));
  return selector;
}
static word stored(void) {
  volatile unsigned short selector = 0xffff;
  __asm__ volatile("mov %%gs, %0" : "=m"(selector));
  return selector;
}

static int square(int n) { return n * n; }
static word areas[2][16];

/* writes, changes, copies and exchanges words of the area: (58 + 1 + n) * n, also at 20 */
static word use(word n) {
  word sum;
  __asm__ volatile(
      "mov %1, %%eax\n mov %%eax, %%gs:8\n movl $0, %%gs:4\n lock incl %%gs:12\n addl %%eax, %%gs:12\n"
      "push %%gs:12\n popl %%gs:16\n mov $16, %%ecx\n mov %%gs:(%%ecx), %%edx\n imul %%gs:8, %%edx\n xchg %%edx, %%gs:20\n"
      "mov %%gs:20, %%eax\n mov %%eax, %0"
      : "=r"(sum) : "r"(n) : "eax", "ecx", "edx", "memory", "cc");
  return sum;
}

static word at(word place) {
  word value;
  __asm__ volatile("mov %%gs:(%1), %0" : "=r"(value) : "r"(place));
  return value;
}

static word call_through(word place, int n) {
  word result;
  __asm__ volatile("push %2\n call *%%gs:(%1)\n add $4, %%esp" : "=a"(result) : "b"(place), "r"(n) : "ecx", "edx", "memory", "cc");
  return result;
}

static void show(const char *title, word n, const char *end) {
  put(title);
  put_number((int)n);
  put(end);
}

int run(int count, char **words) {
  (void)count, (void)words;
  struct descriptor first = {(word)-1, (word)areas[0], 0xfffff, 0x51}, second = {(word)-1, (word)areas[1], 0xfffff, 0x51};
  word one = selector_of(&first), two = selector_of(&second);
  if (!one || !two) return 1;
  load(one);
  areas[0][0] = 7;
  areas[0][15] = (word)square;
  areas[0][1] = 5;
  areas[0][3] = 58;
  word product = use(24);
  show("area 0 holds ", at(0), ", ");
  show("", areas[0][1], ", ");
  show("", product, "\n");
  show("a call through it: ", call_through(60, 7), "\n");
  areas[1][0] = 29;
  load(two);
  show("area 1 holds ", at(0), "\n");
  load(one);
  show("area 0 again: ", at(20), loaded() == one && stored() == (one & 0xffff) ? ", selector kept\n" : ", selector lost\n");
  load(0);
  show("none: ", loaded(), "\n");
  word leaf, name[3], letters = 0;
  __asm__ volatile("cpuid" : "=a"(leaf), "=b"(name[0]), "=d"(name[1]), "=c"(name[2]) : "a"(0));
  for (int k = 0; k < 12; k++) letters += (name[k / 4] >> 8 * (k % 4) & 0xff) >= 0x20;
  put(leaf >= 1 ? "cpuid knows leaf 1" : "cpuid knows leaf 0");
  show(", name of ", letters, " letters\n");
  return 41;
}
