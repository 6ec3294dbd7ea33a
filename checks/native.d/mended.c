// Faults that the handler mends, so that the instruction begins again: reads, writes, calls, jumps, returns, copies.
// > read: 77
// > write: 78
// > call through memory: 177
// > jump through memory: 178
// > push: 79
// > return: 180
// > copy over two pages: 81
// > faults: 8
// > goes on where the handler says: 91
// ends 8
#include "kernel.h"

enum { PAGE = 4096, NONE = 0, READ_WRITE = 3 };
static byte cells[3 * PAGE] __attribute__((aligned(4096)));
static byte spare[8192];
static volatile int faults;

static int one(int n) { return n + 1; }
static int two(int n) { return n - 1; }
static int (*volatile ways[])(int) = {one, two};

/* calls and returns a good deal, so that what it leaves in the private area tells */
static void mend(int sig, word *info, word *context) {
  (void)sig, (void)context;
  faults++;
  for (int k = 0; k < 50; k++) faults = ways[1](ways[0](faults));
  kernel(MPROTECT, info[3] & -PAGE, PAGE, READ_WRITE, 0);
}
/* the third argument's 20th word is the interrupted EIP */
enum { SAVED_EIP = 19 };
int read_null(void);
void instead(void);
static void go_elsewhere(int sig, word *info, word *context) {
  (void)sig, (void)info;
  context[SAVED_EIP] = (word)instead;
}
static void shut(byte *page) { kernel(MPROTECT, (word)page, PAGE, NONE, 0); }

/* with 100 in EAX and 70 in ECX: what the function that is found in memory makes of them */
int call_through(void *cell);
int jump_through(void *cell);
int push_at(void *top);
int return_at(void *top);
__asm__(
    "call_through: mov 4(%esp), %edx\n mov $100, %eax\n mov $70, %ecx\n call *(%edx)\n ret\n"
    "jump_through: mov 4(%esp), %edx\n mov $101, %eax\n mov $70, %ecx\n jmp *(%edx)\n"
    "push_at: mov %esp, %edx\n mov 4(%esp), %esp\n push $79\n pop %eax\n mov %edx, %esp\n ret\n"
    "return_at: mov %esp, %edx\n mov $110, %eax\n mov 4(%esp), %esp\n mov $70, %ecx\n ret\n"
    "read_null: xor %edx, %edx\n mov (%edx), %eax\n ret\n"
    "instead: mov $91, %eax\n ret\n"
    "sums: lea 7(%eax, %ecx), %eax\n ret\n"
    "sums_back: lea (%eax, %ecx), %eax\n mov %edx, %esp\n ret\n");
void sums(void);
void sums_back(void);

int run(int count, char **words) {
  (void)count, (void)words;
  word stack[3] = {(word)spare, 0, sizeof spare};
  kernel(SIGALTSTACK, (word)stack, 0, 0, 0);
  on(SEGV, mend, RESTORER | WITH_INFO | ON_STACK, ~0u);
  volatile int *cell = (int *)(cells + PAGE);
  *cell = 77;
  shut(cells + PAGE);
  line("read: ", *cell);
  shut(cells + PAGE);
  *cell = 78;
  line("write: ", *cell);
  *cell = (int)sums;
  shut(cells + PAGE);
  line("call through memory: ", call_through((void *)cell));
  shut(cells + PAGE);
  line("jump through memory: ", jump_through((void *)cell));
  shut(cells + PAGE);
  line("push: ", push_at(cells + 2 * PAGE));
  *cell = (int)sums_back;
  shut(cells + PAGE);
  line("return: ", return_at((void *)cell));
  for (int k = 0; k < PAGE; k++) cells[k] = k % 81;
  cells[200] = 81;
  shut(cells + PAGE);
  shut(cells + 2 * PAGE);
  byte *to = cells + PAGE + 100;
  const byte *from = cells;
  word left = PAGE;
  __asm__ volatile("rep movsb" : "+D"(to), "+S"(from), "+c"(left) : : "memory");
  line("copy over two pages: ", cells[PAGE + 300]);
  line("faults: ", faults);
  on(SEGV, go_elsewhere, RESTORER | WITH_INFO, 0);
  line("goes on where the handler says: ", read_null());
  return faults;
}
