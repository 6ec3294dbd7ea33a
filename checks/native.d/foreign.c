// Instructions that the rewriter doesn't know: x87 and SSE in loops, in a handler, across fork, and faults of them.
// > x87 sum: 5050
// > sse sum: 5050
// > a jump to one: 42
// > one behind the other: 30
// > in a handler: 55
// > in a child: 5050
// > reads that the handler mends: 2
// > divided by zero: 8
// > control word: 895
// ends 0
#include "kernel.h"

enum { PAGE = 4096, NONE = 0, READ_WRITE = 3 };
static byte cells[3 * PAGE] __attribute__((aligned(4096)));
static volatile int faults;
static place back;

/* 1 to n, added up */
int x87_sum(int n);
int sse_sum(int n);
/* the loop's head and the instruction behind the call are unknown, and the jump leads to one */
int jumps_to(int n);
int in_row(int n);
int reads_at(void *at);
int divides(void);
int control(void);
__asm__(
    "x87_sum: mov 4(%esp), %ecx\n fldz\n"
    "1: push %ecx\n fiaddl (%esp)\n pop %ecx\n dec %ecx\n jnz 1b\n"
    " push %ecx\n fistpl (%esp)\n pop %eax\n ret\n"
    "sse_sum: mov 4(%esp), %ecx\n xorps %xmm0, %xmm0\n"
    "1: cvtsi2ss %ecx, %xmm1\n addss %xmm1, %xmm0\n dec %ecx\n jnz 1b\n"
    " cvttss2si %xmm0, %eax\n ret\n"
    "jumps_to: mov 4(%esp), %eax\n jmp 2f\n"
    " .byte 0x0f\n"
    "2: movd %eax, %xmm3\n cmp $7, %eax\n je 3f\n xor %eax, %eax\n ret\n"
    "3: mov $6, %ecx\n mul %ecx\n ret\n"
    "in_row: movd 4(%esp), %xmm0\n paddd %xmm0, %xmm0\n movaps %xmm0, %xmm1\n paddd %xmm1, %xmm0\n"
    " psubd %xmm4, %xmm0\n movd %xmm0, %eax\n ret\n"
    "reads_at: mov 4(%esp), %edx\n movss (%edx), %xmm0\n cvttss2si %xmm0, %eax\n ret\n"
    "divides: push $0x1d80\n ldmxcsr (%esp)\n pop %eax\n xorps %xmm1, %xmm1\n xorps %xmm0, %xmm0\n"
    " mov $1, %eax\n cvtsi2ss %eax, %xmm0\n divss %xmm1, %xmm0\n xor %eax, %eax\n ret\n"
    "control: fninit\n push %eax\n fnstcw (%esp)\n pop %eax\n movzwl %ax, %eax\n ret\n");

static volatile int in_handler;
static void adds(int sig) {
  (void)sig;
  in_handler = x87_sum(10);
}
static void mend(int sig, word *info, word *context) {
  (void)sig, (void)context;
  faults++;
  kernel(MPROTECT, info[3] & -PAGE, PAGE, READ_WRITE, 0);
}
static void leave(int sig) { go_to(&back, sig); }

int run(int count, char **words) {
  (void)count, (void)words;
  line("x87 sum: ", x87_sum(100));
  line("sse sum: ", sse_sum(100));
  for (int k = 0; k < 1000; k++)
    if (x87_sum(100) != 5050 || sse_sum(100) != 5050) line("differs at: ", k);
  line("a jump to one: ", jumps_to(7));
  line("one behind the other: ", in_row(7) + in_row(0) + 2);
  on(USR1, adds, RESTORER, 0);
  send(USR1);
  line("in a handler: ", in_handler);
  int child = kernel(FORK, 0, 0, 0, 0);
  if (child == 0) {
    line("in a child: ", sse_sum(100));
    kernel(EXIT, 0, 0, 0, 0);
  }
  wait_for(child);
  on(SEGV, mend, RESTORER | WITH_INFO, 0);
  for (int k = 0; k < 2; k++) {
    *(int *)(cells + PAGE) = 0x3f800000; /* 1.0 */
    kernel(MPROTECT, (word)(cells + PAGE), PAGE, NONE, 0);
    if (reads_at(cells + PAGE) != 1) line("reads: ", k);
  }
  line("reads that the handler mends: ", faults);
  on(FPE, leave, RESTORER, 0);
  int sig = set_place(&back);
  if (!sig) sig = divides();
  line("divided by zero: ", sig);
  line("control word: ", control());
  return 0;
}
