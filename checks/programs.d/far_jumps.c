// setjmp and longjmp, and two stacks that give way to one another.
// > deep: thrown 7 after 7 calls
// > nested: 1 2 3 done
// > zero is returned as 1
// > taking turns: a0 b0 a1 b1 a2 b2 end
// ends 3
#include "base.h"

typedef struct { word saved[6]; } place;
int __attribute__((returns_twice)) set_place(place *);
void __attribute__((noreturn)) go_to(place *, int);
void give_way(word **mine, word *other);
__asm__(
    "set_place: mov 4(%esp), %edx\n mov (%esp), %eax\n"
    " mov %ebx, (%edx)\n mov %esi, 4(%edx)\n mov %edi, 8(%edx)\n mov %ebp, 12(%edx)\n"
    " lea 4(%esp), %ecx\n mov %ecx, 16(%edx)\n mov %eax, 20(%edx)\n xor %eax, %eax\n ret\n"
    "go_to: mov 4(%esp), %edx\n mov 8(%esp), %eax\n test %eax, %eax\n jnz 1f\n inc %eax\n"
    "1: mov (%edx), %ebx\n mov 4(%edx), %esi\n mov 8(%edx), %edi\n mov 12(%edx), %ebp\n"
    " mov 16(%edx), %esp\n jmp *20(%edx)\n"
    "give_way: mov 4(%esp), %eax\n mov 8(%esp), %edx\n push %ebp\n push %ebx\n push %esi\n push %edi\n"
    " mov %esp, (%eax)\n mov %edx, %esp\n pop %edi\n pop %esi\n pop %ebx\n pop %ebp\n ret\n");

static place handler;
static volatile int calls;
static __attribute__((noinline)) int descend(volatile int left) {
  calls++;
  if (left == 1) go_to(&handler, calls);
  return descend(left - 1) + 1;
}

static word *main_stack, *other_stack, other_cells[1024];
static void other(void) {
  for (int k = 0;; k++) {
    put(" b");
    put_number(k);
    give_way(&other_stack, main_stack);
  }
}

int run(int count, char **words) {
  (void)count, (void)words;
  int thrown = set_place(&handler);
  if (thrown == 0) descend(7);
  put("deep: thrown ");
  put_number(thrown);
  put(" after ");
  put_number(calls);
  put(" calls\nnested:");
  place outer;
  volatile int round = 0;
  set_place(&outer);
  round++;
  if (round <= 3) {
    put(" ");
    put_number(round);
    go_to(&outer, round);
  }
  put(" done\n");
  place zero;
  int given = set_place(&zero);
  if (given == 0) go_to(&zero, 0);
  put("zero is returned as ");
  put_number(given);
  put("\ntaking turns:");
  other_stack = other_cells + 1000;
  other_stack[4] = (word)other;
  int turns = 0;
  for (; turns < 3; turns++) {
    put(" a");
    put_number(turns);
    give_way(&main_stack, other_stack);
  }
  put(" end\n");
  return turns;
}
