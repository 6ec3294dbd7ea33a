// Calls, jumps and returns whose target stands in a register, in memory or on the stack.
// > by register 11, by memory 11, by table 10 11 12
// > above the stack pointer: 11 12, on it: 11
// > each register: 10 10 10 10 10 10
// > jump by memory 12, push and return 12, chain of returns 33
// > eax is kept by calls 0000beef, by jumps 0000beef 0000beef
// > flags are kept: 00000cd7 00000002
// > pushed target is read first: 11
// > a call to the next instruction, dropped: 0
// ends 0
#include "base.h"

word by_register(void), by_memory(void), by_table(word), above(word), on_top(void), each(word), jump_memory(void);
word push_return(void), chain(void), call_keeps_eax(void), jump_keeps_eax(void), register_keeps_eax(void);
word keeps_flags(word image), reads_first(void), dropped_call(void);
__asm__(
    ".text\n"
    "ten: mov $10, %eax\n ret\n"
    "eleven: mov $11, %eax\n ret\n"
    "twelve: mov $12, %eax\n ret\n"
    "by_register: mov $eleven, %ecx\n call *%ecx\n ret\n"
    "by_memory: call *targets+4\n ret\n"
    "by_table: mov 4(%esp), %ecx\n call *targets(, %ecx, 4)\n ret\n"
    "above: mov 4(%esp), %ecx\n push $twelve\n push $eleven\n push $0\n mov %ecx, %eax\n call *4(%esp, %eax, 4)\n"
    " add $12, %esp\n ret\n"
    "on_top: push $eleven\n call *(%esp)\n pop %ecx\n ret\n"
    /* which register, from 0 */
    "each: push %ebx\n push %esi\n push %edi\n push %ebp\n mov 20(%esp), %eax\n mov $ten, %ecx\n mov %ecx, %edx\n"
    " mov %ecx, %ebx\n mov %ecx, %ebp\n mov %ecx, %esi\n mov %ecx, %edi\n jmp *ways(, %eax, 4)\n"
    "w0: call *%ecx\n jmp 9f\nw1: call *%edx\n jmp 9f\nw2: call *%ebx\n jmp 9f\nw3: call *%ebp\n jmp 9f\n"
    "w4: call *%esi\n jmp 9f\nw5: call *%edi\n"
    "9: pop %ebp\n pop %edi\n pop %esi\n pop %ebx\n ret\n"
    "jump_memory: jmp *targets+8\n"
    "push_return: push $twelve\n ret\n"
    "chain: push $3f\n push $2f\n push $1f\n xor %eax, %eax\n ret\n"
    "1: add $11, %eax\n ret\n2: add $22, %eax\n ret\n3: ret\n"
    "call_keeps_eax: mov $0xbeef, %eax\n call *nothing_at\n ret\n"
    "jump_keeps_eax: mov $0xbeef, %eax\n jmp *nothing_at\n"
    "register_keeps_eax: mov $0xbeef, %eax\n mov $nothing, %ecx\n jmp *%ecx\n"
    "nothing: ret\n"
    "drops_eight: ret $8\n"
    /* through two calls, a jump, two returns and one that drops */
    "keeps_flags: push 4(%esp)\n popf\n call *nothing_at\n push $1f\n jmp *nothing_at\n"
    "1: lea -8(%esp), %esp\n call drops_eight\n pushf\n pop %eax\n cld\n and $0xcd7, %eax\n ret\n"
    /* the word that the call pushes would overwrite its own target */
    "reads_first: push $eleven\n add $4, %esp\n call *-4(%esp)\n ret\n"
    "dropped_call: mov %esp, %eax\n call 1f\n 1: add $4, %esp\n sub %esp, %eax\n ret\n"
    ".section .rodata\n.balign 4\n"
    "targets: .long ten, eleven, twelve\nways: .long w0, w1, w2, w3, w4, w5\nnothing_at: .long nothing\n.text\n");

static void show(const char *title, word n) {
  put(title);
  put_number(n);
}

int run(int count, char **words) {
  (void)count, (void)words;
  show("by register ", by_register());
  show(", by memory ", by_memory());
  show(", by table ", by_table(0));
  show(" ", by_table(1));
  show(" ", by_table(2));
  show("\nabove the stack pointer: ", above(0));
  show(" ", above(1));
  show(", on it: ", on_top());
  put("\neach register:");
  for (word k = 0; k < 6; k++) show(" ", each(k));
  show("\njump by memory ", jump_memory());
  show(", push and return ", push_return());
  show(", chain of returns ", chain());
  put("\neax is kept by calls ");
  put_hex(call_keeps_eax());
  put(", by jumps ");
  put_hex(jump_keeps_eax());
  put(" ");
  put_hex(register_keeps_eax());
  put("\nflags are kept: ");
  put_hex(keeps_flags(0xCD7));
  put(" ");
  put_hex(keeps_flags(2));
  show("\npushed target is read first: ", reads_first());
  show("\na call to the next instruction, dropped: ", dropped_call());
  put("\n");
  return dropped_call();
}
