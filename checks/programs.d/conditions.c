// The sixteen conditions by short and by long jumps, by SETcc and by CMOVcc, for all combinations of CF, PF, ZF, SF and OF.
// > none aaaa, CF aa66, PF a6aa, ZF 6a5a, SF 59aa, OF 5aa9, all 6555
// > 32 combinations: sum aaec98c0, differences 0
// ends 32
#include "base.h"

word by_short_jump(word image), by_long_jump(word image), by_set(word image), by_move(word image);
__asm__(
    ".macro conditions_with part\n"
    ".irp c, o, no, b, ae, e, ne, be, a, s, ns, p, np, l, ge, le, g\n \\part \\c\n .endr\n ret\n .endm\n"
    ".macro short_jump c\n shr %eax\n push %edx\n popf\n j\\c 1f\n jmp 2f\n 1: or $0x8000, %eax\n 2:\n .endm\n"
    ".macro long_jump c\n shr %eax\n push %edx\n popf\n j\\c 1f\n jmp 2f\n .fill 130, 1, 0x90\n 1: or $0x8000, %eax\n 2:\n .endm\n"
    ".macro set c\n shr %eax\n push %edx\n popf\n set\\c %cl\n movzbl %cl, %ecx\n shl $15, %ecx\n or %ecx, %eax\n .endm\n"
    ".macro move c\n shr %eax\n mov $0, %ecx\n push %edx\n popf\n cmov\\c top, %ecx\n or %ecx, %eax\n .endm\n"
    ".text\n"
    "by_short_jump: mov 4(%esp), %edx\n xor %eax, %eax\n conditions_with short_jump\n"
    "by_long_jump: mov 4(%esp), %edx\n xor %eax, %eax\n conditions_with long_jump\n"
    "by_set: mov 4(%esp), %edx\n xor %eax, %eax\n conditions_with set\n"
    "by_move: mov 4(%esp), %edx\n xor %eax, %eax\n conditions_with move\n"
    ".section .rodata\n.balign 4\ntop: .long 0x8000\n.text\n");

static void show(const char *title, word mask) {
  char digits[6] = " ";
  for (int k = 4; k > 0; k--, mask >>= 4) digits[k] = "0123456789abcdef"[mask & 15];
  digits[5] = 0;
  put(title);
  put(digits);
}

int run(int count, char **words) {
  (void)count, (void)words;
  static const word bits[] = {1, 4, 0x40, 0x80, 0x800};
  static const char *const names[] = {", CF", ", PF", ", ZF", ", SF", ", OF"};
  show("none", by_short_jump(2));
  for (int k = 0; k < 5; k++) show(names[k], by_short_jump(2 | bits[k]));
  show(", all", by_short_jump(2 | 0x8C5));
  word sum = 0, different = 0, combinations = 0;
  for (word k = 0; k < 32; k++) {
    word image = 2;
    for (int j = 0; j < 5; j++) image |= k >> j & 1 ? bits[j] : 0;
    word mask = by_short_jump(image);
    different += (by_long_jump(image) != mask) + (by_set(image) != mask) + (by_move(image) != mask);
    sum = sum * 31 + mask;
    combinations++;
  }
  put("\n");
  put_number(combinations);
  put(" combinations: sum ");
  put_hex(sum);
  put(", differences ");
  put_number(different);
  put("\n");
  return combinations + different;
}
