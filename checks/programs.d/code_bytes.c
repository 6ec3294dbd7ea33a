// A program that reads its own code, and that enters an instruction in its middle.
// > bytes: b8 78 56 34 12 c3
// > value: 12345678
// > from the start c3902ab0, from the second byte 0000002a
// > both of the two codes: 00000005 00000009
// > the address of the next instruction is right
// > the return address is in the code that called
// > sum of the bytes: 655
// ends 42
#include "base.h"

extern const byte fixed[], hidden[], shared[], here[];
extern byte __executable_start[], etext[];
__asm__(
    ".text\nfixed: mov $0x12345678, %eax\n ret\n"
    /* from the second byte on: mov $0x2a, %al; nop; ret */
    "hidden: mov $0xc3902ab0, %eax\n ret\n"
    /* from the first byte on: mov $5, %al; cmp $0x909009b0, %eax; from the fourth on: mov $9, %al; nop; nop */
    "shared: .byte 0xb0, 0x05, 0x3d, 0xb0, 0x09, 0x90, 0x90\n ret\n"
    "where: call here\nhere: pop %eax\n ret\n");
word where(void);

static word call_at(const byte *code) {
  word result;
  __asm__ volatile("call *%1" : "=&a"(result) : "r"(code), "0"(0) : "ecx", "edx", "memory", "cc");
  return result;
}
static __attribute__((noinline)) int is_called_from_code(void) {
  byte *from = __builtin_return_address(0);
  return from > __executable_start && from < etext && from[-5] == 0xE8;
}

int run(int count, char **words) {
  (void)count, (void)words;
  int sum = 0;
  put("bytes:");
  for (int k = 0; k < 6; k++) {
    char pair[4] = {' ', "0123456789abcdef"[fixed[k] >> 4], "0123456789abcdef"[fixed[k] & 15], 0};
    put(pair);
    sum += fixed[k];
  }
  put("\nvalue: ");
  put_hex(call_at(fixed));
  put("\nfrom the start ");
  put_hex(call_at(hidden));
  put(", from the second byte ");
  put_hex(call_at(hidden + 1));
  put("\nboth of the two codes: ");
  put_hex(call_at(shared));
  put(" ");
  put_hex(call_at(shared + 3));
  put(where() == (word)here ? "\nthe address of the next instruction is right\n" : "\nthe address of the next instruction is wrong\n");
  put(is_called_from_code() ? "the return address is in the code that called\n" : "the return address is elsewhere\n");
  put("sum of the bytes: ");
  put_number(sum);
  put("\n");
  return call_at(hidden + 1);
}
