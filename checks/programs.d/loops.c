// LOOP, LOOPE, LOOPNE and JECXZ, the flags that they keep, and their ends.
// > loop: 10 rounds, 00000000 left
// > loop from 0: falls through with ffffffff
// > loope: 3 equal, 00000001 left
// > loopne: 4 rounds, 00000006 left
// > jecxz: 1 0 0
// > carry is kept: 00000001
// > flags are kept: 00000cd7 00000002, 00000cd7 00000002
// > sum in two nested loops: 120
// ends 120
#include "base.h"

/* each with the image that it gets: a LOOP that jumps twice and then ends, and a JECXZ that doesn't jump, then one that does */
word after_loop(word image), after_jecxz(word image);
__asm__(
    ".text\nafter_loop: mov $3, %ecx\n push 4(%esp)\n popf\n 1: loop 1b\n pushf\n pop %eax\n cld\n and $0xcd7, %eax\n ret\n"
    "after_jecxz: mov $1, %ecx\n push 4(%esp)\n popf\n jecxz 1f\n mov $0, %ecx\n jecxz 1f\n nop\n 1: pushf\n pop %eax\n cld\n"
    " and $0xcd7, %eax\n ret\n");

int run(int count, char **words) {
  (void)count, (void)words;
  word rounds = 0, left = 10, sum = 0;
  __asm__ volatile("1: inc %0\n loop 1b" : "+r"(rounds), "+c"(left) : : "cc");
  put("loop: ");
  put_number(rounds);
  put(" rounds, ");
  put_hex(left);
  left = 1;
  /* a loop from 0 jumps, since ECX is then all ones: the jump leads out here */
  __asm__ volatile("xor %%ecx, %%ecx\n loop 1f\n mov $5, %%ecx\n 1:" : "=c"(left) : : "cc");
  put(" left\nloop from 0: falls through with ");
  put_hex(left);
  static const byte cells[] = {9, 9, 9, 4, 9, 9};
  const byte *at = cells;
  left = 5;
  __asm__ volatile("1: cmpb $9, (%0)\n lea 1(%0), %0\n loope 1b" : "+r"(at), "+c"(left) : : "cc", "memory");
  put("\nloope: ");
  put_number(at - cells - 1);
  put(" equal, ");
  put_hex(left);
  left = 10, rounds = 0;
  __asm__ volatile("1: inc %0\n cmp $4, %0\n loopne 1b" : "+r"(rounds), "+c"(left) : : "cc");
  put(" left\nloopne: ");
  put_number(rounds);
  put(" rounds, ");
  put_hex(left);
  put(" left\njecxz:");
  for (word k = 0; k < 3; k++) {
    word taken = 1, c = k * 0x80000000u + (k == 2);
    __asm__ volatile("jecxz 1f\n mov $0, %0\n 1:" : "+r"(taken) : "c"(c));
    put(" ");
    put_number(taken);
  }
  word carry = 0, three = 3;
  __asm__ volatile("stc\n 1: loop 1b\n adc $0, %0" : "+r"(carry), "+c"(three) : : "cc");
  put("\ncarry is kept: ");
  put_hex(carry);
  put("\nflags are kept: ");
  put_hex(after_loop(0xCD7));
  put(" ");
  put_hex(after_loop(2));
  put(", ");
  put_hex(after_jecxz(0xCD7));
  put(" ");
  put_hex(after_jecxz(2));
  word outer = 15;
  __asm__ volatile("1: push %%ecx\n 2: inc %0\n loop 2b\n pop %%ecx\n loop 1b" : "+r"(sum), "+c"(outer) : : "cc", "memory");
  put("\nsum in two nested loops: ");
  put_number(sum);
  put("\n");
  return sum;
}
