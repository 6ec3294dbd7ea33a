// Numbers of 64 bits, divided by the program's own helpers.
// > factorials: 2432902008176640000 121645100408832000
// > fibonacci 90: 2880067194370816120
// > signed: -1234567881 -481481622 1234567881 -481481622
// > power: 224787023
// > common divisor: 12345678910
// > shifts: 00000000f0000001 ffffffffffff8000 8000000000000000
// ends 2
#include "base.h"

typedef long long signed_wide;

static wide divide(wide a, wide b, wide *rest) {
  wide quotient = 0, left = 0;
  for (int bit = 63; bit >= 0; bit--) {
    word carry = left >> 63;
    left = left << 1 | (a >> bit & 1);
    if (carry || left >= b) {
      left -= b;
      quotient |= 1ull << bit;
    }
  }
  *rest = left;
  return quotient;
}

/* gcc calls these by name */
wide __udivdi3(wide a, wide b) {
  wide rest;
  return divide(a, b, &rest);
}
wide __umoddi3(wide a, wide b) {
  wide rest;
  divide(a, b, &rest);
  return rest;
}
wide __udivmoddi4(wide a, wide b, wide *rest) { return divide(a, b, rest); }
signed_wide __divdi3(signed_wide a, signed_wide b) {
  wide rest, quotient = divide(a < 0 ? -(wide)a : (wide)a, b < 0 ? -(wide)b : (wide)b, &rest);
  return (a < 0) == (b < 0) ? quotient : -quotient;
}
signed_wide __moddi3(signed_wide a, signed_wide b) {
  wide rest;
  divide(a < 0 ? -(wide)a : (wide)a, b < 0 ? -(wide)b : (wide)b, &rest);
  return a < 0 ? -rest : rest;
}
signed_wide __divmoddi4(signed_wide a, signed_wide b, signed_wide *rest) {
  *rest = __moddi3(a, b);
  return __divdi3(a, b);
}

static void put_wide(wide n) {
  if (n >= 10) put_wide(n / 10);
  put_char('0' + (word)(n % 10));
}
static void put_signed(signed_wide n) {
  if (n < 0) put("-");
  put_wide(n < 0 ? -(wide)n : (wide)n);
}
static void put_wide_hex(wide n) {
  put(" ");
  put_hex(n >> 32);
  put_hex((word)n);
}

static wide power(wide base, word exponent, wide modulus) {
  wide result = 1;
  for (; exponent; exponent >>= 1, base = base * base % modulus)
    if (exponent & 1) result = result * base % modulus;
  return result;
}
static wide common(wide a, wide b) { return b ? common(b, a % b) : a; }

int run(int count, char **words) {
  (void)words;
  wide factorial = 1, a = 0, b = 1;
  for (int k = 2; k <= 20; k++) factorial *= k;
  put("factorials: ");
  put_wide(factorial);
  put(" ");
  put_wide(factorial / (word)(count * 5));
  for (int k = 0; k < 90; k++) {
    wide c = a + b;
    a = b;
    b = c;
  }
  put("\nfibonacci 90: ");
  put_wide(a);
  volatile signed_wide number = -1234567890123456789, divisor = 1000000007;
  put("\nsigned: ");
  put_signed(number / divisor);
  put(" ");
  put_signed(number % divisor);
  put(" ");
  put_signed(number / -divisor);
  put(" ");
  put_signed(number % -divisor);
  put("\npower: ");
  put_wide(power(7, 1000, 1000000007));
  put("\ncommon divisor: ");
  volatile wide x = 12345678910ull * 1001, y = 12345678910ull * 9973;
  put_wide(common(x, y));
  volatile int n = 17, m = 60;
  put("\nshifts:");
  put_wide_hex(0xF000000100000000ull >> (n + 15));
  put_wide_hex((signed_wide)0x8000000000000000ull >> (n + 31));
  put_wide_hex(0x8ull << m);
  put("\n");
  return (int)(factorial % 97 % 11);
}
