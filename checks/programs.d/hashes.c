// Hashes with published values: FNV-1a, CRC-32, Adler-32, SHA-256.
// > fnv bf9cf968
// > crc cbf43926
// > adler 11e60398
// > sha ba7816bf8f01cfea414140de5dae2223b00361a396177a9cb410ff61f20015ad
// ends 7
#include "base.h"

static word fnv(const char *text) {
  word hash = 2166136261u;
  while (*text) hash = (hash ^ (byte)*text++) * 16777619u;
  return hash;
}

static word crc(const char *text) {
  word table[256], sum = ~0u;
  for (word k = 0; k < 256; k++) {
    table[k] = k;
    for (int bit = 0; bit < 8; bit++) table[k] = table[k] >> 1 ^ (table[k] & 1 ? 0xEDB88320u : 0);
  }
  while (*text) sum = sum >> 8 ^ table[(byte)(sum ^ *text++)];
  return ~sum;
}

static word adler(const char *text) {
  word a = 1, b = 0;
  for (; *text; text++) {
    a = (a + (byte)*text) % 65521;
    b = (b + a) % 65521;
  }
  return b << 16 | a;
}

/* the first 32 bits of the fraction of the square or cube root of a number, by trying digits */
static word root_fraction(word n, int power) {
  wide root = 0;
  for (int bit = 35; bit >= 0; bit--) {
    wide tried = root | 1ull << bit;
    /* tried / 2^32 to the power, compared with n, in pieces of 32 bits */
    word digits[8] = {(word)tried, (word)(tried >> 32)}, factor[2] = {digits[0], digits[1]};
    for (int times = 1; times < power; times++) {
      word product[8] = {0};
      for (int i = 0; i < 6; i++) {
        wide carry = 0;
        for (int j = 0; j < 2; j++) {
          carry += (wide)digits[i] * factor[j] + product[i + j];
          product[i + j] = (word)carry;
          carry >>= 32;
        }
        product[i + 2] += (word)carry;
      }
      for (int i = 0; i < 8; i++) digits[i] = product[i];
    }
    if (digits[power] < n && !digits[power + 1]) root = tried;
  }
  return (word)root;
}

static word right(word x, int n) { return x >> n | x << (32 - n); }

/* a text shorter than 56 bytes, and so one block */
static void sha256(const char *text, word state[8]) {
  word constants[64], w[64] = {0}, primes = 0, length = 0;
  for (word n = 2; primes < 64; n++) {
    word divisor = 2;
    while (divisor < n && n % divisor) divisor++;
    if (divisor < n) continue;
    if (primes < 8) state[primes] = root_fraction(n, 2);
    constants[primes++] = root_fraction(n, 3);
  }
  for (; text[length]; length++) w[length / 4] |= (word)(byte)text[length] << (24 - length % 4 * 8);
  w[length / 4] |= 0x80u << (24 - length % 4 * 8);
  w[15] = length * 8;
  for (int k = 16; k < 64; k++)
    w[k] = w[k - 16] + w[k - 7] + (right(w[k - 15], 7) ^ right(w[k - 15], 18) ^ w[k - 15] >> 3) +
           (right(w[k - 2], 17) ^ right(w[k - 2], 19) ^ w[k - 2] >> 10);
  word v[8];
  for (int k = 0; k < 8; k++) v[k] = state[k];
  for (int k = 0; k < 64; k++) {
    word a = v[0], e = v[4];
    word first = v[7] + (right(e, 6) ^ right(e, 11) ^ right(e, 25)) + ((e & v[5]) ^ (~e & v[6])) + constants[k] + w[k];
    word second = (right(a, 2) ^ right(a, 13) ^ right(a, 22)) + ((a & v[1]) ^ (a & v[2]) ^ (v[1] & v[2]));
    for (int j = 7; j > 0; j--) v[j] = v[j - 1];
    v[4] += first;
    v[0] = first + second;
  }
  for (int k = 0; k < 8; k++) state[k] += v[k];
}

int run(int count, char **words) {
  (void)count, (void)words;
  put("fnv ");
  put_hex(fnv("foobar"));
  put("\ncrc ");
  put_hex(crc("123456789"));
  put("\nadler ");
  put_hex(adler("Wikipedia"));
  word state[8];
  sha256("abc", state);
  put("\nsha ");
  for (int k = 0; k < 8; k++) put_hex(state[k]);
  put("\n");
  return (state[0] >> 24 ^ state[7]) & 15;
}
