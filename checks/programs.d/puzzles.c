// Queens, primes, the game of life, a determinant, and an interpreter of a small language.
// > queens: 1 0 0 2 10 4 40 92
// > primes below 10000: 1229
// > glider after 4 steps: (2,1) (3,2) (1,3) (2,3) (3,3)
// > determinant: -306
// > Hello World!
// ends 92
#include "base.h"

static int queens(int size, word columns, word left, word right) {
  word all = (1u << size) - 1, ways = 0;
  if (columns == all) return 1;
  for (word free = all & ~(columns | left | right); free; free &= free - 1) {
    word bit = free & -free;
    ways += queens(size, columns | bit, (left | bit) << 1, (right | bit) >> 1);
  }
  return ways;
}

static int primes(void) {
  static byte crossed[10000];
  int found = 0;
  for (int n = 2; n < 10000; n++) {
    if (crossed[n]) continue;
    found++;
    for (int k = n * n; n < 100 && k < 10000; k += n) crossed[k] = 1;
  }
  return found;
}

static void life(byte cells[8][8]) {
  byte next[8][8];
  for (int y = 0; y < 8; y++)
    for (int x = 0; x < 8; x++) {
      int around = -cells[y][x];
      for (int d = 0; d < 9; d++) around += cells[(y + d / 3 + 7) & 7][(x + d % 3 + 7) & 7];
      next[y][x] = around == 3 || (around == 2 && cells[y][x]);
    }
  for (int k = 0; k < 64; k++) (&cells[0][0])[k] = (&next[0][0])[k];
}

static int determinant(const int *m, int size) {
  if (size == 1) return *m;
  int sum = 0, minor[9];
  for (int column = 0; column < size; column++) {
    int at = 0;
    for (int y = 1; y < size; y++)
      for (int x = 0; x < size; x++)
        if (x != column) minor[at++] = m[y * size + x];
    sum += (column & 1 ? -1 : 1) * m[column] * determinant(minor, size - 1);
  }
  return sum;
}

static void interpret(const char *code) {
  static byte cells[300];
  byte *cell = cells;
  for (; *code; code++) {
    int depth = 0;
    switch (*code) {
      case '>': cell++; break;
      case '<': cell--; break;
      case '+': ++*cell; break;
      case '-': --*cell; break;
      case '.': put_char(*cell); break;
      case '[':
        if (*cell == 0) do depth += (*code == '[') - (*code == ']');
          while (depth && *code++);
        break;
      case ']':
        if (*cell) do depth += (*code == ']') - (*code == '[');
          while (depth && code--);
        break;
    }
  }
}

int run(int count, char **words) {
  (void)count, (void)words;
  int most = 0;
  put("queens:");
  for (int size = 1; size <= 8; size++) {
    put(" ");
    put_number(most = queens(size, 0, 0, 0));
  }
  put("\nprimes below 10000: ");
  put_number(primes());
  byte cells[8][8] = {{0, 1, 0}, {0, 0, 1}, {1, 1, 1}};
  for (int k = 0; k < 4; k++) life(cells);
  put("\nglider after 4 steps:");
  for (int k = 0; k < 64; k++)
    if (cells[k / 8][k % 8]) {
      char text[] = " (0,0)";
      text[2] += k % 8;
      text[4] += k / 8;
      put(text);
    }
  static const int matrix[] = {6, 1, 1, 4, -2, 5, 2, 8, 7};
  put("\ndeterminant: ");
  put_number(determinant(matrix, 3));
  put("\n");
  interpret("++++++++[>++++[>++>+++>+++>+<<<<-]>+>+>->>+[<]<-]>>.>---.+++++++..+++.>>.<-.<.+++.------.--------.>>+.>++.");
  return most;
}
