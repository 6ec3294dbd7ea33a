// What it reads from standard input: counted, and turned by 13 letters.
// > Gur dhvpx oebja sbk
// >   whzcf bire 13 ynml qbtf.
// > 2 lines, 9 words, 47 bytes
// ends 9
#include "base.h"

int run(int count, char **words) {
  (void)count, (void)words;
  char text[16];
  int lines = 0, in_word = 0, found = 0, bytes = 0;
  for (word length; (length = get(text, sizeof text - 1)) > 0;) {
    for (word k = 0; k < length; k++) {
      char c = text[k];
      int space = c == ' ' || c == '\n';
      lines += c == '\n';
      found += !space && !in_word;
      in_word = !space;
      bytes++;
      if (c >= 'a' && c <= 'z') text[k] = 'a' + (c - 'a' + 13) % 26;
      if (c >= 'A' && c <= 'Z') text[k] = 'A' + (c - 'A' + 13) % 26;
    }
    text[length] = 0;
    put(text);
  }
  put_number(lines);
  put(" lines, ");
  put_number(found);
  put(" words, ");
  put_number(bytes);
  put(" bytes\n");
  return found;
}
