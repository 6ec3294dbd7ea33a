// The auxiliary vector: the program's own headers, their number, its entry.
// > the headers are at their address, with the first segment
// > their number is that of the ELF header
// > the entry is the program's
// > no arguments were lost
// ends 4
#include "kernel.h"

enum { AT_PHDR = 3, AT_PHENT = 4, AT_PHNUM = 5, AT_ENTRY = 9, PT_LOAD = 1 };
void _start(void);
extern const byte __ehdr_start[];

int run(int count, char **words) {
  char **at = words + count + 1;
  while (*at) at++;
  word values[64] = {0};
  for (word *pair = (word *)(at + 1); pair[0]; pair += 2)
    if (pair[0] < 64) values[pair[0]] = pair[1];
  const word *header = (const word *)values[AT_PHDR];
  word offset = *(const word *)(__ehdr_start + 28), number = *(const unsigned short *)(__ehdr_start + 44), k = 0;
  while (k < number && header[8 * k] != PT_LOAD) k++;
  if ((word)header == (word)__ehdr_start + offset && header[8 * k + 2] == (word)__ehdr_start)
    put("the headers are at their address, with the first segment\n");
  if (values[AT_PHNUM] == number && values[AT_PHENT] == 32) put("their number is that of the ELF header\n");
  if (values[AT_ENTRY] == (word)_start) put("the entry is the program's\n");
  if (count == 4 && words[4] == 0 && words[2][0] == 't' && words[3][0] == 0) put("no arguments were lost\n");
  return count;
}
