/* native/map OUT: where the code of a rewritten file comes from, a line for each piece in the order of the added code: its
   address, the address of the instruction for which it stands, and how many bytes it has, joins behind it included. The line
   of the lookup stub has `stub` in the place of an old address. */
#include "frame.h"

#include <fcntl.h>
#include <inttypes.h>
#include <stdio.h>
#include <stdlib.h>
#include <string.h>

struct line {
  uint32_t entry, old;
};

struct lines {
  struct line *items;
  size_t count, room;
};

static void add(uint32_t old, uint32_t entry, void *with) {
  struct lines *lines = with;
  if (lines->count == lines->room) {
    lines->room = 2 * lines->room + 1024;
    lines->items = realloc(lines->items, lines->room * sizeof *lines->items);
    if (!lines->items) {
      fprintf(stderr, "map: no memory\n");
      exit(1);
    }
  }
  lines->items[lines->count++] = (struct line){entry, old};
}

static int by_entry(const void *a, const void *b) {
  uint32_t first = ((const struct line *)a)->entry, second = ((const struct line *)b)->entry;
  return (first > second) - (first < second);
}

int main(int count, char **words) {
  if (count == 2 && (strcmp(words[1], "--help") == 0 || strcmp(words[1], "-h") == 0)) {
    puts("usage: map OUT\n"
         "Prints a line for each piece of a rewritten file: its address, the old address for which it stands, its length.");
    return 0;
  }
  if (count != 2) {
    fprintf(stderr, "usage: map OUT\n");
    return 2;
  }
  int file = open(words[1], O_RDONLY);
  struct frame *frame = file < 0 ? NULL : frame_read(file);
  if (!frame) {
    fprintf(stderr, file < 0 ? "map: cannot read %s\n" : "map: %s has no frame\n", words[1]);
    return 1;
  }
  struct lines lines = {0};
  frame_each(frame, add, &lines);
  if (lines.count) qsort(lines.items, lines.count, sizeof *lines.items, by_entry);
  uint32_t code = frame_code(frame), end = code + frame_code_length(frame);
  uint32_t first = lines.count ? lines.items[0].entry : end;
  printf("%08" PRIx32 " stub %" PRIu32 "\n", code, first - code);
  for (size_t k = 0; k < lines.count; k++) {
    uint32_t next = k + 1 < lines.count ? lines.items[k + 1].entry : end;
    printf("%08" PRIx32 " %08" PRIx32 " %" PRIu32 "\n", lines.items[k].entry, lines.items[k].old, next - lines.items[k].entry);
  }
  return fflush(stdout) == 0 ? 0 : 1;
}
