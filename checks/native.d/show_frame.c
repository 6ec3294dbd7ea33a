/* show_frame FILE ADDRESSES..: what native/frame.c reads of a file: `none`, or the original's values, and of each address (in
   hexadecimal) the table's entry, whether it is a new address and an entry, and where its piece begins. */
#include "../../native/frame.h"

#include <fcntl.h>
#include <stdio.h>
#include <stdlib.h>

int main(int count, char **words) {
  int file = count < 2 ? -1 : open(words[1], O_RDONLY);
  struct frame *frame = file < 0 ? NULL : frame_read(file);
  if (!frame) return puts("none") < 0;
  const struct original *original = frame_original(frame);
  printf("%x %u %x\n", original->headers, original->header_count, original->entry);
  for (int k = 2; k < count; k++) {
    uint32_t at = strtoul(words[k], NULL, 16);
    printf("%x %x %d %d %x\n", at, frame_entry(frame, at), frame_in_code(frame, at), frame_is_entry(frame, at),
           frame_piece(frame, at));
  }
  return 0;
}
