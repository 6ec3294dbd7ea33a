/* What the launcher asks of a rewritten file: its original's header, and the map from old addresses to new ones. */
#ifndef FRAME_H
#define FRAME_H
#include <stdbool.h>
#include <stdint.h>

/* What a kernel tells the original of itself, in the auxiliary vector. */
struct original {
  uint32_t headers; /* the address of its program headers, 0 where none is loaded */
  uint32_t header_count;
  uint32_t entry;
};

struct frame;

/* The frame of the file that is open as `file`, by the rules of docs/FORMATS.md; null where it has none, where it can't be
   read, or where memory runs out. It is never freed. */
struct frame *frame_read(int file);

/* The original's values. */
const struct original *frame_original(const struct frame *frame);

/* The table's entry of an old address, 0 where it has none. */
uint32_t frame_entry(const struct frame *frame, uint32_t address);

/* Whether a new address lies in the added code, and whether it is the table's entry of some address. */
bool frame_in_code(const struct frame *frame, uint32_t address);
bool frame_is_entry(const struct frame *frame, uint32_t address);

/* Where the added code begins, and whether an old address lies in one of the original's ranges of code. */
uint32_t frame_code(const struct frame *frame);
bool frame_in_run(const struct frame *frame, uint32_t address);

/* The first old address whose entry this is, 0 where there is none. It looks at all of them. */
uint32_t frame_old(const struct frame *frame, uint32_t entry);

/* The counters: how many there are, where counter k stands, and the address and the kind that it counts. */
uint32_t frame_counters(const struct frame *frame);
uint32_t frame_counter_place(const struct frame *frame, uint32_t k);
uint32_t frame_counted(const struct frame *frame, uint32_t k);
uint32_t frame_kind(const struct frame *frame, uint32_t k);

/* The segments in memory but for the added code, as whole pages: where they begin, how long they are, whether they may be
   written. */
struct segment {
  uint32_t lo, length;
  bool is_writable;
};
uint32_t frame_segment_count(const struct frame *frame);
struct segment frame_segment(const struct frame *frame, uint32_t k);

/* Calls `see` for each old address that has an entry, ascending. */
void frame_each(const struct frame *frame, void (*see)(uint32_t old, uint32_t entry, void *with), void *with);

/* Where the added code stands in the file, in bytes from its begin. */
uint64_t frame_code_offset(const struct frame *frame);

/* How many bytes the added code has. */
uint32_t frame_code_length(const struct frame *frame);

/* The last entry at or below an address of the added code: where the piece begins in which it lies. The address itself
   where no entry is below it. */
uint32_t frame_piece(const struct frame *frame, uint32_t address);

#endif
