/* Reads the frame of a rewritten file (docs/FORMATS.md, "What is written"). This code is outside every proof. */
#define _GNU_SOURCE
#include "frame.h"

#include <elf.h>
#include <stddef.h>
#include <stdlib.h>
#include <string.h>
#include <sys/stat.h>
#include <unistd.h>

enum {
  PAGE = 4096,
  HEAD_LENGTH = 0x1000, /* the input stands behind the head */
  RECORD_OFFSET = 0x900,
  PRIVATE_LENGTH = 64,
  COUNTER_LENGTH = 8,
  WORD = 4,
  MOST_RUNS = 64,
  MOST_HEADERS = 64,
  GROUP = 1024, /* addresses that one page of the table serves */
  MOST_KIND = 2, /* of a counter */
};
enum { FLAT = 1, PAGED = 2 };
enum { RULE_NONE = 0, RULE_ALL = 1, RULE_AT = 6 };
#define MAGIC 0x5246564du /* 4D 56 46 52 */
#define BLOCK_END 0xb0000000u
#define ADDRESS_END 0xfffff000u

struct run {
  uint32_t lo, length, part; /* `part` is the address of its part of the table */
};

/* The frame record of version 2, word by word. Version 1 has no rules: its runs stand in their place. */
struct record {
  uint32_t magic, version, form, input_length;
  uint32_t added_lo, added_length, code_lo, code_length, table_lo, table_length;
  uint32_t private_lo, private_length, first_counter, counters, counted_list, run_count;
  uint32_t rule, edge_rule;
  struct run runs[MOST_RUNS];
};

/* What a version of the record allows, in bytes: an input, all runs together, and a counter's part of the list. */
struct limits {
  uint32_t input, code, listed;
};
static const struct limits LIMITS[] = {[1] = {67108864, 4194304, WORD}, [2] = {268435456, 16777216, 2 * WORD}};

struct frame {
  struct record record;
  struct original original;
  struct segment segments[MOST_HEADERS + 2];
  uint32_t segment_count;
  uint8_t *table;
  uint8_t *is_entry; /* one bit an address of the code */
};

static uint64_t up(uint64_t n) { return (n + PAGE - 1) / PAGE * PAGE; }

static bool read_at(int file, void *to, size_t length, uint64_t offset) {
  return pread(file, to, length, (off_t)offset) == (ssize_t)length;
}

static bool is_known(const struct record *r) {
  return r->magic == MAGIC &&
         ((r->version == 1 && (r->form == FLAT || r->form == PAGED)) || (r->version == 2 && r->form == PAGED));
}

/* The limits of a record whose version is known. */
static const struct limits *limits_of(const struct record *r) { return &LIMITS[r->version]; }

static bool places_hold(const struct record *r, uint64_t file_length) {
  uint64_t table = r->code_lo + up(r->code_length), private_ = table + up(r->table_length);
  uint64_t end = private_ + up(PRIVATE_LENGTH + (uint64_t)COUNTER_LENGTH * r->counters);
  return r->input_length <= limits_of(r)->input && r->run_count <= MOST_RUNS && r->added_lo % PAGE == 0 &&
         r->code_lo == r->added_lo && r->table_lo == table && r->private_lo == private_ &&
         r->private_length == PRIVATE_LENGTH && r->first_counter == private_ + PRIVATE_LENGTH &&
         end <= BLOCK_END && r->added_length == end - r->added_lo && r->counted_list >= table &&
         r->counted_list + (uint64_t)limits_of(r)->listed * r->counters == table + r->table_length &&
         file_length == HEAD_LENGTH + up(r->input_length) + up(r->code_length) + up(r->table_length);
}

static bool rules_hold(const struct record *r) {
  return r->rule <= RULE_AT && (r->edge_rule == RULE_NONE || r->edge_rule == RULE_ALL || r->edge_rule == RULE_AT);
}

static bool runs_hold(const struct record *r) {
  uint64_t free_from = 0, total = 0;
  for (uint32_t k = 0; k < r->run_count; k++) {
    const struct run *run = &r->runs[k];
    uint64_t end = (uint64_t)run->lo + run->length;
    if (run->length == 0 || run->lo < free_from || end > ADDRESS_END) return false;
    free_from = end + 1;
    total += run->length;
  }
  return total <= limits_of(r)->code;
}

static bool in_table(const struct record *r, uint32_t address, uint64_t length) {
  return address >= r->table_lo && address + length <= r->counted_list;
}

static uint32_t table_word(const struct frame *frame, uint32_t address) {
  uint32_t word;
  memcpy(&word, frame->table + (address - frame->record.table_lo), WORD);
  return word;
}

static bool parts_hold(const struct frame *frame) {
  const struct record *r = &frame->record;
  for (uint32_t k = 0; k < r->run_count; k++) {
    const struct run *run = &r->runs[k];
    uint32_t groups = (run->length + GROUP - 1) / GROUP;
    uint32_t words = r->form == FLAT ? run->length : groups;
    if (!in_table(r, run->part, (uint64_t)WORD * words)) return false;
    for (uint32_t group = 0; r->form == PAGED && group < groups; group++)
      if (!in_table(r, table_word(frame, run->part + WORD * group), WORD * GROUP)) return false;
  }
  return true;
}

/* The list has an address for each counter, and in version 2 a kind behind it. */
static bool kinds_hold(const struct frame *frame) {
  const struct record *r = &frame->record;
  uint32_t listed = limits_of(r)->listed;
  for (uint32_t k = 0; listed > WORD && k < r->counters; k++)
    if (table_word(frame, r->counted_list + listed * k + WORD) > MOST_KIND) return false;
  return true;
}

static uint32_t run_entry(const struct frame *frame, const struct run *run, uint32_t address) {
  uint32_t k = address - run->lo;
  if (frame->record.form == FLAT) return table_word(frame, run->part + WORD * k);
  return table_word(frame, table_word(frame, run->part + WORD * (k / GROUP)) + WORD * (k % GROUP));
}

static void mark_entries(struct frame *frame) {
  const struct record *r = &frame->record;
  for (uint32_t k = 0; k < r->run_count; k++)
    for (uint32_t n = 0; n < r->runs[k].length; n++) {
      uint32_t entry = run_entry(frame, &r->runs[k], r->runs[k].lo + n);
      if (frame_in_code(frame, entry)) frame->is_entry[(entry - r->code_lo) / 8] |= 1 << (entry - r->code_lo) % 8;
    }
}

/* The values that the kernel computes of the input, which stands whole behind the head. */
static bool read_original(int file, struct frame *frame) {
  uint32_t input_length = frame->record.input_length;
  struct original *original = &frame->original;
  Elf32_Ehdr header;
  Elf32_Phdr headers[MOST_HEADERS];
  if (input_length < sizeof header || !read_at(file, &header, sizeof header, HEAD_LENGTH)) return false;
  uint64_t length = (uint64_t)header.e_phnum * sizeof headers[0];
  if (header.e_phnum > MOST_HEADERS || header.e_phoff + length > input_length) return false;
  if (!read_at(file, headers, length, HEAD_LENGTH + (uint64_t)header.e_phoff)) return false;
  *original = (struct original){0, header.e_phnum, header.e_entry};
  for (int k = header.e_phnum - 1; k >= 0; k--)
    if (headers[k].p_type == PT_LOAD && headers[k].p_offset <= header.e_phoff &&
        header.e_phoff - headers[k].p_offset < headers[k].p_filesz)
      original->headers = header.e_phoff - headers[k].p_offset + headers[k].p_vaddr;
  for (int k = 0; k < header.e_phnum; k++) {
    uint32_t lo = headers[k].p_vaddr / PAGE * PAGE;
    uint64_t end = up((uint64_t)headers[k].p_vaddr + headers[k].p_memsz);
    if (headers[k].p_type == PT_LOAD && headers[k].p_memsz > 0)
      frame->segments[frame->segment_count++] = (struct segment){lo, (uint32_t)(end - lo), headers[k].p_flags & PF_W};
  }
  return true;
}

/* Gives a record of version 1 the rules that it means, listed addresses and no edges, and its runs their place. */
static void add_rules(struct record *record) {
  memmove(record->runs, (char *)record + offsetof(struct record, rule), sizeof record->runs);
  record->rule = RULE_AT;
  record->edge_rule = RULE_NONE;
}

static bool read_record(int file, struct record *record) {
  struct stat about;
  if (fstat(file, &about) != 0 || about.st_size < HEAD_LENGTH) return false;
  if (!read_at(file, record, sizeof *record, RECORD_OFFSET) || !is_known(record)) return false;
  if (record->version == 1) add_rules(record);
  return places_hold(record, (uint64_t)about.st_size) && rules_hold(record) && runs_hold(record);
}

static bool read_table(int file, struct frame *frame) {
  const struct record *r = &frame->record;
  frame->table = malloc(r->table_length + 1);
  frame->is_entry = calloc(r->code_length / 8 + 1, 1);
  return frame->table && frame->is_entry &&
         read_at(file, frame->table, r->table_length, HEAD_LENGTH + up(r->input_length) + up(r->code_length)) &&
         kinds_hold(frame) && parts_hold(frame);
}

/* The table and the private area are segments too; the added code keeps its rights. */
static void add_segments(struct frame *frame) {
  const struct record *r = &frame->record;
  uint32_t private_length = PRIVATE_LENGTH + COUNTER_LENGTH * r->counters;
  frame->segments[frame->segment_count++] = (struct segment){r->table_lo, (uint32_t)up(r->table_length), false};
  frame->segments[frame->segment_count++] = (struct segment){r->private_lo, (uint32_t)up(private_length), true};
}

struct frame *frame_read(int file) {
  struct frame *frame = calloc(1, sizeof *frame);
  if (!frame) return NULL;
  if (read_record(file, &frame->record) && read_original(file, frame) &&
      read_table(file, frame)) {
    mark_entries(frame);
    add_segments(frame);
    return frame;
  }
  free(frame->table);
  free(frame->is_entry);
  free(frame);
  return NULL;
}

const struct original *frame_original(const struct frame *frame) { return &frame->original; }

uint32_t frame_entry(const struct frame *frame, uint32_t address) {
  for (uint32_t k = 0; k < frame->record.run_count; k++) {
    const struct run *run = &frame->record.runs[k];
    if (address >= run->lo && address - run->lo < run->length) return run_entry(frame, run, address);
  }
  return 0;
}

bool frame_in_code(const struct frame *frame, uint32_t address) {
  return address >= frame->record.code_lo && address - frame->record.code_lo < frame->record.code_length;
}

bool frame_is_entry(const struct frame *frame, uint32_t address) {
  uint32_t place = address - frame->record.code_lo;
  return frame_in_code(frame, address) && frame->is_entry[place / 8] >> place % 8 & 1;
}

uint32_t frame_piece(const struct frame *frame, uint32_t address) {
  for (uint32_t at = address; frame_in_code(frame, at); at--)
    if (frame_is_entry(frame, at)) return at;
  return address;
}

uint32_t frame_code(const struct frame *frame) { return frame->record.code_lo; }

uint32_t frame_code_length(const struct frame *frame) { return frame->record.code_length; }

bool frame_in_run(const struct frame *frame, uint32_t address) {
  for (uint32_t k = 0; k < frame->record.run_count; k++)
    if (address >= frame->record.runs[k].lo && address - frame->record.runs[k].lo < frame->record.runs[k].length) return true;
  return false;
}

void frame_each(const struct frame *frame, void (*see)(uint32_t old, uint32_t entry, void *with), void *with) {
  for (uint32_t k = 0; k < frame->record.run_count; k++) {
    const struct run *run = &frame->record.runs[k];
    for (uint32_t n = 0; n < run->length; n++) {
      uint32_t entry = run_entry(frame, run, run->lo + n);
      if (entry) see(run->lo + n, entry, with);
    }
  }
}

/* The old address of an entry, while it is looked for. */
struct search {
  uint32_t entry, old;
};

static void look(uint32_t old, uint32_t entry, void *with) {
  struct search *search = with;
  if (entry == search->entry && !search->old) search->old = old;
}

uint32_t frame_old(const struct frame *frame, uint32_t entry) {
  struct search search = {entry, 0};
  frame_each(frame, look, &search);
  return search.old;
}

uint32_t frame_counters(const struct frame *frame) { return frame->record.counters; }

uint32_t frame_counter_place(const struct frame *frame, uint32_t k) {
  return frame->record.first_counter + COUNTER_LENGTH * k;
}

uint32_t frame_counted(const struct frame *frame, uint32_t k) {
  return table_word(frame, frame->record.counted_list + limits_of(&frame->record)->listed * k);
}

uint32_t frame_kind(const struct frame *frame, uint32_t k) {
  uint32_t listed = limits_of(&frame->record)->listed;
  return listed > WORD ? table_word(frame, frame->record.counted_list + listed * k + WORD) : 0;
}

uint32_t frame_segment_count(const struct frame *frame) { return frame->segment_count; }

struct segment frame_segment(const struct frame *frame, uint32_t k) { return frame->segments[k]; }

uint64_t frame_code_offset(const struct frame *frame) { return HEAD_LENGTH + up(frame->record.input_length); }
