#define _GNU_SOURCE
#include "foreign.h"

#include "process.h"

#include <inttypes.h>
#include <stdlib.h>
#include <string.h>
#include <sys/mman.h>
#include <sys/ptrace.h>
#include <sys/wait.h>

enum {
  MOST_BYTES = 15, /* of an instruction */
  JUMP_LENGTH = 5, /* E9 and a displacement */
  SLOT = 32,       /* a piece and its jump, and room */
  REGION = 65536,  /* bytes of memory that are mapped at a time */
  MMAP2 = 192,     /* the i386 system call */
  MOST_RESULT = -4095,
};

/* An instruction that was met, and where its piece stands. */
struct piece {
  uint32_t old, place;
  uint8_t length;
  uint8_t bytes[MOST_BYTES];
  uint64_t times; /* how often it ran, where that is counted */
};

struct foreign {
  const struct frame *frame;
  struct piece *pieces; /* in the order in which they were met */
  size_t count, room;
  uint32_t *regions; /* where the mapped memory begins */
  size_t region_count, region_used; /* the last one's used bytes */
  bool counts;
};

struct foreign *foreign_new(const struct frame *frame) {
  struct foreign *foreign = calloc(1, sizeof *foreign);
  if (foreign) foreign->frame = frame;
  return foreign;
}

struct foreign *foreign_copy(const struct foreign *from) {
  struct foreign *to = calloc(1, sizeof *to);
  if (!to) return NULL;
  *to = *from;
  to->room = from->count + 1;
  to->pieces = malloc(to->room * sizeof *to->pieces);
  to->regions = malloc((from->region_count + 1) * sizeof *to->regions);
  if (!to->pieces || !to->regions) {
    foreign_free(to);
    return NULL;
  }
  memcpy(to->pieces, from->pieces, from->count * sizeof *to->pieces);
  memcpy(to->regions, from->regions, from->region_count * sizeof *to->regions);
  for (size_t k = 0; k < to->count; k++) to->pieces[k].times = 0;
  return to;
}

void foreign_free(struct foreign *foreign) {
  if (!foreign) return;
  free(foreign->pieces);
  free(foreign->regions);
  free(foreign);
}

void foreign_count(struct foreign *foreign) { foreign->counts = true; }

static struct piece *piece_of(const struct foreign *foreign, uint32_t old) {
  for (size_t k = 0; k < foreign->count; k++)
    if (foreign->pieces[k].old == old) return &foreign->pieces[k];
  return NULL;
}

static const struct piece *piece_at(const struct foreign *foreign, uint32_t address) {
  for (size_t k = 0; k < foreign->count; k++)
    if (address >= foreign->pieces[k].place && address - foreign->pieces[k].place < SLOT) return &foreign->pieces[k];
  return NULL;
}

bool foreign_has(const struct foreign *foreign, uint32_t address) {
  for (size_t k = 0; k < foreign->region_count; k++)
    if (address >= foreign->regions[k] && address - foreign->regions[k] < REGION) return true;
  return false;
}

uint32_t foreign_old(const struct foreign *foreign, uint32_t address) {
  const struct piece *piece = piece_at(foreign, address);
  if (!piece) return address;
  uint32_t inside = address - piece->place;
  return piece->old + (inside < piece->length ? inside : piece->length);
}

bool foreign_is_begin(const struct foreign *foreign, uint32_t address) {
  const struct piece *piece = piece_at(foreign, address);
  return piece && piece->place == address;
}

/* ---- making a piece ---- */

static bool map_region(struct foreign *foreign, pid_t pid) {
  uint32_t words[7] = {MMAP2, 0, REGION, PROT_READ | PROT_EXEC, MAP_PRIVATE | MAP_ANONYMOUS, (uint32_t)-1, 0};
  uint32_t at;
  uint32_t *regions = realloc(foreign->regions, (foreign->region_count + 1) * sizeof *regions);
  if (!regions) return false;
  foreign->regions = regions;
  /* the call's two bytes need memory that can be executed: the first of the added code */
  uint32_t eip = process_eip(pid);
  process_set_eip(pid, frame_code(foreign->frame));
  bool is_made = process_call(pid, words, &at);
  process_set_eip(pid, eip);
  if (!is_made || at >= (uint32_t)MOST_RESULT) return false;
  foreign->regions[foreign->region_count++] = at;
  foreign->region_used = 0;
  return true;
}

/* Room for one more piece: its place, 0 where there is none. */
static uint32_t next_place(struct foreign *foreign, pid_t pid) {
  if (foreign->count == foreign->room) {
    size_t room = 2 * foreign->room + 64;
    struct piece *pieces = realloc(foreign->pieces, room * sizeof *pieces);
    if (!pieces) return 0;
    foreign->pieces = pieces;
    foreign->room = room;
  }
  if (foreign->region_count == 0 || foreign->region_used + SLOT > REGION)
    if (!map_region(foreign, pid)) return 0;
  return foreign->regions[foreign->region_count - 1] + (uint32_t)foreign->region_used;
}

/* Where control goes from an old address: to its entry, its piece, or to the address itself. */
static uint32_t place_of(const struct foreign *foreign, uint32_t old) {
  uint32_t entry = frame_entry(foreign->frame, old);
  if (entry) return entry;
  const struct piece *piece = foreign->counts ? NULL : piece_of(foreign, old);
  return piece ? piece->place : old;
}

static void put_jump(pid_t pid, const struct piece *piece, uint32_t to) {
  uint8_t jump[JUMP_LENGTH] = {0xe9};
  uint32_t displacement = to - (piece->place + piece->length + JUMP_LENGTH);
  memcpy(jump + 1, &displacement, sizeof displacement);
  process_force(pid, piece->place + piece->length, jump, sizeof jump);
}

/* Keeps the instruction whose bytes stand at the next place as a piece, with its way on; pieces from which control comes to it
   find it from now on. */
static void keep(struct foreign *foreign, pid_t pid, const struct piece *piece) {
  for (size_t k = 0; !foreign->counts && k < foreign->count; k++)
    if (foreign->pieces[k].old + foreign->pieces[k].length == piece->old) put_jump(pid, &foreign->pieces[k], piece->place);
  foreign->pieces[foreign->count++] = *piece;
  foreign->region_used += SLOT;
  put_jump(pid, piece, place_of(foreign, piece->old + piece->length));
}

enum met foreign_meet(struct foreign *foreign, pid_t pid, siginfo_t *info, int *status) {
  uint32_t old = process_eip(pid);
  struct piece *known = piece_of(foreign, old);
  if (known) {
    known->times++;
    process_set_eip(pid, known->place);
    return MET_GOES_ON;
  }
  struct piece piece = {.old = old, .place = next_place(foreign, pid), .times = 1};
  size_t length = process_read(pid, old, piece.bytes, MOST_BYTES);
  if (!piece.place || length == 0) return MET_NOT;
  if (!process_force(pid, piece.place, piece.bytes, MOST_BYTES)) return MET_NOT;
  process_set_eip(pid, piece.place);
  *status = process_step_alone(pid);
  if (!WIFSTOPPED(*status) || *status >> 16) return MET_STOPPED;
  uint32_t eip = process_eip(pid);
  if (ptrace(PTRACE_GETSIGINFO, pid, 0, info) != 0) return MET_STOPPED;
  if (is_fault(info)) { /* the fault is the instruction's own, at its old address */
    if ((uintptr_t)info->si_addr - piece.place < length && info->si_signo != SIGSEGV && info->si_signo != SIGBUS)
      info->si_addr = (void *)(uintptr_t)(old + (uint32_t)((uintptr_t)info->si_addr - piece.place));
    process_set_eip(pid, eip - piece.place < MOST_BYTES ? old + (eip - piece.place) : eip);
    return MET_FAULTS;
  }
  if (info->si_signo != SIGTRAP) return MET_STOPPED;
  if (eip - piece.place - 1 >= length) return MET_GOES_ON; /* it went elsewhere, and is stepped each time */
  piece.length = (uint8_t)(eip - piece.place);
  keep(foreign, pid, &piece);
  process_set_eip(pid, place_of(foreign, old + piece.length));
  return MET_GOES_ON;
}

void foreign_report(const struct foreign *foreign, FILE *to) {
  for (size_t k = 0; k < foreign->count; k++) {
    const struct piece *piece = &foreign->pieces[k];
    fprintf(to, "foreign %08" PRIx32, piece->old);
    if (foreign->counts) fprintf(to, " %" PRIu64, piece->times);
    fputc(' ', to);
    for (int n = 0; n < piece->length; n++) fprintf(to, "%02x", piece->bytes[n]);
    fputc('\n', to);
  }
}
