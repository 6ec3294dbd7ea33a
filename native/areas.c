#define _GNU_SOURCE
#include "areas.h"

#include "process.h"

#include <inttypes.h>
#include <stdlib.h>
#include <string.h>

enum { PAGE = 4096, PAGES = 1 << 20, NEAR = 8 /* equal bytes between two that differ, for which no line of their own pays */ };

struct areas {
  uint8_t modes[PAGES]; /* r, w or x, as a log has them; 0 where nothing can be read */
  uint32_t places[PAGES]; /* of a page's bytes among all bytes, for those that may be written */
  uint8_t *bytes;
  size_t count, room; /* pages of bytes */
};

struct areas *areas_new(void) { return calloc(1, sizeof(struct areas)); }

/* A line of /proc/PID/maps. */
struct line {
  uint64_t lo, hi;
  char rights[5], name[32];
};

static bool is_own(const struct line *line) {
  return line->hi > UINT64_C(0x100000000) || strcmp(line->name, "[stack]") == 0 || strcmp(line->name, "[vsyscall]") == 0 ||
         strcmp(line->name, "[vdso]") == 0 || strncmp(line->name, "[vvar", 5) == 0;
}

/* Takes the bytes of pages that may be written. */
static bool take_bytes(struct areas *areas, pid_t pid, const struct line *line) {
  size_t pages = (line->hi - line->lo) / PAGE;
  if (areas->count + pages > areas->room) {
    size_t room = 2 * areas->room + pages;
    uint8_t *bytes = realloc(areas->bytes, room * PAGE);
    if (!bytes) return false;
    areas->bytes = bytes;
    areas->room = room;
  }
  process_read(pid, (uint32_t)line->lo, areas->bytes + areas->count * PAGE, pages * PAGE);
  for (size_t k = 0; k < pages; k++) areas->places[line->lo / PAGE + k] = (uint32_t)(areas->count + k);
  areas->count += pages;
  return true;
}

static const char *take_line(struct areas *areas, pid_t pid, const struct line *line) {
  if (is_own(line) || line->rights[0] != 'r') return NULL;
  bool writes = line->rights[1] == 'w', executes = line->rights[2] == 'x';
  if (writes && executes) return "memory that can be both written and executed";
  if (writes && line->rights[3] == 's') return "memory that it shares with other processes";
  memset(areas->modes + line->lo / PAGE, executes ? 'x' : writes ? 'w' : 'r', (line->hi - line->lo) / PAGE);
  return writes && !take_bytes(areas, pid, line) ? "more memory than there is here" : NULL;
}

const char *areas_take(struct areas *areas, pid_t pid) {
  char name[64], text[512];
  const char *fault = NULL;
  snprintf(name, sizeof name, "/proc/%d/maps", pid);
  FILE *maps = fopen(name, "re");
  if (!maps) return "memory that can't be read";
  memset(areas->modes, 0, sizeof areas->modes);
  areas->count = 0;
  while (!fault && fgets(text, sizeof text, maps)) {
    struct line line = {0};
    if (sscanf(text, "%" SCNx64 "-%" SCNx64 " %4s %*s %*s %*s %31s", &line.lo, &line.hi, line.rights, line.name) >= 3)
      fault = take_line(areas, pid, &line);
  }
  fclose(maps);
  return fault;
}

static void put_bytes(const uint8_t *bytes, size_t length, FILE *log) {
  for (size_t k = 0; k < length; k++) fprintf(log, "%02x", bytes[k]);
}

static void map_line(pid_t pid, uint32_t address, uint32_t length, uint8_t mode, FILE *log) {
  uint8_t *bytes = calloc(length, 1);
  size_t given = bytes ? process_read(pid, address, bytes, length) : 0;
  while (given > 0 && bytes[given - 1] == 0) given--;
  fprintf(log, "map %08" PRIx32 " %08" PRIx32 " %c ", address, length, mode);
  put_bytes(bytes, given, log);
  fputs(given ? "\n" : "-\n", log);
  free(bytes);
}

void areas_map(pid_t pid, uint32_t address, uint32_t length, FILE *log) { map_line(pid, address, length, 'w', log); }

/* Lines for the bytes of a page that differ. */
static void write_lines(const uint8_t *old, const uint8_t *new, uint32_t address, FILE *log) {
  if (memcmp(old, new, PAGE) == 0) return;
  for (size_t k = 0; k < PAGE;) {
    if (old[k] == new[k]) {
      k++;
      continue;
    }
    size_t end = k + 1; /* behind the last byte that differs */
    for (size_t n = end; n < PAGE && n - end < NEAR; n++)
      if (old[n] != new[n]) end = n + 1;
    fprintf(log, "write %08" PRIx32 " ", address + (uint32_t)k);
    put_bytes(new + k, end - k, log);
    fputc('\n', log);
    k = end;
  }
}

static bool is_mapped(const struct areas *before, const struct areas *after, size_t page) {
  return after->modes[page] && after->modes[page] != before->modes[page];
}

static bool is_unmapped(const struct areas *before, const struct areas *after, size_t page) {
  return before->modes[page] && !after->modes[page];
}

void areas_changes(const struct areas *before, const struct areas *after, pid_t pid, FILE *log) {
  for (size_t page = 0, end; page < PAGES; page = end) {
    uint8_t mode = after->modes[page];
    uint32_t address = (uint32_t)(page * PAGE);
    end = page + 1;
    if (is_mapped(before, after, page)) {
      while (end < PAGES && is_mapped(before, after, end) && after->modes[end] == mode) end++;
      map_line(pid, address, (uint32_t)((end - page) * PAGE), mode, log);
    } else if (is_unmapped(before, after, page)) {
      while (end < PAGES && is_unmapped(before, after, end)) end++;
      fprintf(log, "unmap %08" PRIx32 " %08" PRIx32 "\n", address, (uint32_t)((end - page) * PAGE));
    } else if (mode == 'w') {
      write_lines(before->bytes + (size_t)before->places[page] * PAGE, after->bytes + (size_t)after->places[page] * PAGE,
                  address, log);
    }
  }
}
