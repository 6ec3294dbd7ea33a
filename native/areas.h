/* The memory of a process, page by page, as a log can tell of it; and how a call has changed it. */
#ifndef AREAS_H
#define AREAS_H
#include <stdbool.h>
#include <stdint.h>
#include <stdio.h>
#include <sys/types.h>

/* What is known of a process's memory at a moment. */
struct areas;

/* An empty one; null where memory runs out. */
struct areas *areas_new(void);

/* Takes the pages that can be read, and the bytes of those that may be written. The kernel's own pages and the stack that it
   has given are left out. A text, where there is memory of which no log can tell, else null. */
const char *areas_take(struct areas *areas, pid_t pid);

/* Writes the lines of a log that lead from one moment to a later one: what isn't mapped any more, what is mapped, and bytes
   that differ. */
void areas_changes(const struct areas *before, const struct areas *after, pid_t pid, FILE *log);

/* Writes such a line for bytes that were mapped all along, but which no log had told of. */
void areas_map(pid_t pid, uint32_t address, uint32_t length, FILE *log);

#endif
