#define _GNU_SOURCE
#include "told.h"

#include "process.h"

#include <errno.h>
#include <fcntl.h>
#include <inttypes.h>
#include <stdio.h>
#include <stdlib.h>
#include <string.h>
#include <sys/stat.h>
#include <sys/wait.h>
#include <unistd.h>

enum { NONE = -1, NOT_TRACED = 125, CONTEXT_BYTES = 15 };
static int why = NONE, foreign = NONE, counts = NONE; /* where each is told; counts are files of a folder */

/* The words of a counter's kind, as a trace's report has them. */
static const char *const KINDS[] = {"count", "taken", "nottaken"};
enum { KIND_COUNT = sizeof KINDS / sizeof KINDS[0] };

/* Counters that were read before another program was to be run, until it is. */
static char *held;
static size_t held_length;
static pid_t held_by;

/* A descriptor that the program doesn't inherit. */
static int kept(int file, const char *name) {
  int copy = file < 0 ? NONE : fcntl(file, F_DUPFD_CLOEXEC, 64);
  if (copy < 0) {
    fprintf(stderr, "launch: cannot write %s: %s\n", name, strerror(errno));
    exit(NOT_TRACED);
  }
  return copy;
}

static const char *value_of(const char *option, const char *name) {
  size_t length = strlen(name);
  return strncmp(option, name, length) == 0 && option[length] ? option + length : NULL;
}

bool told_takes(const char *option) {
  const char *value;
  if (strcmp(option, "--why") == 0) {
    why = kept(STDERR_FILENO, "standard error");
  } else if ((value = value_of(option, "--foreign="))) {
    foreign = kept(open(value, O_WRONLY | O_CREAT | O_TRUNC | O_CLOEXEC, 0666), value);
  } else if ((value = value_of(option, "--counts="))) {
    if (mkdir(value, 0777) != 0 && errno != EEXIST) kept(NONE, value);
    counts = kept(open(value, O_RDONLY | O_DIRECTORY | O_CLOEXEC), value);
  } else {
    return false;
  }
  return true;
}

bool told_asks(void) { return why != NONE || foreign != NONE || counts != NONE; }

bool told_counts_foreign(void) { return foreign != NONE; }

static int by_number(const void *a, const void *b) { return *(const int *)a - *(const int *)b; }

void told_keep_alone(void) {
  int files[] = {why, foreign, counts};
  unsigned from = STDERR_FILENO + 1;
  qsort(files, 3, sizeof files[0], by_number);
  for (int k = 0; k < 3; k++) {
    if (files[k] == NONE) continue;
    if ((unsigned)files[k] > from) close_range(from, (unsigned)files[k] - 1, 0);
    from = (unsigned)files[k] + 1;
  }
  close_range(from, ~0u, 0);
}

/* ---- counters ---- */

/* The lines of the counters that aren't 0, as text that the caller frees; null where memory runs out. */
static char *counter_lines(const struct process *process, size_t *length) {
  const struct frame *frame = process->frame;
  uint32_t count = frame_counters(frame);
  char *text = NULL;
  FILE *to = open_memstream(&text, length);
  uint64_t *values = calloc(count + 1, sizeof *values);
  if (to && values && process_get(process->pid, frame_counter_place(frame, 0), values, count * sizeof *values))
    for (uint32_t k = 0; k < count; k++)
      if (values[k] && frame_kind(frame, k) < KIND_COUNT)
        fprintf(to, "%s %08" PRIx32 " %" PRIu64 "\n", KINDS[frame_kind(frame, k)], frame_counted(frame, k), values[k]);
  free(values);
  if (to) fclose(to);
  return text;
}

static void write_counts(const struct process *process, const char *text, size_t length) {
  char name[64];
  snprintf(name, sizeof name, "%d.%u", process->pid, process->programs);
  int file = openat(counts, name, O_WRONLY | O_CREAT | O_TRUNC | O_CLOEXEC, 0666);
  if (file < 0) return;
  while (length > 0) {
    ssize_t taken = write(file, text, length);
    if (taken <= 0) break;
    text += taken;
    length -= (size_t)taken;
  }
  close(file);
}

static void drop_held(void) {
  free(held);
  held = NULL;
  held_by = 0;
}

void told_before_exec(struct process *process) {
  drop_held();
  if (counts == NONE || !process->frame) return;
  held = counter_lines(process, &held_length);
  held_by = process->pid;
}

void told_exec(struct process *process, bool is_done) {
  if (is_done && held && held_by == process->pid) write_counts(process, held, held_length);
  if (is_done) process->programs++;
  drop_held();
}

/* ---- why a program stopped ---- */

static const char *reason_of(const struct process *process, uint32_t old, char *text, size_t size) {
  const siginfo_t *info = &process->last;
  uint32_t address = (uint32_t)(uintptr_t)info->si_addr;
  if (!is_fault(info)) return "sent by a process or the kernel";
  if (info->si_signo == SIGSEGV && address == process->last_eip && frame_in_run(process->frame, old) &&
      !frame_entry(process->frame, old))
    return "no instruction of the profile";
  if (info->si_signo == SIGSEGV && address == process->last_eip) return "nothing there can be executed";
  if (info->si_signo == SIGILL || info->si_signo == SIGFPE) return "a trap";
  snprintf(text, size, "a fault at %08" PRIx32, address);
  return text;
}

static void say_why(struct process *process, int sig) {
  const struct frame *frame = process->frame;
  uint32_t eip = process->last.si_signo == sig ? process->last_eip : process_eip(process->pid), old = eip;
  uint8_t bytes[CONTEXT_BYTES];
  char text[64];
  if (frame_in_code(frame, eip)) old = frame_old(frame, frame_piece(frame, eip));
  if (process->foreign && foreign_has(process->foreign, eip)) old = foreign_old(process->foreign, eip);
  size_t length = process_read(process->pid, old, bytes, sizeof bytes);
  dprintf(why, "launch: %d: SIG%s at %08" PRIx32 ": ", process->pid, sigabbrev_np(sig), old);
  for (size_t k = 0; k < length; k++) dprintf(why, "%02x", bytes[k]);
  dprintf(why, "%s%s\n", length ? ": " : "", reason_of(process, old, text, sizeof text));
}

void told_end(struct process *process, int status) {
  if (!process->frame) return;
  if (why != NONE && WIFSIGNALED(status)) say_why(process, WTERMSIG(status));
  if (foreign != NONE && process->foreign) {
    int copy = dup(foreign);
    FILE *to = copy < 0 ? NULL : fdopen(copy, "a");
    if (to) foreign_report(process->foreign, to);
    if (to) fclose(to);
  }
  if (counts != NONE) {
    size_t length = 0;
    char *text = counter_lines(process, &length);
    if (text) write_counts(process, text, length);
    free(text);
  }
}
