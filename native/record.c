/* native/record PROGRAM ARGS.. LOG: runs PROGRAM, and writes the log with which `trace` repeats the run.

   PROGRAM is a static executable for i386, and no output of the rewriter. It starts as the definitions have it: with the
   arguments on a stack up to 0xBFFFF000, no environment, no auxiliary values, and zeros in the other registers. An answer is
   a call's result and what is found changed in memory behind it. Answers of CPUID are the processor's without the
   extensions that the rewriter doesn't know. What no log can tell of (a signal with a handler, memory that processes share,
   code that is written) is said, and the log ends before it. This code is outside every proof. */
#define _GNU_SOURCE
#include "areas.h"
#include "cpuid.h"
#include "process.h"

#include <elf.h>
#include <errno.h>
#include <fcntl.h>
#include <inttypes.h>
#include <stdio.h>
#include <stdlib.h>
#include <string.h>
#include <sys/mman.h>
#include <sys/personality.h>
#include <sys/ptrace.h>
#include <sys/user.h>
#include <sys/wait.h>
#include <unistd.h>

/* The recorder's own statuses; those from 125 on as env(1) has them. */
enum { RECORDED = 0, CUT = 1, USAGE = 2, NOT_TRACED = 125, NOT_EXECUTABLE = 126, NOT_FOUND = 127 };
enum { MOST_HEADERS = 64, PAGE = 4096, MOST_WORDS = 1024, MOST_TEXT = 65536 };
#define STACK_END 0xbffff000u
#define STACK_LENGTH 0x00100000u
#define START_FLAGS 0x202u

/* System calls of i386 by their numbers. */
enum {
  EXIT = 1,
  BRK = 45,
  CLONE = 120,
  MODIFY_LDT = 123,
  MPROTECT = 125,
  PERSONALITY = 136,
  SIGRETURN = 119,
  RT_SIGRETURN = 173,
  VFORK = 190,
  MMAP2 = 192,
  SET_THREAD_AREA = 243,
  IO_SETUP = 245,
  EXIT_GROUP = 252,
  ARCH_PRCTL = 384,
  IO_URING_SETUP = 425,
  CLONE3 = 435,
};
enum { SET_CPUID = 0x1012, SHARES_MEMORY = 0x100, IS_VFORK = 0x4000 };

/* What a call answers inside the kernel where it is interrupted and may be made again. */
enum { RESTARTS_LO = -516, RESTARTS_HI = -512 };

/* The run that is recorded. */
static pid_t program;
static FILE *log_file;
static bool is_recording = true, is_whole; /* lines are still written; the log goes to the program's end */
static bool in_call, is_again;             /* the call that is under way was interrupted, and is made again */
static uint32_t number, arguments[2];      /* of the call that is under way */
static char *answer;                       /* of the last call, until it is known that the program went on behind it */
static size_t answer_length;
static uint32_t answer_eip, heap_tail;     /* where unmapped bytes of the page begin in which the program's data end, else 0 */
static struct areas *before, *after;

static void fail(int status, const char *text, const char *name, const char *why) {
  fprintf(stderr, "record: %s %s%s%s\n", text, name, why ? ": " : "", why ? why : "");
  if (program) kill(program, SIGKILL);
  exit(status);
}

/* Writes the last answer. */
static void settle(void) {
  if (answer) fwrite(answer, 1, answer_length, log_file);
  free(answer);
  answer = NULL;
}

/* From here on nothing is recorded, since of `what` no log can tell. */
static void cut(const char *what) {
  if (!is_recording) return;
  settle();
  is_recording = false;
  fprintf(stderr, "record: the log ends before %s\n", what);
}

/* The program is at its end, by its last call or by a fault. */
static void end(bool is_gone) {
  if (!is_recording) return;
  settle();
  if (is_gone) fputs("gone\n", log_file);
  is_recording = false;
  is_whole = true;
}

/* ---- the start ---- */

static uint32_t call(uint32_t which, uint32_t first, uint32_t second, uint32_t third, uint32_t fourth, uint32_t fifth) {
  uint32_t result = (uint32_t)-ENOSYS;
  process_call(program, (uint32_t[7]){which, first, second, third, fourth, fifth}, &result);
  return result;
}

/* Whether it is a static executable for i386, and if so its headers. */
static bool is_static(int file, Elf32_Ehdr *header, Elf32_Phdr *headers) {
  if (pread(file, header, sizeof *header, 0) != sizeof *header) return false;
  if (memcmp(header->e_ident, ELFMAG, SELFMAG) != 0 || header->e_ident[EI_CLASS] != ELFCLASS32) return false;
  if (header->e_machine != EM_386 || header->e_type != ET_EXEC || header->e_phnum > MOST_HEADERS) return false;
  ssize_t length = (ssize_t)(header->e_phnum * sizeof *headers);
  if (pread(file, headers, (size_t)length, header->e_phoff) != length) return false;
  for (int k = 0; k < header->e_phnum; k++)
    if (headers[k].p_type == PT_INTERP || headers[k].p_type == PT_DYNAMIC) return false;
  return true;
}

/* Gives memory the rights that the headers name, also where a kernel lets all of it be executed. */
static void set_rights(const Elf32_Ehdr *header, const Elf32_Phdr *headers) {
  uint32_t persona = call(PERSONALITY, 0xffffffff, 0, 0, 0, 0);
  if (!(persona & READ_IMPLIES_EXEC)) return;
  call(PERSONALITY, persona & ~(uint32_t)READ_IMPLIES_EXEC, 0, 0, 0, 0);
  for (int k = 0; k < header->e_phnum; k++) {
    if (headers[k].p_type != PT_LOAD || headers[k].p_flags & PF_X) continue;
    uint32_t lo = headers[k].p_vaddr / PAGE * PAGE, hi = headers[k].p_vaddr + headers[k].p_memsz;
    call(MPROTECT, lo, hi - lo, PROT_READ | (headers[k].p_flags & PF_W ? PROT_WRITE : 0), 0, 0);
  }
}

/* The arguments and what points to them, where the definitions have them; the stack pointer, 0 where that fails. */
static uint32_t put_stack(char **words, int count) {
  uint32_t stack[MOST_WORDS + 5] = {(uint32_t)count}, total = 0;
  for (int k = 0; k < count; k++) total += (uint32_t)strlen(words[k]) + 1;
  uint32_t at = STACK_END - total, pointer = (at - 4 * ((uint32_t)count + 5)) / 16 * 16;
  for (int k = 0; k < count; k++) {
    uint32_t length = (uint32_t)strlen(words[k]) + 1;
    stack[k + 1] = at;
    if (!process_put(program, at, words[k], length)) return 0;
    at += length;
  }
  return process_put(program, pointer, stack, 4 * ((size_t)count + 5)) ? pointer : 0;
}

static void set_registers(uint32_t pointer, uint32_t entry) {
  struct user_regs_struct old, regs = {0};
  ptrace(PTRACE_GETREGS, program, 0, &old);
  regs.cs = old.cs;
  regs.ss = old.ss;
  regs.ds = old.ds;
  regs.es = old.es;
  regs.rsp = pointer;
  regs.rip = entry;
  regs.eflags = START_FLAGS;
  regs.orig_rax = (unsigned long)-1;
  ptrace(PTRACE_SETREGS, program, 0, &regs);
}

/* Whether a segment that can be executed has the bytes of CPUID. */
static bool has_cpuid(int file, const Elf32_Ehdr *header, const Elf32_Phdr *headers) {
  bool found = false;
  for (int k = 0; k < header->e_phnum; k++) {
    if (headers[k].p_type != PT_LOAD || !(headers[k].p_flags & PF_X)) continue;
    uint8_t *bytes = calloc(headers[k].p_filesz + 1, 1);
    if (bytes && pread(file, bytes, headers[k].p_filesz, headers[k].p_offset) == (ssize_t)headers[k].p_filesz)
      found = found || memmem(bytes, headers[k].p_filesz, "\x0f\xa2", 2);
    free(bytes);
  }
  return found;
}

/* The program stands at its first instruction, as a kernel starts it. */
static void start(char **words, int count) {
  char name[64];
  Elf32_Ehdr header;
  Elf32_Phdr headers[MOST_HEADERS];
  snprintf(name, sizeof name, "/proc/%d/exe", program);
  int file = open(name, O_RDONLY | O_CLOEXEC);
  if (file < 0 || !is_static(file, &header, headers)) fail(NOT_EXECUTABLE, "no static executable for i386:", words[0], NULL);
  set_rights(&header, headers);
  uint32_t place = STACK_END - STACK_LENGTH;
  uint32_t got = call(MMAP2, place, STACK_LENGTH, PROT_READ | PROT_WRITE,
                      MAP_PRIVATE | MAP_ANONYMOUS | MAP_FIXED_NOREPLACE | MAP_NORESERVE, 0xffffffff);
  uint32_t pointer = got == place ? put_stack(words, count) : 0;
  if (!pointer) fail(NOT_TRACED, "no stack could be made for", words[0], NULL);
  if (call(ARCH_PRCTL, SET_CPUID, 0, 0, 0, 0) != 0 && has_cpuid(file, &header, headers))
    fprintf(stderr, "record: this machine doesn't tell of CPUID, so the log has no answers to it\n");
  close(file);
  uint32_t heap = call(BRK, 0, 0, 0, 0, 0);
  heap_tail = heap % PAGE ? heap : 0;
  set_registers(pointer, header.e_entry);
}

/* ---- calls ---- */

/* What can't be recorded of a call that is about to be made, else null. */
static const char *unknown_call(void) {
  uint64_t flags = 0;
  switch (number) {
    case CLONE:
      flags = arguments[0];
      break;
    case CLONE3:
      process_get(program, arguments[0], &flags, sizeof flags);
      break;
    case MODIFY_LDT:
      return arguments[0] ? "a call that sets a descriptor of the process (modify_ldt)" : NULL;
    case SIGRETURN:
    case RT_SIGRETURN:
      return "a return from a signal's handler";
    case IO_SETUP:
    case IO_URING_SETUP:
      return "reads and writes that the kernel does beside the program";
  }
  return flags & SHARES_MEMORY && !(flags & IS_VFORK) ? "a thread" : NULL;
}

static void on_call(void) {
  struct user_regs_struct regs;
  in_call = true;
  if (!is_recording || is_again) return;
  settle();
  ptrace(PTRACE_GETREGS, program, 0, &regs);
  number = (uint32_t)regs.orig_rax;
  arguments[0] = (uint32_t)regs.rbx;
  arguments[1] = (uint32_t)regs.rcx;
  const char *fault = unknown_call();
  if (!fault) fault = areas_take(before, program);
  if (fault) cut(fault);
  if (number == EXIT || number == EXIT_GROUP) end(true);
}

/* Where the data end inside a page, the rest of it is mapped with the first page behind it. */
static void tell_heap(uint32_t result, FILE *lines) {
  if (number != BRK || !heap_tail || result <= heap_tail) return;
  areas_map(program, heap_tail, PAGE - heap_tail % PAGE, lines);
  heap_tail = 0;
}

static void tell_descriptor(uint32_t result, FILE *lines) {
  uint32_t words[2]; /* of a struct user_desc: the index and the base */
  if (number == SET_THREAD_AREA && result == 0 && process_get(program, arguments[0], words, sizeof words))
    fprintf(lines, "desc %08" PRIx32 " %08" PRIx32 "\n", words[0], words[1]);
}

static void on_answer(void) {
  struct user_regs_struct regs;
  in_call = false;
  if (!is_recording) return;
  ptrace(PTRACE_GETREGS, program, 0, &regs);
  int32_t result = (int32_t)regs.rax;
  is_again = result >= RESTARTS_LO && result <= RESTARTS_HI;
  if (is_again) return;
  const char *fault = areas_take(after, program);
  FILE *lines = fault ? NULL : open_memstream(&answer, &answer_length);
  if (!lines) {
    cut(fault ? fault : "a call for whose answer there was no memory");
    return;
  }
  fprintf(lines, "ret %08" PRIx32 "\n", (uint32_t)result);
  tell_heap((uint32_t)result, lines);
  areas_changes(before, after, program, lines);
  tell_descriptor((uint32_t)result, lines);
  fclose(lines);
  answer_eip = (uint32_t)regs.rip;
}

/* ---- signals ---- */

static bool is_harmless(int sig) {
  return sig == SIGCHLD || sig == SIGURG || sig == SIGWINCH || sig == SIGCONT || sig == SIGSTOP || sig == SIGTSTP ||
         sig == SIGTTIN || sig == SIGTTOU || process_ignores(program, sig);
}

/* Whether it comes of a CPUID, which the program is then done with. */
static bool is_cpuid(const siginfo_t *info) {
  uint8_t bytes[2];
  uint32_t eip = process_eip(program), words[4];
  if (info->si_signo != SIGSEGV || info->si_code != SI_KERNEL || !process_get(program, eip, bytes, sizeof bytes)) return false;
  if (bytes[0] != 0x0f || bytes[1] != 0xa2 || !cpuid_answer(program, eip, words)) return false;
  if (is_recording) {
    settle();
    fprintf(log_file, "cpuid %08" PRIx32 " %08" PRIx32 " %08" PRIx32 " %08" PRIx32 "\n", words[0], words[1], words[2], words[3]);
  }
  return true;
}

/* A signal comes to the program; the one with which it goes on. */
static int on_signal(int sig) {
  siginfo_t info;
  char what[80];
  if (ptrace(PTRACE_GETSIGINFO, program, 0, &info) != 0) return 0; /* it has stopped, and goes on */
  if (is_cpuid(&info)) return 0;
  snprintf(what, sizeof what, "SIG%s, which comes from outside", sigabbrev_np(sig));
  if (process_catches(program, sig)) {
    snprintf(what, sizeof what, "SIG%s, which has a handler", sigabbrev_np(sig));
    cut(what);
  } else if (is_fault(&info) || (sig == SIGTRAP && info.si_code == SI_KERNEL)) {
    if (is_recording)
      fprintf(stderr, "record: the program ends by SIG%s at %08" PRIx32 "\n", sigabbrev_np(sig), process_eip(program));
    end(false); /* by a trap, to which a trace comes by itself */
  } else if (!is_harmless(sig) && is_recording) {
    if (answer && process_eip(program) == answer_eip) { /* by its last call */
      free(answer);
      answer = NULL;
      end(true);
    } else {
      cut(what);
    }
  }
  return sig;
}

/* ---- the run ---- */

static void run(void) {
  int status, sig = 0;
  for (;;) {
    ptrace(PTRACE_SYSCALL, program, 0, (long)sig);
    sig = 0;
    while (waitpid(program, &status, 0) < 0)
      if (errno != EINTR) return;
    if (!WIFSTOPPED(status)) break;
    if (WSTOPSIG(status) == (SIGTRAP | 0x80)) {
      if (in_call) on_answer();
      else on_call();
    } else if (status >> 16 == PTRACE_EVENT_EXEC) {
      if (is_recording) fputs("record: the program executes another, of which nothing is recorded\n", stderr);
      end(true);
    } else if (!(status >> 16)) {
      sig = on_signal(WSTOPSIG(status));
    }
  }
  if (in_call) end(true);
  else cut("a signal that comes from outside");
}

/* Starts the program, up to its first instruction. */
static void begin(char **words) {
  int ends[2], error = 0, status;
  if (pipe2(ends, O_CLOEXEC) != 0 || (program = fork()) < 0) fail(NOT_TRACED, "cannot start", words[0], strerror(errno));
  if (program == 0) {
    char *none[] = {NULL};
    personality(ADDR_NO_RANDOMIZE);
    if (ptrace(PTRACE_TRACEME, 0, 0, 0) == 0) execvpe(words[0], words, none);
    error = errno;
    if (write(ends[1], &error, sizeof error) < 0) _exit(NOT_TRACED);
    _exit(NOT_FOUND);
  }
  close(ends[1]);
  if (read(ends[0], &error, sizeof error) == sizeof error) {
    program = 0;
    fail(error == ENOENT ? NOT_FOUND : NOT_EXECUTABLE, "cannot run", words[0], strerror(error));
  }
  close(ends[0]);
  if (waitpid(program, &status, 0) != program || !WIFSTOPPED(status)) fail(NOT_TRACED, "cannot trace", words[0], NULL);
  ptrace(PTRACE_SETOPTIONS, program, 0, PTRACE_O_TRACESYSGOOD | PTRACE_O_TRACEEXEC | PTRACE_O_EXITKILL);
}

static void show_usage(FILE *to) {
  fputs(
      "usage: record PROGRAM ARGS.. LOG\n"
      "Runs PROGRAM, a static executable for i386, and writes the log with which `multiverse trace PROGRAM LOG STEPS`\n"
      "repeats the run. It starts without an environment and without auxiliary values.\n"
      "Status 0: the log goes to the program's end; 1: it ends before what no log can tell of, as a line on standard error\n"
      "says; 125 to 127: the program could not be run. docs/NATIVE.md says what can't be recorded.\n",
      to);
}

/* Begins the log: its first line and the arguments. */
static void open_log(const char *name, char **words) {
  log_file = fopen(name, "we");
  if (!log_file) fail(NOT_TRACED, "cannot write", name, strerror(errno));
  fputs("log 1\n", log_file);
  for (; *words; words++) {
    fputs("arg ", log_file);
    for (const char *c = *words; *c; c++) fprintf(log_file, "%02x", (unsigned char)*c);
    fputs(**words ? "\n" : "-\n", log_file);
  }
}

/* Whether a log can have these arguments. */
static bool are_arguments(char **words, int count) {
  size_t text = 0;
  for (int k = 0; k < count; k++) text += strlen(words[k]) + 1;
  return count <= MOST_WORDS && text <= MOST_TEXT;
}

int main(int count, char **words) {
  if (count == 2 && (strcmp(words[1], "--help") == 0 || strcmp(words[1], "-h") == 0)) {
    show_usage(stdout);
    return 0;
  }
  if (count < 3) {
    show_usage(stderr);
    return USAGE;
  }
  const char *name = words[count - 1];
  words[count - 1] = NULL;
  words++;
  count -= 2;
  if (!are_arguments(words, count)) fail(USAGE, "too many words for a log of", words[0], NULL);
  before = areas_new();
  after = areas_new();
  if (!before || !after) fail(NOT_TRACED, "no memory for", words[0], NULL);
  open_log(name, words);
  begin(words);
  start(words, count);
  run();
  bool is_written = !ferror(log_file);
  program = 0;
  if (fclose(log_file) != 0 || !is_written) fail(NOT_TRACED, "cannot write", name, strerror(errno));
  return is_whole ? RECORDED : CUT;
}
