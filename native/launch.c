/* native/launch [OPTIONS] PROGRAM ARGS..: runs PROGRAM. In it and in its children, what a kernel does to a rewritten file by
   its old addresses is mended: the auxiliary vector speaks of the original, signal handlers start at their new places, and
   old code can't be executed whatever the file's headers say. Instructions that the rewriter doesn't know are carried out,
   and CPUID tells of none of their extensions.
   This code is outside every proof; docs/NATIVE.md says what it can't do.

   The process that is started becomes the program, so its status, its signal and its parent are the program's own. A
   process of its own session, no child of the program, traces it and whatever comes from it, and ends with the last. */
#define _GNU_SOURCE
#include "launch.h"

#include "cpuid.h"
#include "process.h"
#include "told.h"

#include <elf.h>
#include <errno.h>
#include <fcntl.h>
#include <linux/filter.h>
#include <linux/seccomp.h>
#include <stddef.h>
#include <stdio.h>
#include <stdlib.h>
#include <string.h>
#include <sys/mman.h>
#include <sys/personality.h>
#include <sys/prctl.h>
#include <sys/ptrace.h>
#include <sys/stat.h>
#include <sys/wait.h>
#include <unistd.h>

/* The launcher's own statuses, as those of env(1). */
enum { NOT_TRACED = 125, NOT_EXECUTABLE = 126, NOT_FOUND = 127 };
#define TRAP_FLAG 0x100u
#define FOLLOWED \
  (PTRACE_O_TRACEEXEC | PTRACE_O_TRACEFORK | PTRACE_O_TRACEVFORK | PTRACE_O_TRACECLONE | PTRACE_O_EXITKILL)
#define TOLD (PTRACE_O_TRACEEXIT | PTRACE_O_TRACESECCOMP)

/* System calls of i386 and of x86-64 by their numbers. */
enum { PERSONALITY_386 = 136, MPROTECT_386 = 125, EXECVE_386 = 11, EXECVEAT_386 = 358, EXECVE_64 = 59, EXECVEAT_64 = 322 };

/* Where a signal's frame on an i386 stack has the interrupted flags: with SA_SIGINFO behind the arguments' pointers and the
   siginfo_t, whose end the third argument tells; else behind the one argument. */
enum { CONTEXT_POINTER = 12, INFO_END = 144, CONTEXT_IN_UCONTEXT = 20, CONTEXT = 8, FLAGS_IN_CONTEXT = 64 };

/* A file that was executed, and its frame, null where it has none. */
struct known {
  struct stat about;
  struct frame *frame;
  struct cpuids *cpuids;
  struct known *next;
};
static struct known *files;

static struct process *processes;

/* Whether instructions that the rewriter doesn't know stop the program, as the definitions have it. */
static bool is_strict;

static void on_stop(struct process *process, int status);

static void clear_trap_flag(pid_t pid, uint32_t address) {
  uint32_t flags;
  if (!process_get(pid, address, &flags, sizeof flags) || !(flags & TRAP_FLAG)) return;
  flags &= ~TRAP_FLAG;
  process_put(pid, address, &flags, sizeof flags);
}

/* ---- rewritten files ---- */
static bool is_same(const struct stat *a, const struct stat *b) {
  return a->st_dev == b->st_dev && a->st_ino == b->st_ino && a->st_size == b->st_size &&
         a->st_mtim.tv_sec == b->st_mtim.tv_sec && a->st_mtim.tv_nsec == b->st_mtim.tv_nsec;
}

static const struct known *known_of(int file) {
  struct stat about;
  if (fstat(file, &about) != 0) return NULL;
  for (struct known *known = files; known; known = known->next)
    if (is_same(&known->about, &about)) return known;
  struct known *known = calloc(1, sizeof *known);
  if (!known) return NULL;
  known->about = about;
  known->frame = frame_read(file);
  if (known->frame && !is_strict) known->cpuids = cpuids_find(known->frame, file);
  known->next = files;
  files = known;
  return known;
}

/* What is known of the file that a process runs, null where it can't be read. */
static const struct known *file_of(pid_t pid) {
  char name[64];
  snprintf(name, sizeof name, "/proc/%d/exe", pid);
  int file = open(name, O_RDONLY | O_CLOEXEC);
  if (file < 0) return NULL;
  const struct known *known = known_of(file);
  close(file);
  return known;
}

/* ---- a program's start ---- */

/* The address of the auxiliary vector at the start of a program: behind the arguments and the environment. */
static uint32_t auxiliary_vector(pid_t pid) {
  uint32_t at = process_esp(pid), word;
  if (!process_get(pid, at, &word, sizeof word)) return 0;
  at += sizeof word * (word + 2);
  do {
    if (!process_get(pid, at, &word, sizeof word)) return 0;
    at += sizeof word;
  } while (word);
  return at;
}

/* Gives the auxiliary vector the original's values, and takes the vDSO's two out. */
static void tell_original(pid_t pid, const struct original *original) {
  uint32_t from = auxiliary_vector(pid), to = from;
  Elf32_auxv_t pair;
  do {
    if (!process_get(pid, from, &pair, sizeof pair)) return;
    from += sizeof pair;
    if (pair.a_type == AT_PHDR) pair.a_un.a_val = original->headers;
    if (pair.a_type == AT_PHNUM) pair.a_un.a_val = original->header_count;
    if (pair.a_type == AT_ENTRY) pair.a_un.a_val = original->entry;
    if (pair.a_type == AT_SYSINFO || pair.a_type == AT_SYSINFO_EHDR) continue;
    process_put(pid, to, &pair, sizeof pair);
    to += sizeof pair;
  } while (pair.a_type != AT_NULL);
  for (; to < from; to += sizeof pair) process_put(pid, to, &pair, sizeof pair);
}

/* Takes the right to execute away from the file's old segments, which a kernel gives all memory where a file has no
   PT_GNU_STACK. The process stands at its first instruction. */
static void take_rights(pid_t pid, const struct frame *frame) {
  uint32_t persona, result;
  if (!process_call(pid, (uint32_t[7]){PERSONALITY_386, 0xffffffff}, &persona) || !(persona & READ_IMPLIES_EXEC)) return;
  process_call(pid, (uint32_t[7]){PERSONALITY_386, persona & ~(uint32_t)READ_IMPLIES_EXEC}, &result);
  for (uint32_t k = 0; k < frame_segment_count(frame); k++) {
    struct segment segment = frame_segment(frame, k);
    uint32_t rights = PROT_READ | (segment.is_writable ? PROT_WRITE : 0);
    process_call(pid, (uint32_t[7]){MPROTECT_386, segment.lo, segment.length, rights}, &result);
  }
}

/* A process has executed a file, and is still in that system call. */
static void on_exec(struct process *process) {
  told_exec(process, true);
  foreign_free(process->foreign);
  process->foreign = NULL;
  const struct known *known = file_of(process->pid);
  process->frame = known ? known->frame : NULL;
  process->cpuids = known ? known->cpuids : NULL;
  process->last.si_signo = 0;
  if (!process->frame) return;
  if (!is_strict) process->foreign = foreign_new(process->frame);
  if (process->foreign && told_counts_foreign()) foreign_count(process->foreign);
  tell_original(process->pid, frame_original(process->frame));
  int status = process_step_alone(process->pid); /* out of the system call */
  if (!WIFSTOPPED(status) || WSTOPSIG(status) != SIGTRAP) return;
  take_rights(process->pid, process->frame);
  if (process->cpuids) cpuids_set(process->cpuids, process->pid);
}

/* ---- signals ---- */

/* Has a signal start its handler, which then begins at its new place. Steps through instructions that store or load the
   flags can leave the trap flag in the interrupted flags, so it is cleared there. */
static void deliver(struct process *process, int sig) {
  pid_t pid = process->pid;
  int status = process_step(pid, sig);
  siginfo_t info;
  if (!WIFSTOPPED(status)) return;
  if (status >> 8 != SIGTRAP || ptrace(PTRACE_GETSIGINFO, pid, 0, &info) != 0) {
    on_stop(process, status);
    return;
  }
  if (info.si_code == SIGTRAP) { /* at the start of a handler */
    uint32_t esp = process_esp(pid), context = 0;
    process_get(pid, esp + CONTEXT_POINTER, &context, sizeof context);
    context = context == esp + INFO_END ? context + CONTEXT_IN_UCONTEXT : esp + CONTEXT;
    clear_trap_flag(pid, context + FLAGS_IN_CONTEXT);
    uint32_t entry = frame_entry(process->frame, process_eip(pid));
    if (entry) process_set_eip(pid, entry);
  }
  process_go_on(pid, 0);
}

/* Whether nothing is under way at an address: it is the begin of a piece, or no added code. */
static bool is_between_pieces(const struct process *process, uint32_t eip) {
  if (process->foreign && foreign_has(process->foreign, eip)) return foreign_is_begin(process->foreign, eip);
  return frame_is_entry(process->frame, eip) || !frame_in_code(process->frame, eip);
}

/* Where an instruction that faulted begins again: its piece, or its old address where the rewriter doesn't know it. */
static uint32_t begin_of(const struct process *process, uint32_t eip) {
  if (process->foreign && foreign_has(process->foreign, eip)) return foreign_old(process->foreign, eip);
  return frame_piece(process->frame, eip);
}

/* Steps to the next entry, while the kernel keeps all further signals back. An instruction that faults in its piece begins
   again after the signal's handler. False where the process has ended; `stops` tells that SIGSTOP came. */
static bool step_to_entry(struct process *process, bool *stops) {
  pid_t pid = process->pid;
  uint64_t blocked = ~(signal_bit(SIGTRAP) | fault_bits());
  int again = 0;
  for (uint32_t eip = process_eip(pid); !is_between_pieces(process, eip); eip = process_eip(pid)) {
    siginfo_t info;
    ptrace(PTRACE_SETSIGMASK, pid, sizeof blocked, &blocked);
    int status = process_step(pid, again), sig = WSTOPSIG(status);
    again = 0;
    if (!WIFSTOPPED(status)) return false;
    if (status >> 16 || sig == SIGTRAP || ptrace(PTRACE_GETSIGINFO, pid, 0, &info) != 0) continue;
    if (is_fault(&info)) {
      process_set_eip(pid, begin_of(process, process_eip(pid)));
      return true;
    }
    if (sig == SIGSTOP) {
      *stops = true;
    } else { /* blocked from here on, and so kept by the kernel */
      blocked |= signal_bit(sig);
      again = sig;
    }
  }
  return true;
}

/* Holds a signal back until the next entry, and delivers it there. */
static void hold(struct process *process, siginfo_t *info) {
  pid_t pid = process->pid;
  uint64_t blocked;
  bool stops = false;
  if (ptrace(PTRACE_GETSIGMASK, pid, sizeof blocked, &blocked) != 0) return;
  if (!step_to_entry(process, &stops)) return;
  ptrace(PTRACE_SETSIGMASK, pid, sizeof blocked, &blocked);
  ptrace(PTRACE_SETSIGINFO, pid, 0, info);
  if (stops) kill(pid, SIGSTOP);
  deliver(process, info->si_signo);
}

/* A signal that has a handler, in a process that runs a rewritten file. */
static void on_caught(struct process *process, siginfo_t *info) {
  uint32_t eip = process_eip(process->pid);
  if (is_fault(info)) {
    process_set_eip(process->pid, begin_of(process, eip)); /* where it begins again when the handler returns */
    deliver(process, info->si_signo);
  } else if (process_in_call(process->pid) || is_between_pieces(process, eip)) {
    deliver(process, info->si_signo);
  } else {
    hold(process, info);
  }
}

/* A signal goes to a process that runs a rewritten file. */
static void pass_on(struct process *process, siginfo_t *info) {
  process->last = *info;
  process->last_eip = process_eip(process->pid);
  if (process_catches(process->pid, info->si_signo)) {
    on_caught(process, info);
  } else {
    if (is_fault(info)) process_set_eip(process->pid, begin_of(process, process->last_eip));
    process_go_on(process->pid, info->si_signo);
  }
}

/* Control came to an old address that has no entry: its instruction is one that the rewriter doesn't know. */
static void on_foreign(struct process *process, siginfo_t *info) {
  siginfo_t fault;
  int status = 0;
  switch (foreign_meet(process->foreign, process->pid, &fault, &status)) {
    case MET_GOES_ON:
      process_go_on(process->pid, 0);
      break;
    case MET_FAULTS:
      ptrace(PTRACE_SETSIGINFO, process->pid, 0, &fault);
      pass_on(process, &fault);
      break;
    case MET_STOPPED:
      if (WIFSTOPPED(status)) on_stop(process, status);
      break;
    case MET_NOT:
      pass_on(process, info);
      break;
  }
}

static void on_signal(struct process *process, int sig) {
  pid_t pid = process->pid;
  siginfo_t info;
  if (!process->frame || ptrace(PTRACE_GETSIGINFO, pid, 0, &info) != 0) {
    process_go_on(pid, sig);
    return;
  }
  uint32_t eip = process_eip(pid), entry = frame_entry(process->frame, eip);
  bool is_fetch = sig == SIGSEGV && is_fault(&info) && (uintptr_t)info.si_addr == eip;
  if (is_fetch && entry) { /* control came to an old address */
    process_set_eip(pid, entry);
    process_go_on(pid, 0);
  } else if (is_fetch && process->foreign && frame_in_run(process->frame, eip)) {
    on_foreign(process, &info);
  } else if (sig == SIGTRAP && process->cpuids && cpuids_answer(process->cpuids, pid)) {
    process_go_on(pid, 0);
  } else {
    pass_on(process, &info);
  }
}

/* ---- processes ---- */

static struct process *find(pid_t pid) {
  for (struct process *process = processes; process; process = process->next)
    if (process->pid == pid) return process;
  return NULL;
}

static struct process *add(pid_t pid) {
  struct process *process = calloc(1, sizeof *process);
  if (!process) _exit(NOT_TRACED);
  process->pid = pid;
  process->next = processes;
  processes = process;
  return process;
}

static void drop(pid_t pid) {
  for (struct process **at = &processes; *at; at = &(*at)->next) {
    if ((*at)->pid != pid) continue;
    struct process *process = *at;
    *at = process->next;
    foreign_free(process->foreign);
    free(process);
    return;
  }
}

/* A process has a child, which begins as its copy. It may have been seen already. */
static void on_child(const struct process *parent, pid_t pid) {
  struct process *child = find(pid);
  bool waits = child && child->waits;
  if (!child) child = add(pid);
  child->frame = parent->frame;
  child->cpuids = parent->cpuids;
  child->foreign = parent->foreign ? foreign_copy(parent->foreign) : NULL;
  child->waits = false;
  if (waits) process_go_on(pid, 0);
}

static bool is_stop(int sig) { return sig == SIGSTOP || sig == SIGTSTP || sig == SIGTTIN || sig == SIGTTOU; }

/* What belongs to an event of ptrace: a child, a status. */
static unsigned long message_of(pid_t pid) {
  unsigned long message = 0;
  ptrace(PTRACE_GETEVENTMSG, pid, 0, &message);
  return message;
}

static void on_event(struct process *process, int event) {
  pid_t pid = process->pid;
  switch (event) {
    case PTRACE_EVENT_EXEC:
      on_exec(process);
      break;
    case PTRACE_EVENT_FORK:
    case PTRACE_EVENT_VFORK:
    case PTRACE_EVENT_CLONE:
      on_child(process, (pid_t)message_of(pid));
      break;
    case PTRACE_EVENT_SECCOMP:
      told_before_exec(process);
      break;
    case PTRACE_EVENT_EXIT:
      told_end(process, (int)message_of(pid));
      break;
  }
  process_go_on(pid, 0);
}

static void on_stop(struct process *process, int status) {
  int sig = WSTOPSIG(status), event = status >> 16;
  if (event == 0) {
    on_signal(process, sig);
  } else if (event == PTRACE_EVENT_STOP && is_stop(sig)) {
    ptrace(PTRACE_LISTEN, process->pid, 0, 0);
  } else {
    on_event(process, event);
  }
}

/* A process has stopped or ended. One that isn't known yet waits until its parent has told of it. */
static void on_wait(pid_t pid, int status) {
  struct process *process = find(pid);
  if (!WIFSTOPPED(status)) {
    drop(pid);
  } else if (process) {
    on_stop(process, status);
  } else {
    add(pid)->waits = true;
  }
}

/* ---- the two processes ---- */

/* Lets go of all that it has from the program's parent: terminal, folder, files. */
static void stand_alone(void) {
  int nothing = open("/dev/null", O_RDWR);
  for (int file = STDIN_FILENO; file <= STDERR_FILENO; file++) dup2(nothing, file);
  told_keep_alone();
  if (chdir("/") != 0) _exit(NOT_TRACED);
}

/* Traces `program`, answers on `report` whether it could (0, or an errno), and serves it and its children to their end. */
static void trace(pid_t program, int report) {
  int status, error = 0;
  setsid();
  if (ptrace(PTRACE_SEIZE, program, 0, FOLLOWED | (told_asks() ? TOLD : 0)) != 0) error = errno;
  if (write(report, &error, sizeof error) != sizeof error || error) return;
  stand_alone();
  add(program);
  for (;;) {
    pid_t pid = waitpid(-1, &status, __WALL);
    if (pid < 0 && errno != EINTR) return;
    if (pid > 0) on_wait(pid, status);
  }
}

/* Starts the tracer, as a grandchild, so that the program has no child that it doesn't know. Answers an errno, or 0. */
static int start_tracer(void) {
  int ends[2], error = ECHILD;
  pid_t program = getpid();
  prctl(PR_SET_PTRACER, PR_SET_PTRACER_ANY, 0, 0, 0); /* fails where the kernel asks for no such leave */
  if (pipe2(ends, O_CLOEXEC) != 0) return errno;
  pid_t between = fork();
  if (between < 0) return errno;
  if (between == 0) {
    close(ends[0]);
    if (fork() == 0) trace(program, ends[1]);
    _exit(0);
  }
  close(ends[1]);
  while (waitpid(between, NULL, 0) < 0 && errno == EINTR) continue;
  if (read(ends[0], &error, sizeof error) != sizeof error) error = ECHILD;
  close(ends[0]);
  prctl(PR_SET_PTRACER, 0, 0, 0, 0);
  return error;
}

/* Has the tracer be told before each program that is executed, so that what the old one counted can be read. */
static int tell_before_exec(void) {
  struct sock_filter filter[] = {
      BPF_STMT(BPF_LD | BPF_W | BPF_ABS, offsetof(struct seccomp_data, arch)),
      BPF_JUMP(BPF_JMP | BPF_JEQ | BPF_K, 0x40000003 /* AUDIT_ARCH_I386 */, 0, 3),
      BPF_STMT(BPF_LD | BPF_W | BPF_ABS, offsetof(struct seccomp_data, nr)),
      BPF_JUMP(BPF_JMP | BPF_JEQ | BPF_K, EXECVE_386, 5, 0),
      BPF_JUMP(BPF_JMP | BPF_JEQ | BPF_K, EXECVEAT_386, 4, 3),
      BPF_STMT(BPF_LD | BPF_W | BPF_ABS, offsetof(struct seccomp_data, nr)),
      BPF_JUMP(BPF_JMP | BPF_JEQ | BPF_K, EXECVE_64, 2, 0),
      BPF_JUMP(BPF_JMP | BPF_JEQ | BPF_K, EXECVEAT_64, 1, 0),
      BPF_STMT(BPF_RET | BPF_K, SECCOMP_RET_ALLOW),
      BPF_STMT(BPF_RET | BPF_K, SECCOMP_RET_TRACE),
  };
  struct sock_fprog program = {sizeof filter / sizeof filter[0], filter};
  if (prctl(PR_SET_NO_NEW_PRIVS, 1, 0, 0, 0) != 0) return errno;
  return prctl(PR_SET_SECCOMP, SECCOMP_MODE_FILTER, &program) == 0 ? 0 : errno;
}

static void show_usage(FILE *to) {
  fputs(
      "usage: launch [OPTIONS] PROGRAM ARGS..\n"
      "Runs PROGRAM so that it and its children may be rewritten files.\n"
      "  --strict          a program stops where it meets an instruction that the rewriter doesn't know\n"
      "  --why             where a rewritten program ends by a signal, a line on standard error says where and why\n"
      "  --foreign=FILE    writes which instructions that the rewriter doesn't know ran, and how often\n"
      "  --counts=FOLDER   writes each process's counters that aren't 0 to a file of the folder, PID.N, N from 0 for\n"
      "                    each program that it runs\n"
      "docs/NATIVE.md says what works and what can't.\n",
      to);
}

/* Takes the options; the index of the first word behind them, 0 where they are faulty. */
static int take_options(int count, char **words) {
  int k = 1;
  for (; k < count && words[k][0] == '-'; k++) {
    if (strcmp(words[k], "--help") == 0 || strcmp(words[k], "-h") == 0) {
      show_usage(stdout);
      exit(0);
    }
    if (strcmp(words[k], "--") == 0) return k + 1 < count ? k + 1 : 0;
    if (strcmp(words[k], "--strict") == 0) {
      is_strict = true;
    } else if (!told_takes(words[k])) {
      return 0;
    }
  }
  return k < count ? k : 0;
}

int main(int count, char **words) {
  int first = take_options(count, words);
  if (!first) {
    show_usage(stderr);
    return NOT_TRACED;
  }
  int error = start_tracer();
  if (!error && told_asks()) error = tell_before_exec();
  if (error) {
    fprintf(stderr, "launch: cannot trace: %s\n", strerror(error));
    return NOT_TRACED;
  }
  execvp(words[first], words + first);
  error = errno;
  fprintf(stderr, "launch: cannot run %s: %s\n", words[first], strerror(error));
  return error == ENOENT ? NOT_FOUND : NOT_EXECUTABLE;
}
