#define _GNU_SOURCE
#include "process.h"

#include <errno.h>
#include <fcntl.h>
#include <stdio.h>
#include <stdlib.h>
#include <string.h>
#include <sys/ptrace.h>
#include <sys/uio.h>
#include <sys/user.h>
#include <sys/wait.h>
#include <unistd.h>

static const int FAULTS[] = {SIGSEGV, SIGBUS, SIGFPE, SIGILL};
enum { FAULT_COUNT = sizeof FAULTS / sizeof FAULTS[0] };

static uint32_t get_register(pid_t pid, size_t place) { return ptrace(PTRACE_PEEKUSER, pid, place, 0); }

uint32_t process_eip(pid_t pid) { return get_register(pid, offsetof(struct user_regs_struct, rip)); }

uint32_t process_esp(pid_t pid) { return get_register(pid, offsetof(struct user_regs_struct, rsp)); }

void process_set_eip(pid_t pid, uint32_t eip) {
  ptrace(PTRACE_POKEUSER, pid, offsetof(struct user_regs_struct, rip), (unsigned long)eip);
}

bool process_in_call(pid_t pid) {
  return (int32_t)get_register(pid, offsetof(struct user_regs_struct, orig_rax)) >= 0;
}

size_t process_read(pid_t pid, uint32_t address, void *to, size_t length) {
  size_t got = 0;
  while (got < length) { /* up to the end of a page at a time, since a part of a range that fails gives nothing */
    size_t left = 4096 - (address + got) % 4096, part = left < length - got ? left : length - got;
    struct iovec here = {(char *)to + got, part}, there = {(void *)(uintptr_t)(address + got), part};
    if (process_vm_readv(pid, &here, 1, &there, 1, 0) != (ssize_t)part) break;
    got += part;
  }
  return got;
}

bool process_get(pid_t pid, uint32_t address, void *to, size_t length) {
  return process_read(pid, address, to, length) == length;
}

bool process_put(pid_t pid, uint32_t address, const void *from, size_t length) {
  struct iovec here = {(void *)from, length}, there = {(void *)(uintptr_t)address, length};
  return process_vm_writev(pid, &here, 1, &there, 1, 0) == (ssize_t)length;
}

bool process_force(pid_t pid, uint32_t address, const void *from, size_t length) {
  char name[64];
  snprintf(name, sizeof name, "/proc/%d/mem", pid);
  int memory = open(name, O_WRONLY | O_CLOEXEC);
  if (memory < 0) return false;
  bool is_put = pwrite(memory, from, length, (off_t)address) == (ssize_t)length;
  close(memory);
  return is_put;
}

uint64_t signal_bit(int sig) { return UINT64_C(1) << (sig - 1); }

bool is_fault(const siginfo_t *info) {
  for (int k = 0; k < FAULT_COUNT; k++)
    if (info->si_signo == FAULTS[k]) return info->si_code > 0;
  return false;
}

uint64_t fault_bits(void) {
  uint64_t bits = 0;
  for (int k = 0; k < FAULT_COUNT; k++) bits |= signal_bit(FAULTS[k]);
  return bits;
}

/* The signals of a line of the process's status, a bit each. */
static uint64_t status_bits(pid_t pid, const char *field) {
  char name[64], line[256];
  size_t length = strlen(field);
  uint64_t bits = 0;
  snprintf(name, sizeof name, "/proc/%d/status", pid);
  FILE *status = fopen(name, "re");
  if (!status) return 0;
  while (fgets(line, sizeof line, status))
    if (strncmp(line, field, length) == 0) bits = strtoull(line + length, NULL, 16);
  fclose(status);
  return bits;
}

bool process_catches(pid_t pid, int sig) { return status_bits(pid, "SigCgt:") & signal_bit(sig); }

bool process_ignores(pid_t pid, int sig) { return status_bits(pid, "SigIgn:") & signal_bit(sig); }

void process_go_on(pid_t pid, int sig) { ptrace(PTRACE_CONT, pid, 0, (long)sig); }

int process_step(pid_t pid, int sig) {
  int status = 0;
  if (ptrace(PTRACE_SINGLESTEP, pid, 0, (long)sig) == 0)
    while (waitpid(pid, &status, __WALL) < 0 && errno == EINTR) continue;
  return status;
}

int process_step_alone(pid_t pid) {
  uint64_t blocked, all = ~(signal_bit(SIGTRAP) | fault_bits());
  if (ptrace(PTRACE_GETSIGMASK, pid, sizeof blocked, &blocked) != 0) return 0;
  ptrace(PTRACE_SETSIGMASK, pid, sizeof all, &all);
  int status = process_step(pid, 0);
  if (WIFSTOPPED(status)) ptrace(PTRACE_SETSIGMASK, pid, sizeof blocked, &blocked);
  return status;
}

bool process_call(pid_t pid, const uint32_t words[7], uint32_t *result) {
  static const uint8_t INT_80[2] = {0xcd, 0x80};
  struct user_regs_struct before, during;
  uint8_t code[sizeof INT_80];
  if (ptrace(PTRACE_GETREGS, pid, 0, &before) != 0) return false;
  uint32_t eip = (uint32_t)before.rip;
  if (!process_get(pid, eip, code, sizeof code) || !process_force(pid, eip, INT_80, sizeof INT_80)) return false;
  during = before;
  during.orig_rax = (unsigned long)-1;
  during.rax = words[0];
  during.rbx = words[1];
  during.rcx = words[2];
  during.rdx = words[3];
  during.rsi = words[4];
  during.rdi = words[5];
  during.rbp = words[6];
  ptrace(PTRACE_SETREGS, pid, 0, &during);
  int status = process_step_alone(pid);
  bool is_made = WIFSTOPPED(status) && WSTOPSIG(status) == SIGTRAP && ptrace(PTRACE_GETREGS, pid, 0, &during) == 0;
  if (!WIFSTOPPED(status)) return false;
  process_force(pid, eip, code, sizeof code);
  before.orig_rax = (unsigned long)-1;
  ptrace(PTRACE_SETREGS, pid, 0, &before);
  if (is_made) *result = (uint32_t)during.rax;
  return is_made;
}
