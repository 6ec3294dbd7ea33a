#define _GNU_SOURCE
#include "cpuid.h"

#include "process.h"

#include <cpuid.h>
#include <stdlib.h>
#include <string.h>
#include <sys/mman.h>
#include <sys/ptrace.h>
#include <sys/user.h>

static const uint8_t CPUID[2] = {0x0f, 0xa2};
static const uint8_t STOP[2] = {0xcc, 0x90}; /* INT3, and a byte that is passed over */
enum { COUNTER_BYTES = 46 };                 /* in front of the piece of a site that is counted */

/* What is told of what a leaf answers: the bits that stay. */
struct mask {
  uint32_t leaf, ebx, ecx, edx;
};
static const struct mask MASKS[] = {
    {1, ~0u, 1u << 31 /* a hypervisor */, ~(1u << 23 | 1u << 24 | 1u << 25 | 1u << 26) /* MMX, FXSR, SSE, SSE2 */},
    {7, 1u << 9 /* fast REP MOVSB and STOSB */, 0, 0},
    {0xd, 0, 0, 0},
    {0x80000001, ~0u, 1 /* LAHF */, ~(1u << 22 | 1u << 23 | 1u << 24 | 1u << 27 | 1u << 30 | 1u << 31)},
};

struct cpuids {
  uint32_t *places;
  size_t count, room;
  const uint8_t *code; /* the added code, while it is looked through */
  uint32_t code_lo, code_length;
};

/* Whether CPUID stands at an address of the code. */
static bool is_cpuid(const struct cpuids *cpuids, uint32_t address) {
  uint32_t place = address - cpuids->code_lo;
  return place < cpuids->code_length && cpuids->code_length - place >= sizeof CPUID &&
         memcmp(cpuids->code + place, CPUID, sizeof CPUID) == 0;
}

static void look(uint32_t old, uint32_t entry, void *with) {
  struct cpuids *cpuids = with;
  (void)old;
  if (!is_cpuid(cpuids, entry)) { /* a counter begins with 89 0D */
    if (entry - cpuids->code_lo >= cpuids->code_length || cpuids->code[entry - cpuids->code_lo] != 0x89) return;
    entry += COUNTER_BYTES;
    if (!is_cpuid(cpuids, entry)) return;
  }
  if (cpuids->count == cpuids->room) {
    size_t room = 2 * cpuids->room + 16;
    uint32_t *places = realloc(cpuids->places, room * sizeof *places);
    if (!places) return;
    cpuids->places = places;
    cpuids->room = room;
  }
  cpuids->places[cpuids->count++] = entry;
}

struct cpuids *cpuids_find(const struct frame *frame, int file) {
  struct cpuids *cpuids = calloc(1, sizeof *cpuids);
  if (!cpuids) return NULL;
  size_t offset = frame_code_offset(frame), length = offset + frame_code_length(frame);
  uint8_t *bytes = mmap(NULL, length, PROT_READ, MAP_PRIVATE, file, 0);
  if (bytes == MAP_FAILED) return cpuids;
  cpuids->code = bytes + offset;
  cpuids->code_lo = frame_code(frame);
  cpuids->code_length = frame_code_length(frame);
  frame_each(frame, look, cpuids);
  munmap(bytes, length);
  return cpuids;
}

void cpuids_set(const struct cpuids *cpuids, pid_t pid) {
  for (size_t k = 0; k < cpuids->count; k++) process_force(pid, cpuids->places[k], STOP, sizeof STOP);
}

bool cpuid_answer(pid_t pid, uint32_t at, uint32_t words[4]) {
  struct user_regs_struct regs;
  if (ptrace(PTRACE_GETREGS, pid, 0, &regs) != 0) return false;
  uint32_t leaf = (uint32_t)regs.rax, eax, ebx, ecx, edx;
  __cpuid_count(leaf, (uint32_t)regs.rcx, eax, ebx, ecx, edx);
  for (size_t m = 0; m < sizeof MASKS / sizeof MASKS[0]; m++) {
    if (MASKS[m].leaf != leaf) continue;
    ebx &= MASKS[m].ebx;
    ecx &= MASKS[m].ecx;
    edx &= MASKS[m].edx;
  }
  words[0] = regs.rax = eax;
  words[1] = regs.rbx = ebx;
  words[2] = regs.rcx = ecx;
  words[3] = regs.rdx = edx;
  regs.rip = at + sizeof CPUID;
  return ptrace(PTRACE_SETREGS, pid, 0, &regs) == 0;
}

bool cpuids_answer(const struct cpuids *cpuids, pid_t pid) {
  uint32_t at = process_eip(pid) - 1, words[4];
  size_t k = 0;
  while (k < cpuids->count && cpuids->places[k] != at) k++;
  return k < cpuids->count && cpuid_answer(pid, at, words);
}
