/* CPUID in a rewritten program that runs by itself: the processor's answers, without the extensions whose instructions the
   rewriter doesn't know. Libraries choose by them, and each instruction of theirs would be carried out one by one. */
#ifndef CPUID_H
#define CPUID_H
#include "frame.h"

#include <stdbool.h>
#include <sys/types.h>

/* The places in the added code at which CPUID stands, as its pieces have it. */
struct cpuids;

/* Finds them in the file that is open as `file`; null where memory runs out. */
struct cpuids *cpuids_find(const struct frame *frame, int file);

/* Has a process that runs the file stop at each of them. */
void cpuids_set(const struct cpuids *cpuids, pid_t pid);

/* Whether a process has stopped at one; then it has the answer, and stands behind it. */
bool cpuids_answer(const struct cpuids *cpuids, pid_t pid);

/* Gives a stopped process the answer to the CPUID that stands at an address, and sets it behind it; the answer's words for
   EAX, EBX, ECX and EDX. */
bool cpuid_answer(pid_t pid, uint32_t at, uint32_t words[4]);

#endif
