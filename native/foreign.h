/* Instructions of a rewritten program's original that the rewriter doesn't know: they have no entry, and their old bytes
   can't be executed. They are carried out here by their own bytes, in pieces that are made when an instruction is first met,
   in memory that the process gets for them. No decoder is needed: the processor tells an instruction's length by the step
   that it makes. */
#ifndef FOREIGN_H
#define FOREIGN_H
#include "frame.h"

#include <signal.h>
#include <stdio.h>
#include <sys/types.h>

struct foreign;

/* The pieces of a process that runs a file with this frame, none at first; null where memory runs out. */
struct foreign *foreign_new(const struct frame *frame);

/* The same, for a process that begins as a copy of another. */
struct foreign *foreign_copy(const struct foreign *foreign);
void foreign_free(struct foreign *foreign);

/* Has each execution be counted, at the cost of a stop for each. */
void foreign_count(struct foreign *foreign);

/* What became of an instruction. */
enum met { MET_GOES_ON, MET_FAULTS, MET_STOPPED, MET_NOT };

/* A process stands at an old address of its code that has no entry: its instruction is carried out, and it stands where it
   goes on. Where it faults, it stands at the old address again, with `info` telling the fault; MET_STOPPED: `status` is an
   end or a stop of another kind; MET_NOT: there is no memory for pieces. */
enum met foreign_meet(struct foreign *foreign, pid_t pid, siginfo_t *info, int *status);

/* Whether an address lies in a piece; the old address that belongs to it, and whether it is the begin of an instruction. */
bool foreign_has(const struct foreign *foreign, uint32_t address);
uint32_t foreign_old(const struct foreign *foreign, uint32_t address);
bool foreign_is_begin(const struct foreign *foreign, uint32_t address);

/* A line for each instruction that was carried out: `foreign`, its address, how often where that was asked, its bytes. */
void foreign_report(const struct foreign *foreign, FILE *to);

#endif
