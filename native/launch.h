/* What the launcher knows of each process that it follows. */
#ifndef LAUNCH_H
#define LAUNCH_H
#include "cpuid.h"
#include "foreign.h"
#include "frame.h"

#include <signal.h>
#include <stdbool.h>
#include <sys/types.h>

struct process {
  pid_t pid;
  struct frame *frame;     /* of the file that it runs, null where that has none */
  const struct cpuids *cpuids; /* where CPUID stands in it, null where the processor is to answer */
  struct foreign *foreign; /* null where it has no frame, or where such instructions are to stop it */
  bool waits;              /* it has begun before its parent told of it, and waits for that */
  unsigned programs;       /* how many programs it has run before this one */
  siginfo_t last;          /* the last signal that went to it, and where it stood; the number is 0 at first */
  uint32_t last_eip;
  struct process *next;
};

#endif
