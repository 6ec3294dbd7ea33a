/* What the launcher tells on request: why a program stopped, which foreign instructions ran, and counters. */
#ifndef TOLD_H
#define TOLD_H
#include "launch.h"

/* Takes the option into account, where it is one of these; whether it is. A file or folder that can't be written ends the
   launcher, with a line on standard error. */
bool told_takes(const char *option);

/* Whether anything is told at a process's end; whether executions of foreign instructions are counted. */
bool told_asks(void);
bool told_counts_foreign(void);

/* Closes all files but those that are told to. */
void told_keep_alone(void);

/* A process is about to run another program, and did so, or didn't; a process ends, its memory still there, with the status
   that wait will answer. */
void told_before_exec(struct process *process);
void told_exec(struct process *process, bool is_done);
void told_end(struct process *process, int status);

#endif
