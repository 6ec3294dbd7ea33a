/* A traced process that is stopped: its registers, its memory, its signals, and system calls that it is made to make. */
#ifndef PROCESS_H
#define PROCESS_H
#include <signal.h>
#include <stdbool.h>
#include <stddef.h>
#include <stdint.h>
#include <sys/types.h>

uint32_t process_eip(pid_t pid);
uint32_t process_esp(pid_t pid);
void process_set_eip(pid_t pid, uint32_t eip);

/* Whether it is in a system call: then the call's number stands beside the registers, else a negative number. */
bool process_in_call(pid_t pid);

/* Reads as many of the bytes from an address on as can be read; how many. */
size_t process_read(pid_t pid, uint32_t address, void *to, size_t length);

/* Whether all of these bytes could be read; written, to memory that the process may write; written to any memory. */
bool process_get(pid_t pid, uint32_t address, void *to, size_t length);
bool process_put(pid_t pid, uint32_t address, const void *from, size_t length);
bool process_force(pid_t pid, uint32_t address, const void *from, size_t length);

uint64_t signal_bit(int sig);

/* Whether a signal tells of a fault of the instruction itself. */
bool is_fault(const siginfo_t *info);

/* The signals that an instruction's own fault sends, a bit each. */
uint64_t fault_bits(void);

/* Whether the process has a handler for a signal; whether it ignores it. */
bool process_catches(pid_t pid, int sig);
bool process_ignores(pid_t pid, int sig);

void process_go_on(pid_t pid, int sig);

/* One instruction, or with a signal that is caught the start of its handler; what wait answers then. */
int process_step(pid_t pid, int sig);

/* One instruction, while each signal waits but those of faults; what wait answers then. */
int process_step_alone(pid_t pid);

/* Has the process, which is in no system call, make one, by the two bytes of INT 0x80 over the code at its EIP; the result.
   False where that can't be done. Registers, code and signals are as before. */
bool process_call(pid_t pid, const uint32_t words[7], uint32_t *result);

#endif
