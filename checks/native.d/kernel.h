/* What these programs need of Linux beside ../programs.d/base.h: signals, processes, memory. Numbers are those of i386. */
#include "../programs.d/base.h"

enum {
  EXIT = 1, FORK = 2, READ = 3, WRITE = 4, EXECVE = 11, GETPID = 20, ALARM = 27, PAUSE = 29, KILL = 37, PIPE = 42,
  SETITIMER = 104, WAIT4 = 114, MPROTECT = 125, NANOSLEEP = 162, SIGACTION = 174, SIGPROCMASK = 175, SIGPENDING = 176,
  SIGQUEUEINFO = 178, SIGSUSPEND = 179, SIGALTSTACK = 186, VFORK = 190
};
enum {
  ILL = 4, TRAP = 5, ABRT = 6, FPE = 8, SEGV = 11, USR1 = 10, USR2 = 12, ALRM = 14, TERM = 15, CHLD = 17, CONT = 18, STOP = 19,
  TSTP = 20
};
enum { WITH_INFO = 4, ON_STACK = 0x08000000, RESTARTS = 0x10000000, AGAIN = 0x40000000, ONCE = (int)0x80000000u };
enum { RESTORER = 0x04000000 };
enum { INTERRUPTED = -4 };

struct action { void *handler; word flags; void (*restorer)(void); word mask[2]; };

/* One system call. */
int kernel(int number, word a, word b, word c, word d);
/* Sets the function that handles a signal, given its number, and WITH_INFO the addresses of what is known of it and of the
   interrupted state. While it runs, the signals of `mask` are blocked. It returns to code of the program that makes the call
   sigreturn, or where `flags` lack RESTORER to the kernel's own. */
void on(int sig, void *handler, word flags, word mask);
/* The function that handles a signal. */
void *handler_of(int sig);
void send(int sig);
/* A timer that sends ALRM every `period` microseconds; 0 ends it. */
void tick(word period);
/* Blocks exactly the signals of `mask` (bit n - 1 is signal n), and answers those that were blocked. */
word block(word mask);
word bit(int sig);
/* What waiting for a process answers: its status as wait has it. */
int wait_for(int process);
void line(const char *title, int value);

typedef struct { word saved[6]; } place;
int __attribute__((returns_twice)) set_place(place *);
void __attribute__((noreturn)) go_to(place *, int);
