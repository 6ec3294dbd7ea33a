// Runs an i386 program one instruction at a time on this processor, and writes for each address how often it was executed, and how
// often it jumped and didn't where a branch on a condition, LOOP, LOOPE, LOOPNE or JECXZ stands there: a line each, the address in eight
// hexadecimal digits and the three numbers. An instruction that faults, or that ends the program, counts. An iteration of a repeated
// string instruction is none of its own. Whether a branch jumps is told by its condition, from the flags and ECX in front of it; where
// its two ways lead to two addresses, the one that the processor takes must be the one that the condition says, or this ends with 3.
//
//     counts FILE PROGRAM ARGS..
#define _GNU_SOURCE
#include <fcntl.h>
#include <signal.h>
#include <stdint.h>
#include <stdio.h>
#include <stdlib.h>
#include <sys/personality.h>
#include <sys/ptrace.h>
#include <sys/user.h>
#include <sys/wait.h>
#include <unistd.h>

enum { PLACES = 1 << 20, PLAIN = 0, PASSES = 1, JUMPS = 2 };
enum { CF = 1 << 0, PF = 1 << 2, ZF = 1 << 6, SF = 1 << 7, OF = 1 << 11 };
static uint32_t addresses[PLACES];
static uint64_t numbers[PLACES], jumped[PLACES], passed[PLACES];

static void count(uint32_t address, int way) {
    uint32_t place = address * 2654435761u % PLACES;
    while (numbers[place] && addresses[place] != address) place = (place + 1) % PLACES;
    addresses[place] = address;
    numbers[place]++;
    jumped[place] += way == JUMPS;
    passed[place] += way == PASSES;
}

// At most 15 bytes from the address on, as many as can be read.
static int fetch(pid_t child, uint32_t address, uint8_t *to) {
    static int memory = -1;
    char name[40];
    snprintf(name, sizeof name, "/proc/%d/mem", (int)child);
    if (memory < 0 && (memory = open(name, O_RDONLY)) < 0) exit(2);
    int got = 15;
    while (got > 0 && pread(memory, to, got, address) != got) got--;
    return got;
}

// How many of the bytes are prefixes that an instruction of the profile may have.
static int prefixes(const uint8_t *bytes, int many) {
    int k = 0;
    while (k < many && (bytes[k] == 0x26 || bytes[k] == 0x2E || bytes[k] == 0x36 || bytes[k] == 0x3E || bytes[k] == 0x66
        || bytes[k] == 0xF2 || bytes[k] == 0xF3)) k++;
    return k;
}

// Whether a repeated string instruction stands there.
static int repeats(const uint8_t *bytes, int many) {
    int at = prefixes(bytes, many), repeated = 0;
    for (int k = 0; k < at; k++) repeated |= bytes[k] == 0xF2 || bytes[k] == 0xF3;
    return repeated && at < many && (bytes[at] & 0xFE) >= 0xA4 && (bytes[at] & 0xFE) <= 0xAE && (bytes[at] & 0xFE) != 0xA8;
}

static int holds(int condition, uint32_t flags) {
    int sign = !(flags & SF) != !(flags & OF), zero = !!(flags & ZF), held = 0;
    switch (condition >> 1) {
    case 0: held = !!(flags & OF); break;
    case 1: held = !!(flags & CF); break;
    case 2: held = zero; break;
    case 3: held = zero || (flags & CF); break;
    case 4: held = !!(flags & SF); break;
    case 5: held = !!(flags & PF); break;
    case 6: held = sign; break;
    case 7: held = zero || sign; break;
    }
    return held != (condition & 1);
}

// Which way the instruction there goes, and the addresses of both ways.
static int way_of(const uint8_t *bytes, int many, const struct user_regs_struct *regs, uint32_t *next, uint32_t *target) {
    int at = prefixes(bytes, many), jumps, last;
    uint32_t flags = regs->eflags, left = regs->rcx;
    if (at + 1 < many && (bytes[at] & 0xF0) == 0x70) jumps = holds(bytes[at] & 15, flags), last = at + 1;
    else if (at + 5 < many && bytes[at] == 0x0F && (bytes[at + 1] & 0xF0) == 0x80) jumps = holds(bytes[at + 1] & 15, flags), last = at + 5;
    else if (at + 1 < many && bytes[at] == 0xE0) jumps = left - 1 != 0 && !(flags & ZF), last = at + 1;
    else if (at + 1 < many && bytes[at] == 0xE1) jumps = left - 1 != 0 && (flags & ZF), last = at + 1;
    else if (at + 1 < many && bytes[at] == 0xE2) jumps = left - 1 != 0, last = at + 1;
    else if (at + 1 < many && bytes[at] == 0xE3) jumps = left == 0, last = at + 1;
    else return PLAIN;
    int32_t distance = (int8_t)bytes[last];
    if (last == at + 5) distance = (int32_t)(bytes[at + 2] | bytes[at + 3] << 8 | bytes[at + 4] << 16 | (uint32_t)bytes[at + 5] << 24);
    *next = (uint32_t)regs->rip + last + 1;
    *target = *next + distance;
    return jumps ? JUMPS : PASSES;
}

int main(int number, char **words) {
    if (number < 3) return 2;
    FILE *out = fopen(words[1], "w");
    pid_t child = fork();
    if (!out || child < 0) return 2;
    if (child == 0) {
        personality(ADDR_NO_RANDOMIZE);
        ptrace(PTRACE_TRACEME, 0, 0, 0);
        char *none[] = {0};
        execve(words[2], words + 2, none);
        _exit(2);
    }
    int status, begun = 0, repeated = 0, way = PLAIN;
    uint32_t last = 0, next = 0, target = 0;
    while (waitpid(child, &status, 0) == child && WIFSTOPPED(status)) {
        siginfo_t why;
        struct user_regs_struct regs;
        uint8_t bytes[15];
        ptrace(PTRACE_GETSIGINFO, child, 0, &why);
        if (ptrace(PTRACE_GETREGS, child, 0, &regs)) return 2;
        // a breakpoint of the program's own is a signal as any other
        int signal = WSTOPSIG(status) == SIGTRAP && why.si_code != SI_KERNEL ? 0 : WSTOPSIG(status);
        uint32_t address = regs.rip;
        if (way != PLAIN && address != (way == JUMPS ? target : next)) {
            fprintf(stderr, "the branch at %08x goes to %08x, and not to %08x\n", last, address, way == JUMPS ? target : next);
            kill(child, SIGKILL);
            return 3;
        }
        int many = fetch(child, address, bytes);
        way = PLAIN;
        if (!signal && !(begun && address == last && repeated)) {
            way = way_of(bytes, many, &regs, &next, &target);
            count(address, way);
        }
        begun = 1, last = address, repeated = repeats(bytes, many);
        if (ptrace(signal ? PTRACE_CONT : PTRACE_SINGLESTEP, child, 0, signal)) return 2;
    }
    for (int i = 0; i < PLACES; i++)
        if (numbers[i])
            fprintf(out, "%08x %llu %llu %llu\n", addresses[i], (unsigned long long)numbers[i], (unsigned long long)jumped[i],
                    (unsigned long long)passed[i]);
    return fclose(out) ? 2 : 0;
}
