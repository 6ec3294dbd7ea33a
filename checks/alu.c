// Writes operations to the file that the first word names, a line each, and the expected answers to the second:
// values and flags as this machine's processor gives them. The flags that the Intel manual leaves undefined are this
// project's own, 0 but for SF after IMUL, and are written so. Random numbers are from a fixed seed.
#include <setjmp.h>
#include <signal.h>
#include <stdint.h>
#include <stdio.h>
#include <string.h>

enum { CF = 0x1, PF = 0x4, AF = 0x10, ZF = 0x40, SF = 0x80, DF = 0x400, OF = 0x800, ID = 0x200000 };
enum { ALL = CF | PF | AF | ZF | SF | DF | OF | ID, ALWAYS = 0x202 };

enum kind { BINARY, LOGIC, TEST, UNARY, SHIFT, ROTATE, DOUBLE, MUL, DIV, BIT, SCAN };
static const struct { const char *name; enum kind kind; } ops[] = {
    {"add", BINARY}, {"adc", BINARY}, {"sub", BINARY}, {"sbb", BINARY}, {"cmp", BINARY},
    {"and", LOGIC}, {"or", LOGIC}, {"xor", LOGIC}, {"test", TEST},
    {"inc", UNARY}, {"dec", UNARY}, {"neg", UNARY},
    {"shl", SHIFT}, {"shr", SHIFT}, {"sar", SHIFT},
    {"rol", ROTATE}, {"ror", ROTATE}, {"rcl", ROTATE}, {"rcr", ROTATE},
    {"shld", DOUBLE}, {"shrd", DOUBLE}, {"mul", MUL}, {"imul", MUL}, {"div", DIV}, {"idiv", DIV},
    {"bt", BIT}, {"bts", BIT}, {"btr", BIT}, {"btc", BIT}, {"bsf", SCAN}, {"bsr", SCAN},
};
enum { OPS = sizeof ops / sizeof ops[0] };

// One instruction under the flags f: a, c and d are in EAX, ECX and EDX, b in any register, and the flags after it in g.
static uint64_t a, b, c, d, f, g;
#define RUN(insn)                                                                                              \
    asm volatile("pushq %[f]\n\tpopfq\n\t" insn "\n\tpushfq\n\tpopq %[g]\n\tcld"                               \
                 : "+a"(a), "+c"(c), "+d"(d), [g] "=&r"(g)                                                     \
                 : [b] "r"(b), [f] "r"(f)                                                                      \
                 : "cc", "memory")
#define IS(op) (strcmp(name, op) == 0)
#define TWO(op) if (IS(op)) { if (w == 8) RUN(op "b %b[b], %%al"); else if (w == 16) RUN(op "w %w[b], %%ax"); else RUN(op "l %k[b], %%eax"); }
#define ONE(op) if (IS(op)) { if (w == 8) RUN(op "b %%al"); else if (w == 16) RUN(op "w %%ax"); else RUN(op "l %%eax"); }
#define BY_CL(op) if (IS(op)) { if (w == 8) RUN(op "b %%cl, %%al"); else if (w == 16) RUN(op "w %%cl, %%ax"); else RUN(op "l %%cl, %%eax"); }
#define BY(op) if (IS(op)) { if (w == 8) RUN(op "b %b[b]"); else if (w == 16) RUN(op "w %w[b]"); else RUN(op "l %k[b]"); }
#define WIDE(op) if (IS(op)) { if (w == 16) RUN(op "w %w[b], %%ax"); else RUN(op "l %k[b], %%eax"); }
#define DOUBLE_BY_CL(op) if (IS(op)) RUN(op "l %%cl, %k[b], %%eax")

static void execute(const char *name, int w) {
    TWO("add") TWO("adc") TWO("sub") TWO("sbb") TWO("cmp") TWO("and") TWO("or") TWO("xor") TWO("test")
    ONE("inc") ONE("dec") ONE("neg")
    BY_CL("shl") BY_CL("shr") BY_CL("sar") BY_CL("rol") BY_CL("ror") BY_CL("rcl") BY_CL("rcr")
    DOUBLE_BY_CL("shld"); DOUBLE_BY_CL("shrd");
    BY("mul") BY("imul") BY("div") BY("idiv")
    WIDE("bt") WIDE("bts") WIDE("btr") WIDE("btc") WIDE("bsf") WIDE("bsr")
}

// The flags that the manual defines after an operation; n is the count modulo 32 of a shift.
static unsigned defined(enum kind kind, const char *name, int w, unsigned n) {
    switch (kind) {
    case LOGIC: case TEST: return ALL & ~AF;
    case SHIFT: return n == 0 ? ALL : ALL & ~AF & ~(n == 1 ? 0 : OF) & ~(n >= (unsigned)w && !IS("sar") ? CF : 0);
    case ROTATE: return n <= 1 ? ALL : ALL & ~OF;
    case DOUBLE: return n == 0 ? ALL : ALL & ~AF & ~(n == 1 ? 0 : OF);
    case MUL: return CF | OF | DF | ID;
    case DIV: return DF | ID;
    case BIT: return CF | ZF | DF | ID;
    case SCAN: return ZF | DF | ID;
    default: return ALL;
    }
}

static sigjmp_buf trapped;
static void on_trap(int number) { (void)number; siglongjmp(trapped, 1); }

static void line(FILE *asked, FILE *wanted, int k, int w, unsigned flags, uint32_t x, uint32_t y, uint32_t z) {
    const char *name = ops[k].name;
    enum kind kind = ops[k].kind;
    uint32_t mask = w == 32 ? 0xffffffffu : (1u << w) - 1;
    fprintf(asked, "alu %s %c %x %x %x %x\n", name, w == 8 ? 'b' : w == 16 ? 'w' : 'd', flags | ALWAYS, x, y, z);
    f = flags | ALWAYS, a = x, b = y, c = kind == DOUBLE ? z : y, d = 0;
    if (kind == SCAN) b = x;
    if (kind == DIV) { a = w == 8 ? x << 8 | y : y, d = x, b = z; }
    if (sigsetjmp(trapped, 1)) { fprintf(wanted, "trap\n"); return; }
    execute(name, w);
    unsigned low = a & mask, image = (g & defined(kind, name, w, c % 32)) | ALWAYS;
    if (IS("imul") && (a >> (w - 1) & 1)) image |= SF;
    if (kind == TEST) fprintf(wanted, "%x\n", image);
    else if (kind == SCAN && x == 0) fprintf(wanted, "none %x\n", image);
    else if (kind == MUL || kind == DIV)
        fprintf(wanted, "%x %x %x\n", low, w == 8 ? (unsigned)(a >> 8 & 0xff) : (unsigned)(d & mask), image);
    else fprintf(wanted, "%x %x\n", low, image);
}

static uint64_t seed = 88172645463325252u;
static uint32_t number(void) { seed ^= seed << 13, seed ^= seed >> 7, seed ^= seed << 17; return seed >> 16; }

// An operand of w bits: an edge, a small number or any.
static uint32_t operand(int w) {
    static const uint32_t low[] = {0, 1, 2, 7, 8, 15, 16, 31, 0x55, 0x7f, 0x80, 0xff};
    uint32_t mask = w == 32 ? 0xffffffffu : (1u << w) - 1, half = mask / 2 + 1, pick = number() % 4;
    uint32_t edges[] = {half - 1, half, half + 1, mask - 1, mask, mask / 3};
    return (pick == 0 ? low[number() % 12] : pick == 1 ? edges[number() % 6] : number()) & mask;
}

static int make(const char *to_ask, const char *to_want, int turns) {
    FILE *asked = fopen(to_ask, "w"), *wanted = fopen(to_want, "w");
    if (!asked || !wanted) return 2;
    signal(SIGFPE, on_trap);
    for (int k = 0; k < OPS; k++)
        for (int w = 8; w <= 32; w *= 2) {
            enum kind kind = ops[k].kind;
            if ((kind == DOUBLE && w != 32) || ((kind == BIT || kind == SCAN) && w == 8)) continue;
            for (int i = 0; i < turns; i++) {
                uint32_t x = operand(w), y = operand(w), z = operand(w);
                if (kind == SHIFT || kind == ROTATE) y = i < 256 ? (uint32_t)i : number() % 34;
                if (kind == DOUBLE) z = i < 256 ? (uint32_t)i : number() % 34;
                // most quotients fit: the high half is small, or all of its bits are the low half's sign
                if (kind == DIV && i % 4 && z) x = i % 4 == 1 ? x % z : i % 4 == 2 ? 0 : y >> (w - 1) ? (uint32_t)-1 >> (32 - w) : 0;
                line(asked, wanted, k, w, number() & ALL, x, y, z);
            }
        }
    return fclose(asked) | fclose(wanted) ? 2 : 0;
}

int main(int count, char **words) { return count == 3 ? make(words[1], words[2], 600) : 2; }
