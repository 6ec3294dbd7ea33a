/* Runs the lookup stub of the file PLAN (made by stub.py) on this processor: each address is looked up with many
   registers, flags and stack pointers, at full speed and again instruction by instruction. The places that it leads to
   are not mapped, so each arrival is a fault, and the kernel shows the registers that the processor had there. */
typedef unsigned int word;

__asm__(".section .rodata\n.balign 4\nplan: .incbin \"" PLAN "\"\n.text\n"
        ".globl _start\n_start: call begin\n"
        "restorer: mov $173, %eax\n int $0x80\n"
        /* sigreturn can't set the flag ID; popf can */
        "enter: mov $image, %esp\n popf\n mov wanted_esp, %esp\n jmp *stub_address\n");
extern const word plan[];
extern char restorer[], enter[];

enum { CODE, CODE_LENGTH, TABLE, TABLE_LENGTH, PRIVATE, TARGETS, ROUNDS, ROWS };
/* struct sigcontext of Linux for i386, in words */
enum { EDI = 4, ESI, EBP, ESP, EBX, EDX, ECX, EAX, EIP = 14, EFLAGS = 16 };
enum { TRAP_FLAG = 0x100, RESUME_FLAG = 0x10000, PAGE_WORDS = 1024, SIGTRAP = 5 };

word image, wanted_esp, stub_address;
static word stack_page[PAGE_WORDS] __attribute__((aligned(4096)));
static word signal_stack[8192] __attribute__((aligned(4096)));
static word wanted[EAX + 1], trial, steps, stepping, running, seed = 1;
static const word *row;

static int call(int number, word a, word b, word c, word d) {
  int result;
  __asm__ volatile("int $0x80" : "=a"(result) : "a"(number), "b"(a), "c"(b), "d"(c), "S"(d) : "memory");
  return result;
}

static word next_random(void) {
  seed = seed * 1664525 + 1013904223;
  return seed >> 16 | seed << 16;
}

static void print(const char *text) {
  word length = 0;
  while (text[length]) length++;
  call(4, 1, (word)text, length, 0);
}

static void print_hex(word n) {
  char digits[10] = " 00000000";
  for (int k = 8; k > 0; k--, n >>= 4) digits[k] = "0123456789abcdef"[n & 15];
  print(digits);
}

static void fail(const char *what, word found, word expected) {
  print("looking up");
  print_hex(row[0]);
  print(", which leads to");
  print_hex(row[1]);
  print(": ");
  print(what);
  print_hex(found);
  print(" and not");
  print_hex(expected);
  print("\n");
  call(1, 1, 0, 0, 0);
}

static word mark(word at) { return at * 2654435761u ^ 0x5EED5EED; }

/* Of the private area's page, as of the program's own stack, everything is kept but 28 bytes. */
static void check_memory(void) {
  const word *private = (const word *)plan[PRIVATE];
  for (word k = 0; k < PAGE_WORDS; k++) {
    int own = k == 1 || k == 2 || (k >= 11 && k < 16);
    if (!own && private[k] != mark(k)) fail("the private page has", private[k], mark(k));
    if (stack_page[k] != mark(~k)) fail("the program's stack has", stack_page[k], mark(~k));
  }
}

static void check_arrival(const word *now) {
  if (now[EIP] != row[1]) fail("it arrives at", now[EIP], row[1]);
  for (int k = EDI; k <= EAX; k++)
    if (now[k] != wanted[k]) fail("a register has", now[k], wanted[k]);
  word flags = now[EFLAGS] & ~(word)(TRAP_FLAG | RESUME_FLAG);
  word expected = image & ~(word)TRAP_FLAG;
  if (flags != expected) fail("the flags are", flags, expected);
  if (stepping && steps != row[2]) fail("it takes instructions:", steps, row[2]);
  check_memory();
}

/* The program's stack pointer: in its own stack, even or odd, or where no memory is. */
static word stack_pointer(void) {
  word inside = (word)stack_page + 2048;
  word chosen[] = {inside, inside + 1, inside - 3, 0, 4, 0xFFFFFFFF, 0x80000002, inside + 64};
  return chosen[next_random() & 7];
}

static void begin_trial(word *now) {
  word count = plan[TARGETS];
  row = plan + ROWS + 3 * (trial % count);
  stepping = trial / count & 1;
  for (int k = EDI; k <= EAX; k++) now[k] = wanted[k] = next_random();
  wanted[ESP] = wanted_esp = stack_pointer();
  word r = next_random();
  word chosen = trial % 5 == 0 ? 0x200CD5 : trial % 5 == 1 ? 0xC01 : r;
  image = 0x202 | (chosen & 0x200CD5) | (stepping ? TRAP_FLAG : 0);
  word *private = (word *)plan[PRIVATE];
  for (word k = 0; k < PAGE_WORDS; k++) {
    private[k] = mark(k);
    stack_page[k] = mark(~k);
  }
  private[1] = row[0];
  stub_address = plan[CODE];
  now[EIP] = (word)enter;
  now[EFLAGS] = 0x202;
  steps = running = 0;
}

static void handler(int signal, void *info, word *context) {
  word *now = context + 5;
  (void)info;
  if (row) {
    word begin = plan[CODE];
    int in_stub = now[EIP] - begin < plan[CODE_LENGTH];
    if (signal == SIGTRAP && stepping && !running) {
      running = now[EIP] == begin;
      return;
    }
    if (signal == SIGTRAP && stepping) steps++;
    if (in_stub) {
      if (signal != SIGTRAP) fail("it stops at", now[EIP], row[1]);
      check_memory();
      return;
    }
    check_arrival(now);
    trial++;
  }
  if (trial == 2 * plan[ROUNDS] * plan[TARGETS]) call(1, 0, 0, 0, 0);
  begin_trial(now);
}

static void map(word at, const word *from, word length, word protection) {
  word *to = (word *)at;
  int result;
  /* mmap's sixth argument stands in ebp; the old mmap takes all six from memory */
  word asked[6] = {at, (length + 4095) & ~4095u, 3, 0x100022, 0xFFFFFFFF, 0};
  result = call(90, (word)asked, 0, 0, 0);
  if ((word)result != at) {
    print("no memory could be mapped\n");
    call(1, 2, 0, 0, 0);
  }
  for (word k = 0; from && k < (length + 3) / 4; k++) to[k] = from[k];
  call(125, at, (length + 4095) & ~4095u, protection, 0);
}

void begin(void) {
  const word *code = plan + ROWS + 3 * plan[TARGETS];
  map(plan[CODE], code, plan[CODE_LENGTH], 5);
  map(plan[TABLE], code + (plan[CODE_LENGTH] + 3) / 4, plan[TABLE_LENGTH], 1);
  map(plan[PRIVATE], 0, 4096, 3);
  word stack[3] = {(word)signal_stack, 0, sizeof signal_stack};
  call(186, (word)stack, 0, 0, 0);
  word action[5] = {(word)handler, 0x0C000004, (word)restorer, 0, 0};
  int signals[] = {4, SIGTRAP, 7, 8, 11};
  for (int k = 0; k < 5; k++) call(174, signals[k], (word)action, 0, 8);
  __asm__ volatile("ud2");
}
