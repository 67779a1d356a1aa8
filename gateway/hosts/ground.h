/* The stack that single calls touch, on a stack of their own: for the stack.c of each library, which says before this
 * what a call is lent (struct lent), and after it what is in order (give_all). */
#include <signal.h>
#include <stdint.h>
#include <stdio.h>
#include <stdlib.h>
#include <string.h>
#include <sys/mman.h>
#include <unistd.h>

static struct lent given; /* what a case gives */
static struct lent lent;  /* the same, lent to the call */
static size_t number;     /* what the call returned */

/* All in order: what the cases of a call start from. */
static void give_all(void);

enum { MOST = 1 << 18, SPARE = 4096 };

static uint8_t *ground; /* the lowest byte of the stack; the page below it is not mapped */
static const char *name; /* of the call that runs */
static size_t stated, touched, cases;
static void (*make)(void);

/* Say which call ran out of its stack. */
static void overrun(int signal) {
    (void)signal;
    static const char words[] = ": needs more stack than is stated\n";
    if (write(2, name, strlen(name)) < 0 || write(2, words, sizeof words - 1) < 0)
        _exit(2);
    _exit(1);
}

/* Map the stack with its unmapped page, and give the handler a stack of its own. */
static void lay_ground(void) {
    static uint8_t apart[1 << 16];
    size_t page = (size_t)sysconf(_SC_PAGESIZE);
    uint8_t *all = mmap(NULL, page + MOST, PROT_READ | PROT_WRITE, MAP_PRIVATE | MAP_ANONYMOUS, -1, 0);
    if (all == MAP_FAILED || mprotect(all, page, PROT_NONE) != 0)
        exit(2);
    ground = all + page;
    stack_t other = {.ss_sp = apart, .ss_size = sizeof apart};
    struct sigaction action = {.sa_handler = overrun, .sa_flags = SA_ONSTACK};
    if (sigaltstack(&other, NULL) != 0 || sigaction(SIGSEGV, &action, NULL) != 0)
        exit(2);
}

/* Make the call with the stack pointer so many bytes above the ground; the size is a multiple of 16. */
__attribute__((noinline)) static void run_on(size_t size) {
    uint8_t *top = ground + size;
    lent = given;
    __asm__ volatile("movq %%rsp, %%rbx\n\tmovq %0, %%rsp\n\tcall *%1\n\tmovq %%rbx, %%rsp"
                     :
                     : "r"(top), "r"(make)
                     : "rax", "rbx", "rcx", "rdx", "rsi", "rdi", "r8", "r9", "r10", "r11", "memory", "cc",
                       "xmm0", "xmm1", "xmm2", "xmm3", "xmm4", "xmm5", "xmm6", "xmm7", "xmm8", "xmm9", "xmm10",
                       "xmm11", "xmm12", "xmm13", "xmm14", "xmm15");
}

/* The bytes of a painted stack that the call touches. */
static size_t touched_of(size_t size, int paint) {
    size_t at = 0;
    memset(ground, paint, size);
    run_on(size);
    while (at < size && ground[at] == paint)
        at++;
    return size - at;
}

/* One case: touched under two paints, the number as it should be, then the run on just the stated size. */
static void try(size_t wanted) {
    size_t room = stated + SPARE, one = touched_of(room, 0xa5), other = touched_of(room, 0x5a);
    size_t more = one > other ? one : other;
    cases++;
    if (more > touched)
        touched = more;
    if (number != wanted) {
        printf("stack: %s gives %zu in case %zu, and not %zu\n", name, number, cases, wanted);
        exit(1);
    }
    if (more <= stated)
        run_on(stated);
}

/* Give a record one other number, try, and put the number back. */
static void try_with(uint32_t *place, uint32_t other, size_t wanted) {
    uint32_t kept = *place;
    *place = other;
    try(wanted);
    *place = kept;
}

/* Give a slice one number fewer, try, and put it back. */
static void try_shorter(size_t *count, size_t wanted) {
    *count -= 1;
    try(wanted);
    *count += 1;
}

/* Does the stated number hold: enough, and no more than a quarter above what is touched? */
static int holds(void) {
    int enough = touched <= stated, near = 4 * stated <= 5 * touched;
    printf("stack: %-24s %6zu stated %6zu touched, %zu cases%s\n", name, stated, touched, cases,
           !enough ? ": NOT ENOUGH" : near ? "" : ": STATED TOO LARGE");
    return enough && near;
}

static int held(const char *call, size_t bytes, void (*made)(void), void (*all)(void)) {
    name = call;
    stated = bytes;
    make = made;
    touched = cases = 0;
    give_all();
    all();
    return holds();
}
