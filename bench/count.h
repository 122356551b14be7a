// What the counts of this folder share: where counting begins and ends, and how much of a stack a run touches.
#include <stddef.h>
#include <stdint.h>
#include <stdio.h>
#include <string.h>
#include <ucontext.h>
#include <unistd.h>

// The instructions between these two calls are counted (bench/counting.sh says how); to a run that isn't counted they do nothing. They cost the same,
// so that it makes no difference where in them the counter stands.
__attribute__((noipa)) void count_from(void) { close(1000); }
__attribute__((noipa)) void count_to(void) { close(1001); }

// Counts a run; the line that is printed names it, in the order in which the counts come.
static inline void counted(const char *name, void (*run)(void)) {
    count_from();
    run();
    count_to();
    printf("counted %s\n", name);
}

static inline void nothing(void) {}

// how many bytes of a painted stack are touched by the run; take from it what `nothing` touches
static inline size_t touched(void (*run)(void)) {
    enum { STACK = 1 << 20, PAINT = 0xa5 };
    static uint8_t stack[STACK];
    static ucontext_t here, there;
    size_t low = 0;
    memset(stack, PAINT, STACK);
    getcontext(&there);
    there.uc_stack.ss_sp = stack, there.uc_stack.ss_size = STACK, there.uc_link = &here;
    makecontext(&there, run, 0);
    swapcontext(&here, &there);
    while (low < STACK && stack[low] == PAINT) low++;
    return STACK - low;
}
