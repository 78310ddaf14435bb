// Counts the instructions of a task, those of the C library with them. The trap flag of x86-64 has the processor trap behind each
// instruction, and each trap is a signal that is counted. An emulator does the same, so that the count depends on no machine but
// for the C library, which copies by other vectors on other processors.
#include "measure.h"

void *signal(int number, void (*handler)(int));
enum { SIGTRAP = 5, TRAP_FLAG = 0x100 };

static volatile u64 steps;

static void step(int number) {
    (void)number;
    steps++;
}

static u64 steps_of(task *volatile t, void *what) {
    u64 flags = __builtin_ia32_readeflags_u64();
    steps = 0;
    __builtin_ia32_writeeflags_u64(flags | TRAP_FLAG);
    t(what, 1);
    __builtin_ia32_writeeflags_u64(flags);
    return steps;
}

static void nothing(void *what, usize times) { (void)what, (void)times; }

// Less what it takes to call a task and to end the trapping.
u64 count_of(task *t, void *what) {
    signal(SIGTRAP, step);
    return steps_of(t, what) - steps_of(nothing, what);
}
