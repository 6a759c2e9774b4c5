// Counts three timer interrupts while it loops, and writes a line for each.
#include "guest.h"

static char stack_of_traps[4096] __attribute__((aligned(16)));
static volatile unsigned ticks;

static void next_tick(void) {
    firmware(TIME, 0, read_csr(time) + 500, 0, 0);
}

void trap(unsigned long cause, unsigned long value, struct frame *frame) {
    (void)value;
    (void)frame;
    if (cause != (1UL << 63 | 5)) print("another trap\n");
    ticks++;
    next_tick();
}

int main(void) {
    write_csr(sscratch, stack_of_traps + sizeof stack_of_traps);
    write_csr(stvec, trap_entry);
    next_tick();
    set_csr(sie, 1 << 5);
    set_csr(sstatus, 1 << 1);
    for (unsigned told = 0; told < 3;) {
        if (ticks == told) continue;
        told++;
        print("tick ");
        print_number(told);
        put('\n');
    }
    clear_csr(sstatus, 1 << 1);
    return 0;
}
