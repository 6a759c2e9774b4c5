// Skips an instruction of each cause in a trap handler, and writes the causes.
#include "guest.h"

static char stack_of_traps[4096] __attribute__((aligned(16)));
static volatile unsigned long last_cause;

void trap(unsigned long cause, unsigned long value, struct frame *frame) {
    (void)value;
    (void)frame;
    last_cause = cause;
    write_csr(sepc, read_csr(sepc) + 4);
}

static void tell(void) {
    print_number(last_cause);
    put(' ');
}

int main(void) {
    write_csr(sscratch, stack_of_traps + sizeof stack_of_traps);
    write_csr(stvec, trap_entry);
    unsigned long odd = (unsigned long)&last_cause + 1;
    __asm__ volatile("jalr x0, 2(%0)" : : "r"(trap_entry));
    tell();
    __asm__ volatile(".word 0");
    tell();
    __asm__ volatile("ebreak");
    tell();
    __asm__ volatile("ld x0, 0(%0)" : : "r"(odd));
    tell();
    __asm__ volatile("ld x0, 0(x0)");
    tell();
    __asm__ volatile("sw x0, 0(%0)" : : "r"(odd));
    tell();
    __asm__ volatile("sd x0, 0(x0)");
    tell();
    put('\n');
    return 0;
}
