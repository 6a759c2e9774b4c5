// Hart 0 starts hart 1, which writes a line and wakes hart 0 by a software interrupt.
#include "guest.h"

#define HART_STATE 0x48534D
#define INTERRUPTS 0x735049

// Where hart 1 begins: its stack is what a1 says.
__asm__(".pushsection .text\n"
        "second_start:\n"
        "    mv sp, a1\n"
        "    call second\n"
        ".popsection\n");
extern char second_start[];

static char stack[4096] __attribute__((aligned(16)));

void second(void) {
    print("hart 1 is started\n");
    firmware(INTERRUPTS, 0, 1, 0, 0);
    firmware(HART_STATE, 1, 0, 0, 0);
}

int main(void) {
    firmware(HART_STATE, 0, 1, (unsigned long)second_start, (unsigned long)(stack + sizeof stack));
    // The software interrupt is pending, and isn't taken, since it isn't enabled.
    while (!(read_csr(sip) & 2)) {
    }
    while (firmware(HART_STATE, 2, 1, 0, 0).value != 1) {
    }
    print("hart 1 is stopped\n");
    return 0;
}
