// Maps itself through Sv39, runs a function in U mode at another address, and serves its calls.
#include "guest.h"

#define PAGE 4096
#define VALID 0x01
#define READ 0x02
#define WRITE 0x04
#define EXECUTE 0x08
#define USER 0x10
#define ACCESSED 0x40
#define DIRTY 0x80

#define USER_CODE 0x40000000UL
#define USER_STACK 0x40001000UL

typedef unsigned long entry;

static entry root[512] __attribute__((aligned(PAGE)));
static entry middle[512] __attribute__((aligned(PAGE)));
static entry leaves[512] __attribute__((aligned(PAGE)));
static char user_stack[PAGE] __attribute__((aligned(PAGE)));
static char stack_of_traps[PAGE] __attribute__((aligned(16)));

extern char user_start[], user_end[];
static char user_code[PAGE] __attribute__((aligned(PAGE)));

static entry to(const void *at, entry bits) {
    return ((unsigned long)at >> 12) << 10 | bits;
}

static void shut_down(void) {
    firmware(0x53525354, 0, 0, 0, 0);
}

void trap(unsigned long cause, unsigned long value, struct frame *frame) {
    if (cause == 8 && frame->x[17] == 1) {
        put(frame->x[10]);
        write_csr(sepc, read_csr(sepc) + 4);
        return;
    }
    print(" cause ");
    print_number(cause);
    print(" at ");
    print_number(value);
    put('\n');
    shut_down();
}

// In U mode: writes `user` by calls, then loads from where only S mode may, which is a page fault.
__asm__(".balign 4\n"
        "user_start:\n"
        "  addi sp, sp, -16\n"
        "  li a7, 1\n"
        "  li a0, 'u'\n  ecall\n"
        "  li a0, 's'\n  ecall\n"
        "  li a0, 'e'\n  ecall\n"
        "  li a0, 'r'\n  sd a0, 0(sp)\n  ld a0, 0(sp)\n  ecall\n"
        "  li t0, 1\n  slli t0, t0, 31\n"
        "  ld t0, 0(t0)\n"
        "user_end:\n");

int main(void) {
    for (char *from = user_start, *at = user_code; from < user_end;) *at++ = *from++;
    // One gigabyte page for S mode, where the program lies.
    root[2] = to((void *)0x80000000UL, VALID | READ | WRITE | EXECUTE | ACCESSED | DIRTY);
    root[1] = to(middle, VALID);
    middle[0] = to(leaves, VALID);
    leaves[0] = to(user_code, VALID | READ | EXECUTE | USER | ACCESSED);
    leaves[1] = to(user_stack, VALID | READ | WRITE | USER | ACCESSED | DIRTY);
    write_csr(sscratch, stack_of_traps + sizeof stack_of_traps);
    write_csr(stvec, trap_entry);
    write_csr(satp, 8UL << 60 | (unsigned long)root >> 12);
    __asm__ volatile("sfence.vma");
    clear_csr(sstatus, 1 << 8);
    write_csr(sepc, USER_CODE);
    __asm__ volatile("mv sp, %0\n\tsret" : : "r"(USER_STACK + PAGE) : "memory");
    return 0;
}
