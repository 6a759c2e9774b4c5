// A lock by LR and SC, and each atomic memory operation in both widths.
#include "guest.h"

static unsigned long cell = 40;
static unsigned word = 0x80000001;
static unsigned lock;

static int take(unsigned *at) {
    unsigned failed = 1;
    unsigned held;
    __asm__ volatile("lr.w %1, (%2)\n\tbnez %1, 1f\n\tsc.w %0, %3, (%2)\n1:" : "+&r"(failed), "=&r"(held) : "r"(at), "r"(1) : "memory");
    return !failed;
}

int main(void) {
    print(take(&lock) ? "taken" : "missed");
    print(take(&lock) ? " taken" : " missed");
    __atomic_store_n(&lock, 0, __ATOMIC_RELEASE);
    print(take(&lock) ? " taken\n" : " missed\n");
    print_number(__atomic_fetch_add(&cell, 2, __ATOMIC_ACQ_REL));
    put(' ');
    print_number(__atomic_fetch_xor(&cell, 5, __ATOMIC_ACQ_REL));
    put(' ');
    print_number(__atomic_fetch_and(&cell, 14, __ATOMIC_ACQ_REL));
    put(' ');
    print_number(__atomic_fetch_or(&cell, 1, __ATOMIC_ACQ_REL));
    put(' ');
    print_number(__atomic_exchange_n(&cell, 9, __ATOMIC_ACQ_REL));
    put(' ');
    unsigned long old;
    __asm__ volatile("amomin.w %0, %1, (%2)" : "=r"(old) : "r"(3L), "r"(&word) : "memory");
    print_number(old);
    put(' ');
    __asm__ volatile("amomaxu.w %0, %1, (%2)" : "=r"(old) : "r"(-1L), "r"(&word) : "memory");
    print_number(old & 0xFFFFFFFF);
    put(' ');
    print_number(word);
    put('\n');
    return 0;
}
