// Counts the ways to place eight queens, over and over, and puts `!` on the console where they are not 92.
static unsigned place(unsigned row, unsigned columns, unsigned rising, unsigned falling) {
    unsigned count = 0;
    if (row == 8) return 1;
    for (unsigned k = 0; k < 8; k++) {
        unsigned bit = 1u << k;
        if ((columns | rising | falling) & bit) continue;
        count += place(row + 1, columns | bit, ((rising | bit) << 1) & 0xFF, (falling | bit) >> 1);
    }
    return count;
}
static void put(unsigned char c) {
    register unsigned long a0 __asm__("a0") = c;
    register unsigned long a7 __asm__("a7") = 1;
    __asm__ volatile("ecall" : "+r"(a0) : "r"(a7) : "memory");
}
void main(void) {
    for (;;) {
        unsigned n = place(0, 0, 0, 0);
        if (n != 92) put('!');
    }
}
