// What the guest programs share: firmware calls, texts, and supervisor registers.
#pragma once

struct answer {
    long error;
    long value;
};

static inline struct answer firmware(unsigned long extension, unsigned long function, unsigned long first, unsigned long second, unsigned long third) {
    register unsigned long a0 __asm__("a0") = first;
    register unsigned long a1 __asm__("a1") = second;
    register unsigned long a2 __asm__("a2") = third;
    register unsigned long a6 __asm__("a6") = function;
    register unsigned long a7 __asm__("a7") = extension;
    __asm__ volatile("ecall" : "+r"(a0), "+r"(a1) : "r"(a2), "r"(a6), "r"(a7) : "memory");
    struct answer answer = {(long)a0, (long)a1};
    return answer;
}

#define TIME 0x54494D45
#define DEBUG_CONSOLE 0x4442434E

// The addresses of the debug console are physical; these programs lie where they are linked.
static inline long console_write(unsigned long length, const char *bytes) {
    return firmware(DEBUG_CONSOLE, 0, length, (unsigned long)bytes, 0).value;
}

static inline long console_read(unsigned long length, char *bytes) {
    return firmware(DEBUG_CONSOLE, 1, length, (unsigned long)bytes, 0).value;
}

static inline void put(char c) {
    firmware(DEBUG_CONSOLE, 2, (unsigned char)c, 0, 0);
}

static inline void print(const char *text) {
    unsigned long length = 0;
    while (text[length]) length++;
    console_write(length, text);
}

static inline void print_number(unsigned long n) {
    char digits[20];
    int k = 20;
    do {
        digits[--k] = '0' + n % 10;
        n /= 10;
    } while (n);
    while (k < 20) put(digits[k++]);
}

#define read_csr(name) ({ unsigned long value; __asm__ volatile("csrr %0, " #name : "=r"(value)); value; })
#define write_csr(name, value) __asm__ volatile("csrw " #name ", %0" : : "r"((unsigned long)(value)) : "memory")
#define set_csr(name, bits) __asm__ volatile("csrs " #name ", %0" : : "r"((unsigned long)(bits)) : "memory")
#define clear_csr(name, bits) __asm__ volatile("csrc " #name ", %0" : : "r"((unsigned long)(bits)) : "memory")

// traps.S: saves the registers on the stack that sscratch names, and calls `trap`.
extern char trap_entry[];

// The registers of what was interrupted: x1, x3 to x31 at their own numbers.
struct frame {
    unsigned long x[32];
};
