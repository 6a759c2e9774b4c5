// Writes the input to the console, up to its end.
#include "guest.h"

static char bytes[100];

int main(void) {
    for (;;) {
        long n = console_read(sizeof bytes, bytes);
        if (n <= 0) return 0;
        console_write(n, bytes);
    }
}
