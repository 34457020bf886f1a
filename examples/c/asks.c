/* On the host, beside answers.c: it has the second processor take roots. It is the one that writes, and that ends. */
#include <stdio.h>
#include "tube.h"

int main(void) {
    static const unsigned squares[] = {0, 1, 144, 1000, 65535U};
    unsigned char at;

    for (at = 0; at < sizeof squares / sizeof *squares; ++at) {
        TUBE_GIVE(2, squares[at] & 0xFF);
        TUBE_GIVE(2, squares[at] >> 8);
        TUBE_WAIT(2);
        printf("the root of %u is %u\n", squares[at], TUBE_BYTE(2));
    }
    return 0;
}
