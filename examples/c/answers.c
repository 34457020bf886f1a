/* On the second processor, beside asks.c: the roots of the numbers that come through register 2. */
#include "tube.h"

void main(void) {
    unsigned number, root;

    for (;;) {
        TUBE_WAIT(2);
        number = TUBE_BYTE(2);
        TUBE_WAIT(2);
        number |= (unsigned)TUBE_BYTE(2) << 8;
        for (root = 0; root < 255 && (root + 1) * (root + 1) <= number; ++root) {
        }
        TUBE_GIVE(2, root);
    }
}
