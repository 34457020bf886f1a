/* The worker, on the second processor: the sum of the bytes that come through register 2, up to a 0. */
#include "tube.h"

void main(void) {
    unsigned char byte;
    unsigned sum;

    for (;;) {
        sum = 0;
        do {
            TUBE_WAIT(2);
            byte = TUBE_BYTE(2);
            sum += byte;
        } while (byte);
        TUBE_GIVE(2, sum & 0xFF);
        TUBE_GIVE(2, sum >> 8);
    }
}
