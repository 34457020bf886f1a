/* On the host, beside the worker: the sum of each argument's letters, which the worker takes. */
#include <stdio.h>
#include "tube.h"

int main(int argc, char *argv[]) {
    int at;
    char *letter;
    unsigned sum;

    for (at = 1; at < argc; ++at) {
        for (letter = argv[at]; *letter; ++letter) TUBE_GIVE(2, *letter);
        TUBE_GIVE(2, 0);
        TUBE_WAIT(2);
        sum = TUBE_BYTE(2);
        TUBE_WAIT(2);
        sum |= (unsigned)TUBE_BYTE(2) << 8;
        printf("%s %u\n", argv[at], sum);
    }
    return 0;
}
