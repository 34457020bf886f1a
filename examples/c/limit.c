/* A program with a fault, which somebody made by hand: it says another limit than 100. docs/DEBUG.md hunts it. */
#include <stdio.h>

unsigned squares[5] = {0, 0, 0, 0, 0};
unsigned limit = 100;

static void fill(void) {
    unsigned char at;

    for (at = 1; at <= 5; ++at) {
        squares[at] = at * at;
    }
}

int main(void) {
    fill();
    printf("the limit is %u\n", limit);
    return 0;
}
