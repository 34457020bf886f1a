/* Sums, products and quotients of several widths. */
#include <stdio.h>

int main(void) {
    int small = -7;
    unsigned long large = 4000000000UL;

    printf("%d %d %d\n", small * 9, small / 3, small % 3);
    printf("%lu %lu %lu\n", large, large / 7, large % 1000);
    printf("%u\n", (unsigned)(40000U + 40000U));
    return 0;
}
