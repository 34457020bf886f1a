/* The primes below 8,192, counted. */
#include <stdio.h>
#include <string.h>

static unsigned char is_prime[8192];

int main(void) {
    unsigned number, multiple, count = 0;

    memset(is_prime, 1, sizeof is_prime);
    for (number = 2; number < sizeof is_prime; ++number) {
        if (is_prime[number]) {
            ++count;
            for (multiple = number + number; multiple < sizeof is_prime; multiple += number) {
                is_prime[multiple] = 0;
            }
        }
    }
    printf("%u primes\n", count);
    return 0;
}
