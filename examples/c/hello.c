/* What printf writes, and the arguments. */
#include <stdio.h>

int main(int argc, char *argv[]) {
    int at;

    printf("Hello from %s: %d %5u %-5s| %04X %ld\n", "C", -1, 65535U, "left", 0xBEEF, 1234567890L);
    for (at = 1; at < argc; ++at) {
        printf("argument %d is %s\n", at, argv[at]);
    }
    fprintf(stderr, "and this is an error's text\n");
    return 0;
}
