/* qsort, and comparisons of texts. */
#include <stdio.h>
#include <stdlib.h>
#include <string.h>

static const char *names[] = {"tube", "host", "parasite", "beeb", "acorn"};

static int compare(const void *one, const void *other) {
    return strcmp(*(const char **)one, *(const char **)other);
}

int main(void) {
    unsigned at;

    qsort(names, 5, sizeof *names, compare);
    for (at = 0; at < 5; ++at) {
        puts(names[at]);
    }
    return 0;
}
