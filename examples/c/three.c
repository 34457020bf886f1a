/* Ends with 3, from within a call. */
#include <stdlib.h>

static void leave(void) {
    exit(3);
}

int main(void) {
    leave();
    return 0;
}
