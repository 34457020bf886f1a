/* Ends by exit in the midst of a call, with what atexit has. */
#include <stdio.h>
#include <stdlib.h>

static void last(void) {
    puts("last");
}

static void leave(int depth) {
    if (depth == 0) {
        exit(42);
    }
    leave(depth - 1);
}

int main(void) {
    atexit(last);
    puts("first");
    leave(10);
    puts("never");
    return 0;
}
