/* The input in capitals; its status is how many lines there were. */
#include <ctype.h>
#include <stdio.h>

int main(void) {
    int letter, lines = 0;

    while ((letter = getchar()) != EOF) {
        putchar(toupper(letter));
        lines += letter == '\n';
    }
    return lines;
}
