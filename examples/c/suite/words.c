/* Counts the words of the input; its status is 2 where there is none. */
#include <ctype.h>
#include <stdio.h>

int main(void) {
    int letter, inside = 0, words = 0;

    while ((letter = getchar()) != EOF) {
        if (isspace(letter)) {
            inside = 0;
        } else if (!inside) {
            inside = 1;
            ++words;
        }
    }
    printf("%d words\n", words);
    return words ? 0 : 2;
}
