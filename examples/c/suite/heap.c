/* Memory of the heap that is had and given back; the status is 0 where all of it came back. */
#include <stdio.h>
#include <stdlib.h>
#include <string.h>

int main(void) {
    char *texts[8];
    unsigned at, before = _heapmaxavail();

    for (at = 0; at < 8; ++at) {
        texts[at] = malloc(1000);
        if (texts[at] == NULL) {
            return 1;
        }
        memset(texts[at], 'a' + at, 999);
        texts[at][999] = 0;
    }
    for (at = 0; at < 8; ++at) {
        printf("%.3s %u\n", texts[at], (unsigned)strlen(texts[at]));
        free(texts[at]);
    }
    return _heapmaxavail() != before;
}
