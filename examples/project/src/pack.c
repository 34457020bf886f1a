/* Packs standard input to standard output, or with -d unpacks it. */
#include <stdio.h>
#include <string.h>
#include "rle.h"

static unsigned char in[4096], out[8192];

int main(int argc, char *argv[])
{
    unsigned size = fread(in, 1, sizeof in, stdin);
    size = argc > 1 && strcmp(argv[1], "-d") == 0 ? rle_unpack(in, size, out) : rle_pack(in, size, out);
    return fwrite(out, 1, size, stdout) != size;
}
