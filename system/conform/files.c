#include <fcntl.h>
#include <stdlib.h>
#include <unistd.h>
#include "conform.h"

static unsigned char block[18], data[300], back[300];
static char name[] = "TRIED\r";

static unsigned char gbpb(unsigned char a, unsigned char file, void* memory, unsigned count, unsigned at)
{
    memset(block, 0, 13);
    block[0] = file;
    *(unsigned*)(block + 1) = (unsigned)memory;
    *(unsigned*)(block + 5) = count;
    *(unsigned*)(block + 9) = at;
    with(0xFFD1, a, block);
    return carry;
}

int main(int argc, char* argv[])
{
    unsigned char file, at;
    FILE* text;

    check("the command's words", argc == 3 && !strcmp(argv[1], "one") && !strcmp(argv[2], "TWO"));
    for (at = 0; at < 255; ++at)
        data[at] = at ^ 0x55;
    os(0xFFDA, 0, 0, 0);
    check("OSARGS 0, 0: a filing system", r.a != 0);
    with(0xFFCE, 0x40, "NOTHING\r");
    check("OSFIND 40: no file", r.a == 0);
    memset(block, 0, 18);
    *(unsigned*)block = (unsigned)name;
    *(unsigned*)(block + 2) = 0x1234;
    *(unsigned*)(block + 6) = 0x5678;
    *(unsigned*)(block + 10) = (unsigned)data;
    *(unsigned*)(block + 14) = (unsigned)data + 200;
    with(0xFFDD, 0, block);
    check("OSFILE 0 saves", r.a == 1);
    memset(block + 2, 0, 16);
    with(0xFFDD, 5, block);
    check("OSFILE 5: addresses and length", r.a == 1 && *(unsigned*)(block + 2) == 0x1234
        && *(unsigned*)(block + 6) == 0x5678 && *(unsigned long*)(block + 10) == 200);
    *(unsigned long*)(block + 2) = (unsigned)back;
    block[6] = 0;
    with(0xFFDD, 255, block);
    check("OSFILE FF loads", !memcmp(back, data, 200) && back[200] == 0);
    with(0xFFCE, 0xC0, name);
    file = r.a;
    check("OSFIND C0 opens", file != 0);
    os(0xFFD7, 0, 0, file);
    check("OSBGET gives a byte with C clear", r.a == data[0] && !carry);
    os(0xFFDA, 0, 0x70, file);
    check("OSARGS 0: the pointer", *(unsigned long*)0x70 == 1);
    os(0xFFDA, 2, 0x70, file);
    check("OSARGS 2: the length", *(unsigned long*)0x70 == 200);
    check("OSGBPB 3 reads from a place", !gbpb(3, file, back, 10, 190) && !memcmp(back, data + 190, 10));
    check("OSGBPB 4 sets C at the end", gbpb(4, file, back, 10, 0) && *(unsigned*)(block + 5) == 10);
    osbyte(127, file, 0);
    check("OSBYTE 127: the end of a file", r.x != 0);
    check("OSGBPB 1 writes at a place", !gbpb(1, file, data, 50, 200));
    os(0xFFD4, 'x', 0, file);
    check("OSBPUT keeps A", r.a == 'x');
    osbyte(157, 'y', file);
    os(0xFFDA, 2, 0x70, file);
    check("OSBYTE 157: a byte to a file", *(unsigned long*)0x70 == 252);
    os(0xFFCE, 0, 0, file);
    *(unsigned*)block = (unsigned)name;
    with(0xFFDD, 5, block);
    check("the file has grown", *(unsigned long*)(block + 10) == 252);
    with(0xFFDD, 6, block);
    check("OSFILE 6 deletes", r.a == 1);
    with(0xFFDD, 5, block);
    check("OSFILE 5: it is gone", r.a == 0);
    gbpb(5, 0, back, 0, 0);
    check("OSGBPB 5: a title, and option 3", back[0] <= 12 && back[back[0] + 1] == 3);
    gbpb(6, 0, back, 0, 0);
    check("OSGBPB 6: drive and directory", !memcmp(back, "\1" "0\1$", 4));
    gbpb(7, 0, back, 0, 0);
    check("OSGBPB 7: the library's", !memcmp(back, "\1" "0\1$", 4));
    memset(back, 0, 40);
    check("OSGBPB 8: two names, and no third", gbpb(8, 0, back, 3, 0) && *(unsigned*)(block + 5) == 1
        && back[0] == 7 && back[8] == 7 && back[16] == 0);
    text = fopen("STDIO", "w");
    check("fopen to write", text != NULL);
    check("fopen of a name that is an error", fopen(":9.X", "r") == NULL && fopen(":9.X", "w") == NULL);
    fprintf(text, "line %d\nlast\n", 1);
    fclose(text);
    text = fopen("STDIO", "r");
    check("fopen to read", text != NULL && fgets((char*)back, 20, text) && !strcmp((char*)back, "line 1\n"));
    fseek(text, -5, SEEK_END);
    check("fseek and ftell", ftell(text) == 7 && fgets((char*)back, 20, text) && !strcmp((char*)back, "last\n"));
    check("the end", fgetc(text) == EOF && feof(text));
    fclose(text);
    file = open("STDIO", O_RDONLY);
    check("read up to the end, and at it", read(file, back, 40) == 12 && !read(file, back, 1) && !read(file, back, 1));
    close(file);
    check("remove", remove("STDIO") == 0 && fopen("STDIO", "r") == NULL);
    ended("FILES");
    return 0;
}
