#include "conform.h"

static unsigned char block[20], line[8], changed, first;

static unsigned long clock_of(unsigned char a)
{
    osword(a, block);
    return *(unsigned long*)block;
}

int main(void)
{
    static const char* const typed = "ab\x7f" "cdefgh\r";
    const char* key;
    unsigned long before;

    memset(block, 0, 5);
    osword(2, block);
    before = clock_of(1);
    check("2 and 1: TIME is set and read", before < 5);
    osbyte(19, 0, 0);
    osbyte(19, 0, 0);
    osbyte(19, 0, 0);
    check("1: it goes on", clock_of(1) > before);
    memset(block, 0xFF, 5);
    block[1] = 0;
    osword(4, block);
    check("4 and 3: the interval timer", (clock_of(3) & 0xFFFF0000) == 0xFFFF0000 && block[4] == 0xFF);
    *(unsigned long*)block = 0xFFFF0070;
    block[4] = 0x5A;
    osword(6, block);
    block[4] = 0;
    osword(5, block);
    check("6 and 5: a byte of the host", block[4] == 0x5A);
    block[0] = 'A';
    osword(10, block);
    check("10: the rows of a letter", block[1] | block[2] | block[3] && block[0] == 'A');
    printf("%c%c%c%c%c%c%c%c%c%c", 23, 240, 1, 2, 3, 4, 5, 6, 7, 8);
    block[0] = 240;
    osword(10, block);
    check("10: those of a new one", !memcmp(block + 1, "\1\2\3\4\5\6\7\10", 8));
    block[0] = 1;
    osword(11, block);
    check("11: a colour of the palette", block[1] < 16 && block[2] == 0 && block[3] == 0 && block[4] == 0);
    osbyte(21, 0, 0);
    for (key = typed; *key; ++key)
        osbyte(138, 0, *key);
    *(unsigned*)block = (unsigned)line;
    block[2] = 5;
    block[3] = 'a';
    block[4] = 'z';
    osword(0, block);
    check("0: a line of at most five letters", r.y == 5 && !carry && !memcmp(line, "acdef\r", 6));
    codes("\x16\x04\x19\x04\x64\0\x34\0\x19\x04\xC8\0\xC8\0", 14);
    block[0] = 1;
    block[1] = 6;
    osword(12, block);
    block[1] = 0;
    osword(11, block);
    changed = block[1];
    codes("\x14", 1);
    osword(11, block);
    first = block[1];
    osword(13, block);
    codes("\x16\x07", 2);
    check("12: another colour, as VDU 19", changed == 6);
    check("VDU 20: the first colours", first == 7);
    check("13: the last two points", *(int*)block == 100 && *(int*)(block + 2) == 52 && *(int*)(block + 4) == 200
        && *(int*)(block + 6) == 200);
    memset(block, 0, 8);
    block[0] = 0x10;
    block[4] = 200;
    block[6] = 1;
    osword(7, block);
    osbyte(128, 251, 255);
    check("7: a note is in a sound's buffer or sounds", r.x <= 15);
    ended("OSWORD");
    return 0;
}
