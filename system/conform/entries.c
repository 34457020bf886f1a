/* Entries and vectors, and what only the host has: on the second processor these are the error 255. */
#include "conform.h"

static unsigned char got[40], user_a, user_x, user_y;

static void user(void)
{
    asm("sta %v", user_a);
    asm("stx %v", user_x);
    asm("sty %v", user_y);
}
static unsigned char column(void)
{
    osbyte(134, 0, 0);
    return r.x;
}
static unsigned char row(void)
{
    osbyte(134, 0, 0);
    return r.y;
}
/* GSINIT and GSREAD: how many characters a text has, which are in got. Spaces end it if is_name is set. */
static unsigned char parts(const char* from, unsigned char is_name)
{
    static char text[40];
    unsigned char count = 0;

    strcpy(text, from);
    strcat(text, "\r");
    *(char**)0xF2 = text;
    r.pc = 0xFFC2;
    r.y = 0;
    r.flags = !is_name;
    _sys(&r);
    for (;;) {
        r.pc = 0xFFC5;
        _sys(&r);
        if (carry || count == 40)
            return count;
        got[count++] = r.a;
    }
}

int main(void)
{
    unsigned char before;

    os(0xFFEE, 12, 0, 0);
    os(0xFFEE, 'a', 1, 2);
    check("OSWRCH keeps A, X and Y", r.a == 'a' && r.x == 1 && r.y == 2 && column() == 1);
    os(0xFFCB, 'b', 0, 0);
    check("NVWRCH", column() == 2);
    os(0xFFE3, 'c', 0, 0);
    check("OSASCI of a letter", column() == 3);
    os(0xFFE3, 13, 0, 0);
    check("OSASCI of 13: a new line", column() == 0 && row() == 1);
    os(0xFFEE, 'd', 0, 0);
    os(0xFFE7, 0, 0, 0);
    check("OSNEWL: a new line", column() == 0 && row() == 2);
    os(0xFFEE, 'e', 0, 0);
    os(0xFFEC, 0, 0, 0);
    check("OSWRCR: 13 alone", column() == 0 && row() == 2);
    osbyte(21, 0, 0);
    osbyte(138, 0, 'f');
    os(0xFFE0, 0, 3, 4);
    check("OSRDCH keeps X and Y", r.a == 'f' && r.x == 3 && r.y == 4 && !carry);
    osbyte(138, 0, 'g');
    os(0xFFC8, 0, 3, 4);
    check("NVRDCH", r.a == 'g' && !carry);
    osbyte(3, 2, 0);
    check("3: the output was all", r.x == 0);
    before = column();
    os(0xFFEE, 'h', 0, 0);
    check("3 with 2: the VDU is off", column() == before);
    osbyte(3, 0, 0);
    check("3 gives 2 before", r.x == 2);
    take_errors();
    if (variable(234)) {
        check("OSRDRM", error(os(0xFFB9, 0, 0, 13)) == 255);
        check("GSINIT", error(os(0xFFC2, 0, 0, 0)) == 255);
        check("GSREAD", error(os(0xFFC5, 0, 0, 0)) == 255);
        osbyte(130, 0, 0);
        check("130: 0000 here", r.x == 0 && r.y == 0);
        osbyte(131, 0, 0);
        check("131: memory from 0800 on", r.x == 0 && r.y == 8);
    } else {
        *(unsigned*)0xF6 = 0x8006;
        os(0xFFB9, 0, 0, variable(252));
        check("OSRDRM: a language's type", r.a & 0x40);
        check("GSREAD: a text", parts("ab c", 0) == 4 && !memcmp(got, "ab c", 4));
        check("GSREAD: a name", parts("ab c", 1) == 2);
        check("GSREAD: codes", parts("|A|!B|?||\"", 0) == 5 && !memcmp(got, "\1\xC2\x7F|\"", 5));
        check("GSREAD: quotes", parts("\"a \"\"b\" c", 1) == 4 && !memcmp(got, "a \"b", 4));
        check("GSREAD: spaces before a text", parts("   x", 0) == 1 && got[0] == 'x');
        check("GSREAD: an empty text", parts("", 0) == 0);
        check("253: a quote that does not end", error(parts("\"a", 0)) == 253);
        before = *(unsigned char*)0x200;
        {
            unsigned was = *(unsigned*)0x200;
            *(unsigned*)0x200 = (unsigned)user;
            osbyte(136, 3, 4);
            check("136: USERV with 0", user_a == 0 && user_x == 3 && user_y == 4);
            oscli("CODE 5,6");
            check("*CODE", user_a == 0 && user_x == 5 && user_y == 6);
            oscli("LINE text");
            check("*LINE: USERV with 1", user_a == 1 && !memcmp((char*)(user_x + 256 * user_y), "text\r", 5));
            os(0xFFF1, 224, 7, 8);
            check("OSWORD 224: USERV", user_a == 224 && user_x == 7 && user_y == 8);
            *(unsigned*)0x200 = was;
        }
    }
    check("247: OSBYTE 0 with 0", error(os(0xFFF4, 0, 0, 0)) == 247);
    leave_errors();
    ended("ENTRIES");
    return 0;
}
