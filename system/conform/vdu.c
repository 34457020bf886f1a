#include "conform.h"

static unsigned char point[5], palette[5], status;
static int ends[4];

static unsigned char colour_at(int x, int y)
{
    *(int*)point = x;
    *(int*)(point + 2) = y;
    osword(9, point);
    return point[4];
}
static void plot(unsigned char code, int x, int y)
{
    unsigned char at;
    static unsigned char codes[6];

    codes[0] = 25;
    codes[1] = code;
    *(int*)(codes + 2) = x;
    *(int*)(codes + 4) = y;
    for (at = 0; at < 6; ++at)
        os(0xFFEE, codes[at], 0, 0);
}

int main(void)
{
    clrscr();
    gotoxy(5, 10);
    check("31, OSBYTE 134: the cursor's place", wherex() == 5 && wherey() == 10);
    cputc('Q');
    check("it goes on", wherex() == 6);
    codes("\x08", 1);
    osbyte(135, 0, 0);
    check("8, OSBYTE 135: the letter", r.x == 'Q' && r.y == 7);
    codes("\x1c\x14\x18\x27\x14", 5);
    check("28: a cursor outside of the window is home", wherex() == 0 && wherey() == 0);
    codes("\x1a", 1);
    codes("\x15", 1);
    cputc('x');
    osbyte(117, 0, 0);
    check("21, OSBYTE 117: the VDU is off", r.x & 0x80);
    codes("\x06", 1);
    osbyte(117, 0, 0);
    check("6: it is on", !(r.x & 0x80));
    clrscr();
    codes("\x0B\x0A\x09\x09\x08", 5);
    check("8 to 11: the cursor moves, and 11 scrolls", wherex() == 1 && wherey() == 1);
    codes("\x0D", 1);
    check("13: the start of the line", wherex() == 0 && wherey() == 1);
    codes("\x1F\x03\x04\x1E", 4);
    check("30: home", wherex() == 0 && wherey() == 0);
    codes("ab\x7F", 3);
    osbyte(135, 0, 0);
    check("127 deletes", wherex() == 1 && r.x == ' ');
    codes("\x01" "a", 2);
    check("1: the next one goes to no screen", wherex() == 1);
    codes("\x1B\0", 2);
    check("0 and 27 do nothing", wherex() == 1);
    codes("\x02", 1);
    osbyte(117, 0, 0);
    status = r.x;
    codes("\x03", 1);
    check("2, OSBYTE 117: the printer is on", status & 1);
    osbyte(117, 0, 0);
    check("3: it is off", !(r.x & 1));
    codes("\x0E", 1);
    osbyte(117, 0, 0);
    status = r.x;
    codes("\x0F", 1);
    check("14: paged mode", status & 4);
    codes("\x1C\x02\x0A\x0A\x05", 5);
    osbyte(160, 8, 0);
    check("28, OSBYTE 160: the window's left and bottom", r.x == 2 && r.y == 10);
    osbyte(117, 0, 0);
    check("28, OSBYTE 117: it scrolls by software", r.x & 8);
    codes("\x1A", 1);
    osbyte(117, 0, 0);
    check("26: no window", !(r.x & 8));
    codes("\x16\x05", 2);
    osbyte(135, 0, 0);
    check("22: mode 5", r.y == 5);
    codes("\x12\x00\x02", 3);
    plot(69, 640, 512);
    check("25, OSWORD 9: a point of colour 2", colour_at(640, 512) == 2 && colour_at(700, 512) == 0);
    plot(4, 100, 100);
    plot(5, 500, 100);
    check("a line", colour_at(300, 100) == 2 && colour_at(300, 108) == 0);
    codes("\x12\x03\x01", 3);
    plot(4, 100, 100);
    plot(5, 500, 100);
    check("18: exclusive or", colour_at(300, 100) == 3);
    codes("\x12\x00\x01", 3);
    plot(4, 600, 600);
    plot(4, 800, 600);
    plot(85, 800, 800);
    check("a triangle", colour_at(760, 660) == 1 && colour_at(620, 780) == 0);
    check("outside of the screen", colour_at(2000, 100) == 255);
    codes("\x10", 1);
    check("16 clears", colour_at(760, 660) == 0);
    codes("\x05", 1);
    osbyte(117, 0, 0);
    status = r.x;
    codes("\x04", 1);
    check("5: text at the graphics cursor", status & 0x20);
    osbyte(117, 0, 0);
    check("4: text at the text cursor", !(r.x & 0x20));
    codes("\x18\0\0\0\0\x64\0\x64\0\x12\0\x81\x10\x1A", 14);
    check("24, 16 and 26: the graphics window alone is cleared", colour_at(50, 50) == 1 && colour_at(300, 300) == 0);
    codes("\x1D\x64\0\x64\0\x12\0\x03", 8);
    plot(69, 100, 100);
    check("29: the origin", colour_at(100, 100) == 3);
    codes("\x1D\0\0\0\0", 5);
    check("29: as it was", colour_at(200, 200) == 3);
    plot(4, 400, 400);
    plot(0, 20, 0);
    plot(65, 8, 8);
    check("25: points beside the last", colour_at(428, 408) == 3);
    codes("\x12\0\x80", 3);
    plot(4, 304, 700);
    plot(5, 304, 720);
    plot(4, 800, 700);
    plot(5, 800, 720);
    plot(77, 600, 712);
    osword(13, ends);
    check("77: a line up to others", colour_at(312, 712) == 3 && colour_at(792, 712) == 3 && colour_at(808, 712) == 0);
    check("OSWORD 13: the ends of that line", ends[0] == 312 && ends[1] == 712 && ends[2] == 792 && ends[3] == 712);
    codes("\x13\x01\x06\0\0\0", 6);
    palette[0] = 1;
    osword(11, palette);
    check("19, OSWORD 11: the palette", palette[1] == 6);
    codes("\x14", 1);
    osword(11, palette);
    check("20: the first palette", palette[1] == 1);
    codes("\x16\x07", 2);
    ended("VDU");
    return 0;
}
