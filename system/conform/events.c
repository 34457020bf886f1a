#include "conform.h"

static unsigned evntv;
static unsigned char block[8], interval[5];
/* What the last event of each number had, and how often it came. */
static unsigned char count[10], xs[10], ys[10];
static unsigned char event_a, event_x, event_y;

/* EVNTV: it keeps the registers. */
static void event(void)
{
    asm("sta %v", event_a);
    asm("stx %v", event_x);
    asm("sty %v", event_y);
    asm("pha");
    asm("txa");
    asm("pha");
    asm("tya");
    asm("pha");
    asm("ldx %v", event_a);
    asm("inc %v,x", count);
    asm("lda %v", event_x);
    asm("sta %v,x", xs);
    asm("lda %v", event_y);
    asm("sta %v,x", ys);
    asm("pla");
    asm("tay");
    asm("pla");
    asm("tax");
    asm("pla");
}
static void on(unsigned char number)
{
    count[number] = 0;
    osbyte(14, number, 0);
}
#define off(number) osbyte(13, number, 0)
static void frames(unsigned char number)
{
    while (number--)
        osbyte(19, 0, 0);
}

int main(void)
{
    unsigned char at;

    evntv = *(unsigned*)0x220;
    *(unsigned*)0x220 = (unsigned)event;
    on(4);
    check("14: it was off", r.x == 0);
    on(4);
    check("14: it is on", r.x != 0);
    frames(10);
    off(4);
    check("13: it was on", r.x != 0);
    check("4: vertical sync", count[4] >= 9 && count[4] <= 11);
    count[4] = 0;
    frames(3);
    check("13: it comes no more", count[4] == 0);
    osbyte(21, 0, 0);
    on(2);
    osbyte(153, 0, 'Q');
    frames(1);
    check("2: a character enters a buffer", count[2] == 1 && xs[2] == 0 && ys[2] == 'Q');
    off(2);
    on(1);
    for (at = 0; at < 31; ++at)
        osbyte(138, 0, 'A');
    frames(1);
    check("1: 31 characters have room", count[1] == 0 || count[1] == 1);
    osbyte(138, 0, 'B');
    frames(1);
    check("138: C is set if there is no room", carry || count[1]);
    check("1: an input buffer is full", count[1] && xs[1] == 0 && ys[1] == 'B');
    off(1);
    osbyte(15, 0, 0);
    on(0);
    block[0] = 1;
    block[2] = 0xF1;
    block[3] = 0xFF;
    block[6] = 2;
    osword(7, block);
    frames(3);
    check("0: an output buffer is empty", count[0] && xs[0] == 5);
    off(0);
    memset(interval, 0xFF, 5);
    interval[0] = 0xFB;
    on(5);
    osword(4, interval);
    frames(6);
    check("5: the interval timer", count[5] == 1);
    off(5);
    on(6);
    osbyte(153, 0, 27);
    frames(1);
    check("6: ESCAPE, which is not noted", count[6] == 1 && !(*(unsigned char*)0xFF & 0x80));
    off(6);
    osbyte(153, 0, 27);
    frames(1);
    check("without it ESCAPE is noted", count[6] == 1 && *(unsigned char*)0xFF & 0x80);
    osbyte(126, 0, 0);
    on(3);
    osbyte(16, 2, 0);
    frames(10);
    check("3: the converter", count[3] && (xs[3] == 1 || xs[3] == 2));
    off(3);
    osbyte(128, 0, 0);
    check("128: the channel that was converted", r.y == 1 || r.y == 2);
    osbyte(16, 0, 0);
    check("16: two channels before", r.x == 2);
    osbyte(16, 4, 0);
    on(9);
    if (variable(234)) {
        take_errors();
        check("OSEVEN on the second processor: an error", error(os(0xFFBF, 1, 2, 9)) == 255);
        leave_errors();
    } else {
        os(0xFFBF, 1, 2, 9);
        check("OSEVEN: C is clear", !carry && count[9] == 1);
        check("OSEVEN: X stays, A comes in Y", xs[9] == 2 && ys[9] == 1);
        off(9);
        os(0xFFBF, 1, 2, 9);
        check("OSEVEN of one that is off: C is set", carry && count[9] == 1);
    }
    off(9);
    *(unsigned*)0x220 = evntv;
    ended("EVENTS");
    return 0;
}
