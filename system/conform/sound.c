#include "conform.h"

static unsigned block[4];
static unsigned char envelope[14] = { 1, 1, 0, 0, 0, 0, 0, 0, 126, 0, 0, 0xFF, 126, 126 };

static void note(unsigned channel, int amplitude, unsigned pitch, unsigned duration)
{
    block[0] = channel;
    block[1] = amplitude;
    block[2] = pitch;
    block[3] = duration;
    osword(7, block);
}
/* The room of a channel's buffer: three bytes a note, which leaves it when it sounds. */
static unsigned char room(unsigned char channel)
{
    osbyte(128, 251 - channel, 255);
    return r.x;
}
static void wait(unsigned hundredths)
{
    unsigned begun = now();

    while (now() - begun < hundredths)
        ;
}
/* The hundredths of a second until a channel's buffer has so much room. */
static unsigned until(unsigned char channel, unsigned char wanted)
{
    unsigned begun = now();

    while (room(channel) != wanted && now() - begun < 300)
        ;
    return now() - begun;
}
#define about(value, wanted) ((value) >= (wanted) - 7 && (value) <= (wanted) + 7)

int main(void)
{
    unsigned begun;
    unsigned char at;

    osbyte(15, 0, 0);
    check("OSBYTE 15, 0: all buffers are empty", room(0) == 15 && room(1) == 15 && room(2) == 15 && room(3) == 15);
    for (at = 0; at < 4; ++at)
        note(at, -15, 100, 10);
    wait(3);
    check("a note sounds at once", room(0) == 15 && room(1) == 15 && room(2) == 15 && room(3) == 15);
    for (at = 0; at < 4; ++at)
        note(at, -15, 100, 1);
    check("the next one waits", room(0) == 12 && room(1) == 12 && room(2) == 12 && room(3) == 12);
    check("a duration of 10 is half a second", about(until(1, 15), 47));
    for (at = 0; at < 4; ++at)
        osbyte(21, at + 4, 0);
    note(1, -15, 100, 10);
    wait(3);
    for (at = 0; at < 5; ++at)
        note(1, -15, 100, 2);
    check("five notes wait", room(1) == 0);
    begun = now();
    note(1, -15, 100, 2);
    check("the sixth waits for room", about(now() - begun, 47) && room(1) == 0);
    osbyte(21, 5, 0);
    check("OSBYTE 21 empties a buffer", room(1) == 15);
    note(1, -15, 100, 255);
    wait(3);
    note(1, -15, 100, 1);
    wait(150);
    check("a duration of 255 does not end", room(1) == 12);
    note(0x11, -15, 100, 20);
    wait(3);
    check("a note with flush sounds at once", room(1) == 15);
    note(1, -15, 50, 1);
    note(0x11, 0, 0, 0);
    wait(8);
    check("a flush ends what waits", room(1) == 15);
    note(0x101, -15, 100, 4);
    wait(30);
    check("a note with sync waits", room(1) == 12);
    note(0x102, -15, 150, 4);
    wait(3);
    check("it begins with its other", room(1) == 15 && room(2) == 15);
    osbyte(15, 0, 0);
    for (at = 1; at < 3; ++at)
        note(0x200 + at, -15, 100, 4);
    wait(20);
    check("sync 2 waits for two others", room(1) == 12 && room(2) == 12);
    note(0x203, -15, 100, 4);
    wait(3);
    check("and begins with both", room(1) == 15 && room(2) == 15 && room(3) == 15);
    osbyte(15, 0, 0);
    osword(8, envelope);
    note(1, 1, 100, 6);
    wait(3);
    note(1, -15, 100, 1);
    check("an envelope's note ends after its duration", about(until(1, 15), 27));
    note(1, 1, 100, 2);
    wait(25);
    note(0x1001, 0, 0, 20);
    wait(3);
    note(1, -15, 100, 1);
    check("hold waits, and lets a release go on", about(until(1, 15), 97));
    osbyte(15, 0, 0);
    osbyte(211, 2, 0);
    osbyte(214, 10, 0);
    os(0xFFEE, 7, 0, 0);
    wait(3);
    os(0xFFEE, 7, 0, 0);
    check("OSBYTE 211 and 214: VDU 7's channel and duration", room(2) == 12 && about(until(2, 15), 47));
    osbyte(211, 3, 0);
    osbyte(214, 7, 0);
    osbyte(15, 0, 0);
    osbyte(210, 1, 0);
    note(1, -15, 100, 10);
    wait(3);
    note(1, -15, 100, 1);
    check("OSBYTE 210: a sound that is not heard takes its time", about(until(1, 15), 47));
    osbyte(210, 0, 0);
    ended("SOUND");
    return 0;
}
