/* A script presses the keys, each for a second: it is the list of PRESSES in tools/tests/test_system_c.py. */
#include "conform.h"

/* INKEY of a negative number. */
static unsigned char down(int key)
{
    osbyte(129, key & 255, 255);
    return r.x == 255 && r.y == 255;
}
/* Waits until a key is down, or up, ten seconds at most. */
static unsigned char until(int key, unsigned char how)
{
    unsigned begun = now();

    while (down(key) != how)
        if (now() - begun > 1000)
            return 0;
    return 1;
}
static unsigned char held(void)
{
    osbyte(128, 255, 255);
    return r.x;
}
/* The next character, with carry set if ESCAPE or four seconds end the wait. */
static unsigned char key(void)
{
    osbyte(129, 400 & 255, 400 >> 8);
    return r.x;
}
/* How many characters a key leaves that is held for a second. */
static unsigned char pressed(int key)
{
    unsigned char is_there;

    osbyte(21, 0, 0);
    is_there = until(key, 1) && until(key, 0);
    return is_there ? held() : 255;
}
#define A -66
#define SHIFT -1
#define CTRL -2

int main(void)
{
    unsigned char count;
    unsigned begun;

    osbyte(12, 0, 0);
    osbyte(21, 0, 0);
    check("129: the key A goes down", until(A, 1));
    check("129: SHIFT is up", !down(SHIFT));
    osbyte(121, 0xC1, 0);
    check("121: that key", r.x >= 0x80);
    osbyte(121, 0xC2, 0);
    check("121: another key", r.x < 0x80);
    osbyte(121, 0, 0);
    check("121: the first key from 0", r.x == 0x41);
    osbyte(121, 0x42, 0);
    check("121: none after it", r.x == 255);
    osbyte(122, 0, 0);
    check("122: the first key from 16", r.x == 0x41);
    check("129: its character", key() == 'A' && !carry && r.y == 0);
    until(A, 0);
    count = held();
    check("it repeats: 50 and 8 hundredths", count >= 6 && count <= 7);
    osbyte(122, 0, 0);
    check("122: no key", r.x == 255);
    osbyte(11, 20, 0);
    check("11 gives the delay before", r.x == 50);
    osbyte(12, 10, 0);
    check("12 gives the period before", r.x == 8);
    count = pressed(A);
    check("it repeats: 20 and 10", count >= 9 && count <= 10);
    osbyte(11, 0, 0);
    check("11 with 0: no repeats", pressed(A) == 1);
    osbyte(12, 0, 0);
    osbyte(21, 0, 0);
    until(SHIFT, 1);
    check("129: SHIFT and CTRL", until(CTRL, 1) && down(SHIFT));
    until(A, 1);
    osbyte(121, 0, 0);
    check("121: SHIFT is the key 0", r.x == 0);
    osbyte(122, 0, 0);
    check("122: without SHIFT and CTRL", r.x == 0x41);
    check("CTRL+A is 1", key() == 1);
    until(A, 0);
    oscli("KEY 1 xY|M");
    osbyte(11, 0, 0);
    osbyte(21, 0, 0);
    check("a function key's text", key() == 'x');
    check("216: how much of it is left", variable(216) == 2);
    check("the rest of it", key() == 'Y' && key() == 13);
    osbyte(225, 0x90, 0);
    check("225: a code for it", key() == 0x91);
    osbyte(225, 1, 0);
    check("226: SHIFT gives 80 and up", key() == 0x81);
    check("227: CTRL gives 90 and up", key() == 0x91);
    osbyte(4, 1, 0);
    check("4 with 1: a cursor key's code", key() == 136);
    oscli("KEY 12 z");
    osbyte(4, 2, 0);
    check("4 with 2: it is a function key", key() == 'z');
    osbyte(4, 0, 0);
    osbyte(201, 1, 0);
    check("201: the keyboard is off", pressed(A) == 0);
    osbyte(201, 0, 0);
    check("202: CAPS LOCK is on", (variable(202) & 0x30) == 0x20);
    osbyte(202, 0x30, 0);
    check("202: without locks", key() == 'a');
    osbyte(202, 0x20, 0);
    osbyte(219, '!', 0);
    check("219: what TAB gives", key() == '!');
    osbyte(219, 9, 0);
    begun = now();
    osbyte(129, 20, 0);
    check("129: no key in its time", carry && r.y == 255 && now() - begun >= 19 && now() - begun <= 24);
    while (!(*(unsigned char*)0xFF & 0x80) && now() - begun < 400)
        ;
    os(0xFFE0, 0, 0, 0);
    check("ESCAPE: OSRDCH gives 27 with C set", r.a == 27 && carry);
    osbyte(129, 100, 0);
    check("ESCAPE: 129 gives 27 with C set", r.y == 27 && carry);
    osbyte(126, 0, 0);
    check("126 takes it", r.x == 255 && !(*(unsigned char*)0xFF & 0x80));
    osbyte(229, 1, 0);
    check("229: ESCAPE is a character", key() == 27 && !carry);
    osbyte(229, 0, 0);
    osbyte(220, 'Q', 0);
    key();
    check("220: Q is ESCAPE", r.y == 27 && carry);
    osbyte(126, 0, 0);
    osbyte(220, 27, 0);
    oscli("KEY 1 kept");
    osbyte(230, 1, 0);
    osbyte(138, 0, 'w');
    osbyte(125, 0, 0);
    osbyte(126, 0, 0);
    check("230: buffers stay at ESCAPE", held() == 1);
    osbyte(230, 0, 0);
    osbyte(125, 0, 0);
    osbyte(126, 0, 0);
    check("126 flushes buffers", held() == 0);
    osbyte(125, 0, 0);
    osbyte(124, 0, 0);
    osbyte(126, 0, 0);
    check("124 drops it", r.x == 0);
    osbyte(12, 0, 0);
    ended("KEYS");
    return 0;
}
