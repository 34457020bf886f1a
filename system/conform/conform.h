/* Programs that try the operating system's calls as the Advanced User Guide has them, on either processor. Each prints
** last what does not hold, and how much was tried. */
#include <6502.h>
#include <conio.h>
#include <setjmp.h>
#include <stdio.h>
#include <string.h>

#pragma warn (unused-var, off)

static struct regs r;
static unsigned tried, failed;
static const char* wrong[9];

/* A call of the system: its answers are in r. */
static void os(unsigned entry, unsigned char a, unsigned char x, unsigned char y)
{
    r.pc = entry;
    r.a = a;
    r.x = x;
    r.y = y;
    r.flags = 0;
    _sys(&r);
}
#define osbyte(a, x, y) os(0xFFF4, a, x, y)
#define with(entry, a, block) os(entry, a, (unsigned)(block) & 255, (unsigned)(block) >> 8)
#define osword(a, block) with(0xFFF1, a, block)
#define oscli(text) with(0xFFF7, 0, text "\r")
#define carry (r.flags & 1)

/* Codes to OSWRCH. A mode's screen may have the memory of the C stack, so nothing is in it meanwhile. */
static void codes(const char* those, unsigned char count)
{
    static const char* code;
    static unsigned char left;

    code = those;
    for (left = count; left; --left)
        os(0xFFEE, *code++, 0, 0);
}
static void check(const char* what, int holds)
{
    ++tried;
    if (!holds && failed < 9)
        wrong[failed] = what;
    failed += !holds;
}
static void ended(const char* name)
{
    unsigned at;

    for (at = 0; at < failed && at < 9; ++at)
        printf("not so: %s\n", wrong[at]);
    printf("%s: %u tried, %u failed\n", name, tried, failed);
}

/* OSBYTE a with Y = 255 and X = 0 reads a variable. */
#define variable(a) (osbyte(a, 0, 255), r.x)

/* TIME, in hundredths of a second. */
static unsigned now(void)
{
    static unsigned char clock[5];

    osword(1, clock);
    return *(unsigned*)clock;
}

/* Errors of the system, taken by BRKV: error(call) is the number of the error, or 0 without one. */
static jmp_buf before_error;
static unsigned brkv;
#define BRKV (*(unsigned*)0x202)

static void broken(void)
{
    longjmp(before_error, 1);
}
static void take_errors(void)
{
    brkv = BRKV;
    BRKV = (unsigned)broken;
}
#define leave_errors() (BRKV = brkv)
#define error(call) (setjmp(before_error) ? **(unsigned char**)0xFD : ((void)(call), 0))
