#include "conform.h"

/* LDX user_flag: LDA #1: LDY #0: JMP OSBYTE */
static unsigned char code[] = { 0xA2, 77, 0xA9, 1, 0xA0, 0, 0x4C, 0xF4, 0xFF }, back[sizeof code];
static char line[60], made[60];

static void command(const char* text)
{
    strcpy(line, text);
    strcat(line, "\r");
    with(0xFFF7, 0, line);
}
/* A command that sets the user flag, which is 0 before. */
static unsigned char flag(const char* text)
{
    osbyte(1, 0, 0);
    command(text);
    return variable(241);
}
static unsigned char key(void)
{
    os(0xFFE0, 0, 0, 0);
    return r.a;
}
static unsigned char row(void)
{
    osbyte(134, 0, 0);
    return r.y;
}

int main(void)
{
    unsigned char at;

    take_errors();
    check("*FX 1,7", flag("FX 1,7") == 7);
    check("*FX with spaces for commas", flag("FX 1 8") == 8);
    check("*FX without a space", flag("FX1,9") == 9);
    check("small letters", flag("fx 1,10") == 10);
    check("stars and spaces before a command", flag(" ** FX 1,11") == 11);
    check("*FX with one number", flag("FX 1") == 0);
    check("*F. is short for *FX", flag("F. 1,12") == 12);
    check("a comment", flag("|FX 1,13") == 0);
    check("an empty line", error(command("")) == 0 && error(command("*")) == 0);
    check("254: *FX without a number", error(command("FX")) == 254);
    check("254: *FX with a number above 255", error(command("FX 1,256")) == 254);
    check("254: no command", error(command("NOSUCH")) == 254);
    check("252: an address with another letter", error(command("LOAD X 12G")) == 252);
    check("252: *SAVE without addresses", error(command("SAVE X")) == 252);
    check("251: key 16", error(command("KEY 16 x")) == 251);
    check("251: *KEY without a number", error(command("KEY")) == 251);
    check("253: a quote that does not end", error(command("KEY 1 \"a")) == 253);
    command("KEY 1 Ab|A|!a|?||\"|M");
    osbyte(138, 0, 0x81);
    for (at = 0; at < 8; ++at)
        back[at] = key();
    check("*KEY's codes", !memcmp(back, "Ab\1\xE1\x7F|\"\r", 8));
    command("KEY 1 \" a \"");
    osbyte(138, 0, 0x81);
    check("*KEY with quotes", key() == ' ' && key() == 'a' && key() == ' ');
    command("KEY 1 ab");
    osbyte(138, 0, 0x81);
    check("250: a key in use", key() == 'a' && error(command("KEY 1 c")) == 250);
    osbyte(21, 0, 0);
    command("KEY 2 xy");
    command("KEY 1");
    osbyte(138, 0, 0x81);
    osbyte(138, 0, 0x82);
    check("*KEY 1 is empty, and key 2 as it was", key() == 'x' && key() == 'y');
    osbyte(18, 0, 0);
    osbyte(138, 0, 0x82);
    osbyte(138, 0, 'z');
    check("OSBYTE 18 clears the keys", key() == 'z');
    command("TV 255,1");
    osbyte(144, 0, 0);
    check("*TV is OSBYTE 144", r.x == 255 && r.y == 1);
    check("*OPT 1 and *MOTOR", error(command("OPT 1,0")) == 0 && error(command("MOTOR 0")) == 0);
    os(0xFFEE, 12, 0, 0);
    command("HELP");
    check("*HELP prints", row() > 1);
    os(0xFFEE, 12, 0, 0);
    command(".");
    check("*. is *CAT, and prints", row() > 1);
    sprintf(made, "SAVE MADE %04X +9 %04X %04X", (unsigned)code, (unsigned)code, (unsigned)code);
    command(made);
    sprintf(made, "LOAD MADE %04X", (unsigned)back);
    command(made);
    check("*SAVE and *LOAD", !memcmp(code, back, 9));
    check("*RUN, */ and the name alone", flag("RUN MADE") == 77 && flag("/MADE") == 77 && flag("MADE") == 77);
    check("214: no file", error(command("LOAD NONE")) == 214 && error(command("EXEC NONE")) == 214);
    command("SPOOL TEXT");
    osbyte(125, 0, 0);
    osbyte(126, 0, 0);
    check("126 leaves a *SPOOL file open", variable(199) != 0);
    printf("kept");
    command("SPOOL");
    printf("not");
    command("EXEC TEXT");
    check("*SPOOL and *EXEC", key() == 'k' && key() == 'e' && key() == 'p' && key() == 't');
    command("EXEC TEXT");
    osbyte(129, 100, 0);
    check("OSBYTE 129 reads the *EXEC file", r.x == 'k' && !carry);
    command("EXEC");
    check("*EXEC without a name ends it", variable(198) == 0);
    command("EXEC TEXT");
    osbyte(125, 0, 0);
    osbyte(126, 0, 0);
    check("126 ends *EXEC", variable(198) == 0);
    command("DELETE TEXT");
    command("DELETE MADE");
    leave_errors();
    os(0xFFEE, 12, 0, 0);
    ended("OSCLI");
    return 0;
}
