/* Draws a line on the host's screen, with a fault that is there on purpose: it sets dots at the left
   edge, too. docs/DEBUG.md finds it. */
#define CRTC ((volatile unsigned char *)0xFE00)
#define ULA ((volatile unsigned char *)0xFE20)
#define SCREEN ((unsigned char *)0x3000)

/* Mode 4 at 3000: 320 times 256 dots, a bit for each. */
static const unsigned char registers[14] = {63, 40, 49, 0x24, 38, 0, 32, 34, 0, 7, 0x67, 8, 0x06, 0x00};

static void mode(void) {
    unsigned char at;

    for (at = 0; at < 14; ++at) {
        CRTC[0] = at;
        CRTC[1] = registers[at];
    }
    ULA[0] = 0x88;
    for (at = 0; at < 16; ++at) {
        ULA[1] = at << 4 | (at & 8 ? 0 : 7);
    }
}

static void plot(unsigned char x, unsigned char y) {
    SCREEN[(y >> 3) * 320u + (x & ~7) + (y & 7)] |= 0x80 >> (x & 7);
}

static void line(unsigned from, unsigned to, unsigned char y) {
    unsigned x;

    for (x = from; x < to; ++x) {
        plot(x, y);
    }
}

int main(void) {
    unsigned frames;

    mode();
    line(40, 272, 100);
    for (frames = 0; frames < 5000; ++frames) {
    }
    return 0;
}
