"""Programs in C that are *RUN from a disc: what they find of the calls of the ROMs of system/."""
import gzip
import os
import shutil
import subprocess

from common import TOP, Case, beebtube, call, text_of, unittest
from test_system import SECOND, screen
from test_system_dfs import BOOT, EXEC, SHIFT, disc_of, files_of, new
from test_system_dfs import started as host_alone
from test_system_tube import started as with_second

CONFORM = os.path.join(TOP, "system", "conform")
AT = 0x1900
# Programs of system/conform: what each tries on the host and on the second processor, and the
# seconds that it may take.
CALLS = {"osbyte": (60, 60, 12), "osword": (12, 12, 12), "vdu": (35, 35, 12), "files": (30, 30, 12),
    "oscli": (34, 34, 20), "events": (19, 17, 8), "entries": (24, 17, 8), "sound": (18, 18, 20),
    "keys": (39, 39, 39)}
# What keys.c waits for: a second each, with SHIFT and CTRL for those after them.
PRESSES = ("A", "A", "A", "SHIFT CTRL A", "f1", "f1", "SHIFT f1", "CTRL f1", "left", "left", "A",
    "A", "TAB", "ESCAPE", "ESCAPE", "Q")
KEYS = beebtube.pressed((0, "SHIFT", 3 * SECOND), *(
    (int((6 + 2 * number + 0.2 * at) * SECOND), name, int((1 - 0.2 * at) * SECOND))
    for number, names in enumerate(PRESSES) for at, name in enumerate(names.split())))


def built(folder, *sources):
    """The file PROG of a disc, of sources in C and for ca65."""
    out = os.path.join(folder, "PROG")
    done = call([os.path.join(TOP, "examples", "c", "build"), "--disc", out, *sources], folder)
    if done.status or done.err:
        raise AssertionError(done.err)
    return new("PROG", text_of(out), AT, AT)


def disc_with(folder, source, command):
    """A disc that runs a source in C by a command."""
    return disc_of(built(folder, source), new(BOOT, command + b"\r"), option=EXEC)


def samples():
    """The folder of cc65's samples, which its package has beside its targets."""
    target = subprocess.run(["cl65", "--print-target-path"], stdout=subprocess.PIPE, check=True)
    return os.path.join(os.path.dirname(target.stdout.decode().strip()), "samples")


def conformance(folder, name):
    """The disc of a program of system/conform."""
    return disc_with(folder, os.path.join(CONFORM, name + ".c"), b"*PROG one TWO")


def told(name, tried):
    """The last lines of the screen after a program of system/conform."""
    return ["%s: %u tried, 0 failed" % (name.upper(), tried), ">"]


@unittest.skipUnless(shutil.which("cc65"), "not installed: cc65 (Debian package cc65)")
class OnBoth(Case):
    def test_the_calls(self):
        """Each group of calls, as the Advanced User Guide has them."""
        for name, (host, second, seconds) in CALLS.items():
            disc, keys = conformance(self.folder, name), KEYS if name == "keys" else SHIFT
            for run, tried in ((host_alone, host), (with_second, second)):
                with self.subTest(name=name, run=run):
                    self.assertEqual(screen(run(seconds, keys, disc0=disc))[-2:],
                        told(name, tried))

    def test_console_and_arguments(self):
        with open(self.at("own.c"), "w") as file:
            file.write("""#include <conio.h>
#include <stdio.h>
#include <stdlib.h>
char line[20];
int main(int argc, char* argv[]) {
    char c = cgetc();
    fgets(line, sizeof line, stdin);
    cprintf("%d %s %c %s", argc, argv[argc - 1], c, line);
    cputs("there\\r\\n");
    exit(0);
}
""")
        disc = disc_with(self.folder, self.at("own.c"), b"*PROG last\rQab")
        for run in (host_alone, with_second):
            self.assertEqual(screen(run(4, SHIFT, disc0=disc))[-5:], [">*PROG last", "ab",
                "2 last Q ab", " " * 11 + "there", ">"])

    def test_conio_and_the_clock(self):
        with open(self.at("own.c"), "w") as file:
            file.write("""#include "disc.h"
#include <conio.h>
#include <stdio.h>
#include <time.h>
unsigned char x, y, one, two, three;
clock_t before;
static void seen(unsigned char x, unsigned char y) {
    unsigned char c;
    gotoxy(x, y);
    __A__ = 135;
    asm("jsr $fff4");
    asm("txa");
    c = __A__;
    gotox(20 + x);
    cputc(c);
}
int main(void) {
    before = clock();
    while (clock() - before < CLOCKS_PER_SEC / 10)
        ;
    clrscr();
    screensize(&x, &y);
    one = textcolor(COLOR_RED);
    two = textcolor(COLOR_WHITE) + 10 * bgcolor(COLOR_BLUE) + bordercolor(3);
    three = revers(1) + 10 * revers(0) + bgcolor(COLOR_BLACK);
    printf("%d %d %d %d %d\\n", x, y, one, two, three);
    cvlinexy(1, 2, 2);
    chlinexy(2, 2, 3);
    cclearxy(3, 2, 1);
    chline(0);
    gotoy(3);
    cputc('B');
    for (x = 1; x < 6; ++x) {
        seen(x, 2);
        seen(x, 3);
    }
    gotoxy(0, 5);
    return 0;
}
""")
        disc = disc_with(self.folder, self.at("own.c"), b"*PROG")
        for run in (host_alone, with_second):
            with self.subTest(run=run):
                self.assertEqual(screen(run(5, SHIFT, disc0=disc)), ["40 25 7 1 14",
                    " ‖- -                ‖- -", " ‖  B                ‖  B", ">"])

    def test_colours(self):
        """Mode 1, red on green and reversed: F0 and 0F are colours 2 and 1 of all four dots."""
        with open(self.at("own.c"), "w") as file:
            file.write("""#include "disc.h"
#include <conio.h>
int main(void) {
    cputc(22);
    cputc(1);
    textcolor(COLOR_RED);
    bgcolor(COLOR_GREEN);
    revers(1);
    return 0;
}
""")
        disc = disc_with(self.folder, self.at("own.c"), b"*PROG")
        for run in (host_alone, with_second):
            with self.subTest(run=run):
                self.assertEqual(run(5, SHIFT, disc0=disc).host[0x357:0x359], b"\xF0\x0F")

    def test_samples_of_cc65(self):
        """Programs of others. gunzip65 gets a smaller buffer, since its own fills all memory."""
        text = b"".join(b"line %d\r" % number for number in range(500))
        for name, change, typed, shown in (
                ("hello.c", (), "", ["Hello world!"]),
                ("ascii.c", (), "AbQ", ["A=$41 b=$62 Q=$51", ">"]),
                ("sieve.c", (), " Q", ["  79", "  83", "Q to quit, any other key continues", ">"]),
                ("gunzip65.c", (b"26000", b"14000"), "GZ\rTEXT\r", ["Ok.", ">"]),
                (os.path.join("tutorial", "hello.c"), (), "", ["Hello world!", ">"])):
            source = self.at(os.path.basename(name))
            original = os.path.join(samples(), name)
            with open(source, "wb") as file:
                file.write(b'#include "disc.h"\n' + (text_of(original).replace(*change) if change
                    else text_of(original)))
            more = [os.path.join(os.path.dirname(original), "text.s")] * ("tutorial" in name)
            disc = disc_of(built(self.folder, source, *more), new("GZ", gzip.compress(text)),
                new(BOOT, ("*PROG\r" + typed).encode()), option=EXEC)
            for run in (host_alone, with_second):
                with self.subTest(name=name, run=run):
                    after = run(14, SHIFT, disc0=disc)
                    lines = [line.strip("| ‖") for line in screen(after)]
                    if name == "hello.c":
                        lines = [line for line in lines if line.strip("-+")]
                    self.assertEqual(lines[-len(shown) :], [line.strip() for line in shown])
                    if "TEXT" in typed:
                        self.assertEqual(files_of(after.discs[0])["$.TEXT"], text)


if __name__ == "__main__":
    unittest.main()
