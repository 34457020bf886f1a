"""Programs as programs of the shell: what comes out, how they end, and what is refused."""
import os
import re
import shutil
import signal
import subprocess
import sys

from common import EXAMPLES, TOP, Case, beebtube, call, put, text_of, unittest, wait_until

from beebtube.disc import Disc

BUILT = os.path.join(EXAMPLES, "c", "built")
EXECUTE = os.path.join(TOP, "tools", "execute")

_knows = []


# The program runs a host without a Tube.
def knows_no_tube():
    if not _knows:
        done = beebtube.Program().call(["replay", "host", "/dev/null", "1", "/dev/null", "--no-tube", "--os", "/dev/null"])
        _knows.append(done.status != 1)
    return _knows[0]


needs_no_tube = unittest.skipUnless(knows_no_tube(), "this program knows no --no-tube")


class Execute(Case):
    def asm(self, name, text, part="6502"):
        """The name of a raw image in the folder."""
        return put(self.at(name), beebtube.asm(part, text.encode())) and name

    def sim65(self, name, text, cpu=0, load=0x0200, entry=0x0200, version=2, place=0):
        """A program in sim65's file format."""
        data = beebtube.asm("6502", ("org &%04X\n" % load + text).encode())
        put(self.at(name), b"sim65" + bytes([version, cpu, place]) + load.to_bytes(2, "little") + entry.to_bytes(2, "little") + data)
        return name

    def built(self, name, *words, **how):
        return self.tool("execute", os.path.join(BUILT, name), *words, **how)

    def fed(self, file, name):
        """The status and the output of a built program, with a file as its input."""
        done = subprocess.run([EXECUTE, os.path.join(BUILT, name)], cwd=self.folder, stdin=file, stdout=subprocess.PIPE, timeout=300)
        return done.returncode, done.stdout

    def raw(self, text, *words, at="0800", part="6502", **how):
        return self.tool("execute", "--at", at, *words, self.asm("program", "org &%s\n" % at + text, part), **how)


class Running(Execute):
    def test_what_is_written_comes_out_as_it_was(self):
        # All bytes, twice each.
        done = subprocess.run([EXECUTE, "--at", "0800", self.asm("all", "org &0800\nLDX #0\nmore: TXA\nJSR &FFEE\nJSR &FFEE\nINX\nBNE more\nTXA\nRTS\n")],
                              cwd=self.folder, stdin=subprocess.DEVNULL, stdout=subprocess.PIPE, stderr=subprocess.PIPE)
        self.assertEqual((done.returncode, done.stdout, done.stderr), (0, bytes(it // 2 for it in range(512)), b""))

    def test_both_outputs_and_the_arguments(self):
        done = self.built("hello", "one", "two words", "", "é")
        self.assertEqual(done.out, "Hello from C: -1 65535 left | BEEF 1234567890\nargument 1 is one\nargument 2 is two words\nargument 3 is \nargument 4 is é\n")
        self.assertEqual(done.err, "and this is an error's text\n")

    def test_the_status_is_the_programs(self):
        for status in (0, 1, 2, 3, 42, 124, 255):
            self.raw("LDA #%d\nRTS\n" % status, status=status, stderr=subprocess.DEVNULL)
        self.raw("LDA #9\nJSR deep\ndeep: JMP &F803\n", status=9, stderr=subprocess.DEVNULL)
        self.built("three", status=3, stderr=subprocess.DEVNULL)

    def test_all_speeds_give_the_same(self):
        self.assertEqual(self.built("sieve").out, self.tool("execute", "--speed", "4", os.path.join(BUILT, "sieve")).out)

    def test_options_behind_the_program_are_its_own(self):
        self.assertIn("argument 1 is --limit\n", self.built("hello", "--limit", "--help").out)
        self.assertIn("argument 1 is --\nargument 2 is -x\n", self.tool("execute", "--speed=4", "--", os.path.join(BUILT, "hello"), "--", "-x").out)

    def test_input_from_a_file_and_from_a_pipe(self):
        put(self.at("text"), b"one\ntwo\nthree")
        with open(self.at("text"), "rb") as text:
            self.assertEqual(self.fed(text, "upper"), (2, b"ONE\nTWO\nTHREE"))
        self.assertEqual(self.built("upper", stdin=b"one\ntwo\nthree", status=2).out, "ONE\nTWO\nTHREE")
        self.assertEqual(self.built("upper", stdin=b"").out, "")

    def test_long_input(self):
        # Through the end of a slot and more; all bytes of it arrive.
        data = bytes((at * 7 + at // 256) % 256 for at in range(40000))
        put(self.at("data"), data)
        program = self.asm("copy", "org &0800\nmore: JSR &FFE0\nBCS end\nJSR &FFEE\nJMP more\nend: LDA #0\nRTS\n")
        for how in ("%s --at 0800 %s <data", "cat data | %s --at 0800 %s"):
            done = subprocess.run(how % (EXECUTE, program), cwd=self.folder, shell=True, stdout=subprocess.PIPE, timeout=300)
            self.assertEqual(done.returncode, 0)
            self.assertTrue(done.stdout == data, "%d bytes came" % len(done.stdout))

    def test_what_is_not_read_of_a_file_stays(self):
        put(self.at("text"), b"abcdef")
        program = self.asm("two", "org &0800\nJSR &FFE0\nJSR &FFEE\nJSR &FFE0\nJSR &FFEE\nLDA #0\nRTS\n")
        with open(self.at("text"), "rb") as text:
            done = subprocess.run("%s --at 0800 %s; echo; cat" % (EXECUTE, program), cwd=self.folder, shell=True, stdin=text, stdout=subprocess.PIPE)
        self.assertEqual(done.stdout, b"ab\ncdef")
        # One that was not even loaded within its limit takes nothing.
        with open(self.at("text"), "rb") as text:
            done = subprocess.run("%s --limit 0.001 --at 0800 %s; cat" % (EXECUTE, program), cwd=self.folder, shell=True, stdin=text, stdout=subprocess.PIPE,
                                  stderr=subprocess.DEVNULL)
        self.assertEqual(done.stdout, b"abcdef")

    def test_a_program_that_reads_nothing_waits_for_nobody(self):
        reads, writes = os.pipe()
        try:
            with os.fdopen(reads) as never:
                self.assertEqual(self.fed(never, "three"), (3, b""))
        finally:
            os.close(writes)

    def test_input_that_is_closed_is_missed_where_it_is_wanted(self):
        for program, status in (("three", 3), ("upper", 125)):
            done = subprocess.run("%s %s <&-" % (EXECUTE, os.path.join(BUILT, program)), shell=True, stdout=subprocess.PIPE, stderr=subprocess.PIPE)
            self.assertEqual(done.returncode, status)
        self.assertEqual(done.stderr, b"execute: cannot read -\n")

    def test_input_without_end(self):
        done = subprocess.run("%s %s </dev/zero" % (EXECUTE, os.path.join(BUILT, "upper")), shell=True, stdout=subprocess.PIPE, stderr=subprocess.PIPE)
        self.assertEqual((done.returncode, done.stderr), (125, b"execute: too long -: it has more than 262,144 bytes\n"))

    def test_calls_of_the_operating_system(self):
        # OSASCI, OSNEWL, OSBPUT to both, OSBYTE 82 to 84, and OSBGET at the end.
        text = """
        LDA #65
        JSR &FFE3
        LDA #13
        JSR &FFE3
        JSR &FFE7
        LDY #1
        LDA #66
        JSR &FFD4
        LDY #2
        LDA #67
        JSR &FFD4
        LDA #&83
        JSR &FFF4
        TYA
        JSR &FFEE
        TXA
        JSR &FFEE
        LDA #&84
        JSR &FFF4
        TYA
        JSR &FFEE
        LDX #9
        LDA #1
        JSR &FFF4
        TXA
        JSR &FFEE
        LDY #0
        JSR &FFD7
        BCC none
        JSR &FFEE
none:   LDA #0
        RTS
"""
        program = self.asm("calls", "org &0900\n" + text)
        done = subprocess.run([EXECUTE, "--at", "0900", program], cwd=self.folder, stdin=subprocess.DEVNULL, stdout=subprocess.PIPE, stderr=subprocess.PIPE)
        self.assertEqual((done.returncode, done.stdout, done.stderr), (0, b"A\n\r\n\rB\x08\x00\xf8\x09\xff", b"C"))

    def test_a_line_by_osword(self):
        # A line of at most 5 letters, its length, and C at the end of the input.
        text = """
loop:   LDX #<block
        LDY #>block
        LDA #0
        JSR &FFF1
        BCS end
        TYA
        JSR &FFEE
        LDX #0
put:    LDA &0700,X
        JSR &FFEE
        INX
        CMP #13
        BNE put
        BEQ loop
end:    LDA #7
        RTS
block:  byte 0,7,5,32,126
"""
        self.assertEqual(self.raw(text, stdin=b"ab\n\nlonger\nlast", status=7, stdout=subprocess.PIPE, stderr=subprocess.DEVNULL).out, "\x02ab\r\x00\r\x05longe\r\x04last\r")

    def test_registers_and_memory_at_the_start(self):
        # The sum of all that a program may use but itself, and what is on the stack.
        text = """
        PHP
        PHA
        TYA
        PHA
        TXA
        PHA
        LDA #0
        STA &00
        LDA #2
        STA &01
        LDX #0
        LDY #0
page:   TXA
        ORA (&00),Y
        TAX
        INY
        BNE page
        INC &01
        LDA &01
        CMP #&F7
        BNE page
        TXA
        JSR &FFEE
        PLA
        JSR &FFEE
        PLA
        JSR &FFEE
        PLA
        JSR &FFEE
        PLA
        TSX
        TXA
        JSR &FFEE
        LDA #0
        RTS
"""
        done = subprocess.run([EXECUTE, "--at", "F700", self.asm("start", "org &F700\n" + text)], cwd=self.folder, stdin=subprocess.DEVNULL, stdout=subprocess.PIPE)
        self.assertEqual((done.returncode, done.stdout), (0, b"\x00\x00\x00\x80\xfd"))

    def test_the_boot_rom_is_copied_before_the_first_access(self):
        self.tool("execute", "--trace", "trace", os.path.join(BUILT, "three"), status=3, stderr=subprocess.DEVNULL)
        first = next(it for it in beebtube.Trace(self.at("trace")) if it.side == "P" and it.way == "W")
        before = [it for it in beebtube.Trace(self.at("trace")) if it.side == "P" and it.tick < first.tick]
        self.assertEqual((first.register, first.byte, [it.register for it in before]), (1, 0, [0]))

    def test_time_is_that_of_the_program(self):
        for speed in ("3", "4"):
            self.assertIn("execute: 8 cycles, ", self.raw("LDA #0\nRTS\n", "--time", "--speed", speed).err)
            self.assertIn("execute: 15 cycles, ", self.raw("LDX #1\nINC &70\nLDA #0\nRTS\n", "--time", "--speed", speed).err)

    def test_time_of_one_whose_status_is_that_of_the_last_call(self):
        self.assertIn("execute: 8 cycles, ", self.raw("LDA #&18\nRTS\n", "--time", status=0x18).err)

    def test_two_programs(self):
        done = self.tool("execute", "--both", os.path.join(BUILT, "asks-host"), os.path.join(BUILT, "answers"))
        self.assertEqual(done.out.splitlines()[2:], ["the root of 144 is 12", "the root of 1000 is 31", "the root of 65535 is 255"])

    def test_a_hosts_program_that_serves_the_other(self):
        host = self.asm("serves", "org &0900\nLDA #72\nJSR &FFEE\nloop: JSR &C006\nJMP loop\n")
        second = self.asm("served", "org &0800\nLDA #83\nJSR &FFEE\nJSR &FFE0\nJSR &FFEE\nLDA #5\nRTS\n")
        done = self.tool("execute", "--both", host, "--host-at", "0900", "--at", "0800", second, stdin=b"x", status=5, stderr=subprocess.DEVNULL)
        self.assertEqual(done.out, "HSx")


class Sim65(Execute):
    # The C stack's pointer at 00 begins at F000; `push` puts AX there. Writes, reads, closes, and ends with 6.
    TEXT = """
        LDA #0
        STA &00
        LDA #&F0
        STA &01
        LDA #<argv
        LDX #>argv
        JSR &FFF8           ; args
        ORA #48
        JSR letter
        LDA argv
        STA &10
        LDA argv+1
        STA &11
        LDY #2              ; the second argument's first letter
        LDA (&10),Y
        STA &12
        INY
        LDA (&10),Y
        STA &13
        LDY #0
        LDA (&12),Y
        JSR letter
        LDA #0              ; read(0, given, 1)
        LDX #0
        JSR push
        LDA #<given
        LDX #>given
        JSR push
        LDA #1
        LDX #0
        JSR &FFF6
        ORA #48
        JSR letter
        LDA given
        JSR letter
        LDY #4              ; open of two parameters takes them off
        LDA &00
        STA &14
        JSR push
        JSR push
        LDY #4
        JSR &FFF4
        CMP #&FF
        BNE bad
        LDA &00
        CMP &14
        BNE bad
        LDA #1
        LDX #0
        JSR &FFF5           ; close(1)
        CMP #0
        BNE bad
        LDA #6
        JMP &FFF9
bad:    LDA #99
        JMP &FFF9
letter: STA byte_
        LDA #1
        LDX #0
        JSR push
        LDA #<byte_
        LDX #>byte_
        JSR push
        LDA #1
        LDX #0
        JMP &FFF7
push:   PHA
        SEC
        LDA &00
        SBC #2
        STA &00
        LDA &01
        SBC #0
        STA &01
        LDY #1
        TXA
        STA (&00),Y
        DEY
        PLA
        STA (&00),Y
        RTS
argv:   word 0
byte_:  byte 0
given:  byte 0
"""

    def test_both_processors(self):
        for cpu in (0, 1):
            done = self.tool("execute", self.sim65("sim", self.TEXT, cpu), "Zed", stdin=b"r", status=6, stderr=subprocess.DEVNULL)
            self.assertEqual(done.out, "2Z1r")

    @needs_no_tube
    def test_on_the_host(self):
        done = self.tool("execute", "--host", self.sim65("sim", self.TEXT.replace("&F0", "&70")), "Zed", stdin=b"r", status=6, stderr=subprocess.DEVNULL)
        self.assertEqual(done.out, "2Z1r")

    def test_the_stack_of_its_start_up_code_is_put_below_the_registers(self):
        # As cc65's crt0 begins; what is pushed at FFEF would be lost.
        start = "CLD\nLDX #&FF\nTXS\nLDA #&F0\nLDX #&FF\nSTA &00\nSTX &01\nLDA &01\nJSR &FFF9\n"
        self.tool("execute", self.sim65("sim", start), status=0xF8, stderr=subprocess.DEVNULL)

    def test_what_is_no_such_program(self):
        self.assertIn("version 2", self.tool("execute", self.sim65("old", "RTS\n", version=1), status=125).err)
        self.assertIn("byte 6 of its header is 07", self.tool("execute", self.sim65("cpu", "RTS\n" * 20, cpu=7), status=125).err)
        self.assertIn("begins at 0100", self.tool("execute", self.sim65("entry", "RTS\n" * 20, entry=0x100), status=125).err)
        put(self.at("short"), b"sim65\2")
        self.tool("execute", "short", status=125)

    def test_a_brk_that_is_none_of_its_calls(self):
        done = self.tool("execute", self.sim65("brk", "NOP\nBRK\n"), status=134)
        self.assertEqual(done.err, "execute: brk ended by a BRK at 0201\n")


class Ends(Execute):
    def test_one_that_never_ends(self):
        done = self.raw("here: JMP here\n", "--limit", "3", status=124)
        self.assertEqual(done.err, "execute: program did not end within 3 seconds of machine time; it is at 0800\n")

    def test_what_was_written_before_the_limit_comes_out(self):
        self.assertEqual(self.raw("LDA #65\nJSR &FFEE\nhere: JMP here\n", "--limit", "0.5", status=124).out, "A")

    def test_one_that_ends_behind_several_doublings(self):
        # Some 4.3 seconds.
        text = "LDA #50\nSTA &70\nl: LDX #0\nm: LDY #0\nn: DEY\nBNE n\nDEX\nBNE m\nDEC &70\nBNE l\nLDA #8\nRTS\n"
        self.raw(text, status=8, stderr=subprocess.DEVNULL)
        self.raw(text, "--limit", "4", status=124)

    def test_the_most_output_and_one_more(self):
        text = "LDX #0\nLDY #0\nLDA #65\nl: JSR &FFEE\nINX\nBNE l\nINY\nBNE l\n%sLDA #0\nRTS\n"
        self.assertEqual(self.raw(text % "").out, "A" * 65536)
        done = self.raw(text % "LDA #66\nJSR &FFEE\n", status=153)
        self.assertEqual((done.out, done.err), ("A" * 65536, "execute: program wrote more than 65,536 bytes: the first of them are here, and it was stopped\n"))

    def test_the_most_errors_and_one_more(self):
        text = "LDA #0\nSTA &70\nSTA &71\nl: LDA &70\nLDY #2\nJSR &FFD4\nINC &70\nBNE l\nINC &71\nBNE l\n%sLDA #0\nRTS\n"
        for more, status in (("", 0), ("LDY #2\nJSR &FFD4\n", 153)):
            done = subprocess.run([EXECUTE, "--at", "0800", self.asm("errors", "org &0800\n" + text % more)], cwd=self.folder, stdin=subprocess.DEVNULL,
                                  stdout=subprocess.PIPE, stderr=subprocess.PIPE)
            self.assertEqual((done.returncode, done.stdout), (status, b""))
            self.assertTrue(done.stderr[:65536] == bytes(range(256)) * 256)

    def test_a_brk_and_its_text(self):
        self.assertEqual(self.raw("NOP\nBRK\n", status=134).err, "execute: program ended by a BRK at 0801\n")
        done = self.raw("LDA #65\nJSR &FFEE\nBRK\nbyte 17,69,115,99,0\n", status=134)
        self.assertEqual((done.out, done.err), ("A", "execute: program ended by a BRK at 0805, error 17: Esc\n"))
        self.assertIn("no call of the operating system", self.raw("JSR &FFF7\n", status=134).err)

    def test_an_undocumented_opcode_of_the_65c02(self):
        done = self.raw("NOP\nbyte &02,0,&44,0\n", status=134)
        self.assertEqual(done.err, "execute: program ended by a BRK at 0805\nexecute: before that it met the opcode 02 at 0801, which the 65C02 does not document\n")

    def test_an_unknown_call(self):
        self.assertIn("asked for the call 77", self.raw("LDA #&77\nSTA &FEFB\nhere: JMP here\n", status=134).err)

    def test_what_is_larger_than_memory(self):
        put(self.at("most"), b"\xa9\0\x60".ljust(0xF800 - 0x0200, b"\0"))
        self.tool("execute", "--at", "0200", "most")
        put(self.at("more"), b"\xa9\0\x60".ljust(0xF801 - 0x0200, b"\0"))
        self.assertEqual(self.tool("execute", "--at", "0200", "more", status=125).err,
                         "execute: more is larger than memory: 62,977 bytes from 0200 on; programs have 0200 to F7FF\n")
        self.assertIn("larger than memory", self.tool("execute", "--at", "0100", "most", status=125).err)
        put(self.at("huge"), length=2000000)
        self.assertIn("too long huge", self.tool("execute", "--at", "0200", "huge", status=125).err)

    def test_a_program_at_the_end_of_memory(self):
        # Its last page is filled behind it, and the boot ROM's copy begins there.
        self.raw("LDA #4\nRTS\n", at="F7FD", status=4, stderr=subprocess.DEVNULL)

    def test_what_is_wrong_is_told_with_125(self):
        three, host = os.path.join(BUILT, "three"), os.path.join(BUILT, "hello-host")
        put(self.at("none"))
        put(self.at("text"), b"no program")
        put(self.at("cut"), b"BTP1\0")
        for words, told in (
                (["missing"], "cannot read missing"), (["--at", "0800", "none"], "none is empty"), (["text"], "--at AAAA"), (["cut"], "header"),
                ([], "program"), (["--at", "800", three], "four upper-case"), (["--start", "0800", three], "--start needs the address of a raw image"),
                (["--at", "0800", "--start", "0900", "text"], "begins at 0900"), ([host], "made for the host: --host runs it"),
                (["--host", three], "made for the second processor"), (["--cpu", "65c02", three], "made for a 6502, and --cpu says 65C02"),
                (["--host", "--cpu", "65C02", "--at", "0800", "text"], "the host has a 6502"), (["--limit", "0", three], "above 0"),
                (["--limit", "179", three], "at most 178 seconds"), (["--speed", "4", "--limit", "100", three], "at most 89 seconds"),
                (["--host", "--both", host, host], "--host runs one program"), (["--host", "--trace", "s", host], "no list of its accesses"),
                (["--shots", "s", three], "--keys names none"), (["--host-labels", "s", three], "are of the program of --both"),
                (["--save", three, three], "is not overwritten"), (["--save", "s", "--trace", "./s", three], "name one file"),
                (["--listing", "nowhere/s", three], "in no folder"), ([three, "x" * 600], "the arguments are too long"), (["--nothing", three], "--nothing")):
            self.assertIn(told, self.tool("execute", *words, status=125).err, words)
        self.assertEqual(sorted(self.names()), ["cut", "none", "text"])


class Leaves(Execute):
    def test_session_trace_and_listing(self):
        three = os.path.join(BUILT, "three")
        self.tool("execute", "--save", "session", "--trace", "trace", "--listing", "list", three, status=3, stderr=subprocess.DEVNULL)
        self.assertEqual(sorted(self.names()), ["list", "session", "trace"])
        beebtube.check(self.at("trace"))
        # At its end the host holds the second processor.
        last = list(beebtube.Trace(self.at("trace")))[-1]
        self.assertEqual((last.side, last.way, last.register, last.byte), ("H", "W", 0, 0xA0))
        lines = text_of(self.at("list")).decode().splitlines()
        self.assertRegex(lines[0], "^[0-9A-F]{10} 0200 .* CLD$")
        # The session ends where the program has: the second processor waits behind its end, and the host has stopped.
        report = beebtube.resume(text_of(self.at("session")), int.from_bytes(text_of(self.at("session"))[6:10], "big")).report
        self.assertTrue(report.host.halted)
        self.assertLess(report.ticks, 300000)
        self.assertIn("halted", self.tool("debug", "session", "-c", "where").out)

    def test_a_run_that_did_not_end_leaves_them_too(self):
        self.raw("here: JMP here\n", "--limit", "0.2", "--save", "session", "--listing", "list", status=124)
        self.assertEqual(int.from_bytes(text_of(self.at("session"))[6:10], "big"), 1200000)
        self.assertRegex(text_of(self.at("list")).decode().splitlines()[-1], " 0800 .* JMP &0800$")

    def test_nothing_is_left_where_it_is_ended(self):
        program = self.asm("never", "org &0800\nhere: JMP here\n")
        os.mkdir(self.at("own"))
        running = subprocess.Popen([EXECUTE, "--at", "0800", program], cwd=self.folder, env={**os.environ, "TMPDIR": self.at("own")},
                                   stdin=subprocess.DEVNULL, stdout=subprocess.DEVNULL, stderr=subprocess.DEVNULL)
        self.assertTrue(wait_until(lambda: os.listdir(self.at("own"))))
        running.send_signal(signal.SIGTERM)
        self.assertEqual(running.wait(300), 143)
        self.assertEqual(os.listdir(self.at("own")), [])

    def test_standard_output_that_is_full_or_closed(self):
        hello = os.path.join(BUILT, "hello")
        with open("/dev/full", "wb") as full:
            done = subprocess.run([EXECUTE, hello], stdin=subprocess.DEVNULL, stdout=full, stderr=subprocess.PIPE)
        self.assertEqual((done.returncode, done.stderr), (125, b"execute: cannot write -\n"))
        done = subprocess.run("%s %s >&-" % (EXECUTE, hello), shell=True, stdin=subprocess.DEVNULL, stderr=subprocess.PIPE)
        self.assertEqual((done.returncode, done.stderr), (125, b"execute: cannot write -\n"))
        done = subprocess.run("(sleep 2; %s %s; echo $? >status) | true" % (EXECUTE, hello), shell=True, cwd=self.folder, stdin=subprocess.DEVNULL,
                              stderr=subprocess.DEVNULL)
        self.assertEqual(text_of(self.at("status")), b"141\n")

    def test_the_help(self):
        self.assertIn("tools/execute", self.tool("execute", "--help").out)


# What a program's text is when it cannot be written: the status is what it is anyway.
class Unwritten(Execute):
    def test_a_text_that_cannot_be_written(self):
        self.asm("never", "org &0800\nhere: JMP here\n")
        self.asm("wild", "org &0800\nbyte &02,&02\n")
        for status, words in ((124, "--limit 0.5 --at 0800 never"), (134, "--at 0800 wild"), (132, "--host --at 0800 wild"), (125, "--at 0800 missing")):
            for where in ("2>/dev/full", "2>&-"):
                done = subprocess.run("%s %s </dev/null %s" % (EXECUTE, words, where), shell=True, cwd=self.folder, stdout=subprocess.DEVNULL)
                self.assertEqual(done.returncode, status, (words, where))

    def test_too_little_memory(self):
        self.asm("wild", "org &0800\nbyte &02,&02\n")
        done = subprocess.run("ulimit -v 150000; exec %s -B %s --at 0800 wild" % (sys.executable, EXECUTE), shell=True, cwd=self.folder,
                              stdin=subprocess.DEVNULL, stdout=subprocess.DEVNULL, stderr=subprocess.PIPE)
        self.assertIn(done.returncode, (125, 134), done.stderr)


class OneProcess(Execute):
    """`beebtube.execute`."""

    def test_what_comes_of_a_program(self):
        done = beebtube.execute(os.path.join(BUILT, "hello"), ["one", "two words"])
        self.assertEqual((done.status, done.out, done.err, done.text, done.ended_at), (
            0, b"Hello from C: -1 65535 left | BEEF 1234567890\nargument 1 is one\nargument 2 is two words\n", b"and this is an error's text\n", "", None))
        self.assertEqual(beebtube.execute(os.path.join(BUILT, "upper"), stdin=b"one\ntwo\n").out, b"ONE\nTWO\n")
        three = beebtube.execute(os.path.join(BUILT, "three"))
        self.assertEqual((three.status, three.cycles), (3, 239))
        self.assertRegex(three.listing, "^[0-9A-F]{10} 0200 .* CLD\n")
        report = beebtube.resume(three.session, int.from_bytes(three.session[6:10], "big")).report
        self.assertTrue(report.host.halted)
        self.assertEqual(sorted(three.registers), ["host", "para"])
        self.assertEqual([len(three.memory[side]) for side in ("host", "para")], [32768, 65536])
        folder = three._runner.folder
        three.close()
        self.assertFalse(os.path.exists(folder))

    def test_bytes_on_both_machines(self):
        seven, never = (beebtube.asm("6502", beebtube.Source("org &0800\n" + text)) for text in ("LDA #7\nRTS\n", "here: JMP here\n"))
        for how in ({}, {"host": True}, {"speed": 4}):
            done = beebtube.execute(seven, at=0x0800, **how)
            self.assertEqual((done.status, done.cycles), (7, 8), how)
        both = beebtube.execute(never, at=0x0800, both=seven, host_at=0x0800)
        self.assertEqual((both.status, both.host_cycles), (7, 8))
        # Between the first instruction and the moment at which the host holds it.
        first = both._runner.listed("para", both._whole[0], ("--at", "0800"))[0]
        held = max(it.tick for it in beebtube.Trace(both.trace) if it.line().endswith("H W 0 A0"))
        self.assertEqual(both.cycles, (held - int(first[:10], 16)) // 2)

    def test_ends_and_labels(self):
        labels = beebtube.Labels({"start": 0x0800, "loop": 0x0803})
        program = beebtube.asm("6502", beebtube.Source("org &0800\nLDA #7\nNOP\nloop: NOP\nJMP loop\n"))
        done = beebtube.execute(program, at=0x0800, limit=0.1, labels=labels)
        self.assertEqual(done.status, 124)
        self.assertRegex(done.text, r"^the program did not end within 0.1 seconds of machine time; it is at loop(\+1)? \(080[34]\)$")
        self.assertIn(done.ended_at, (0x0803, 0x0804))
        with self.assertRaisesRegex(beebtube.Fault, "there is no time"):
            done.cycles
        broken = beebtube.execute(beebtube.asm("6502", beebtube.Source("org &0800\nNOP\nBRK\n")), at=0x0800, labels=labels, host=True)
        self.assertEqual((broken.status, broken.text, broken.ended_at), (134, "the program ended by a BRK at start+1 (0801)", 0x0801))

    def test_what_cannot_be_run(self):
        three = os.path.join(BUILT, "three")
        for words, how in ((["missing"], {}), ([b"x"], {}), ([three], {"limit": 200}), ([three], {"host": True}), ([three], {"both": three}),
                           ([three], {"start": 0x0800}), ([three], {"both": three, "host": True})):
            with self.assertRaises(beebtube.Fault):
                beebtube.execute(*words, **how)
        with self.assertRaises(TypeError):
            beebtube.execute(three, nothing=1)

    def test_the_folder_makes_no_difference(self):
        os.makedirs(self.at("a/" + "long" * 20))
        places = [self.at(name) for name in ("hello", "a/%s/hello" % ("long" * 20))]
        for place in places:
            put(place, text_of(os.path.join(BUILT, "hello")))
        self.assertEqual(*(beebtube.execute(place, ["x"]).cycles for place in places))
        texts = self.tool("execute", "--at", "0800", self.asm("echo", text_of(os.path.join(EXAMPLES, "c", "echo.asm")).decode()), "x" * 500, status=1)
        self.assertEqual(texts.out, "x" * 500 + "\n")

    @needs_no_tube
    def test_keys_shots_font_and_session_on_the_host(self):
        # Waits for a key, and draws what it is into the screen of mode 7.
        text = text_of(os.path.join(EXAMPLES, "screen-os.asm")).decode()
        self.assertTrue(text)
        program = self.asm("draws", "org &0800\nLDA #&7F\nSTA &FE43\nLDA #&41\nSTA &FE4F\nloop: LDA &FE4F\nBPL loop\nSTA &70\nLDA #0\nRTS\n")
        put(self.at("script"), b"at 900000 down 41\nat 1800000 shot\nat 1900000 shot\n")
        done = self.tool("execute", "--host", "--keys", "script", "--shots", "seen", "--save", "session", "--at", "0800", program)
        self.assertEqual(sorted(it for it in self.names() if it[:4] in ("seen", "sess")), ["seen.000.png", "seen.001.png", "session"])
        self.assertEqual(done.err, "")
        api = beebtube.execute(self.at(program), host=True, at=0x0800, keys=beebtube.pressed((900000, "A", 100000)), limit=1)
        self.assertEqual((api.status, api.memory["host"][0x70], len(api.frames)), (0, 0xC1, 0))
        self.assertGreater(api.cycles, 200000)
        self.assertIn("halted", self.tool("debug", "session", "-c", "host; where").out)

    @needs_no_tube
    def test_a_host_that_looks_at_the_tube_has_no_session(self):
        done = self.raw("LDA &FEE0\nSTA &70\nLDA #0\nRTS\n", "--host", "--save", "session", status=125)
        self.assertIn("program uses the Tube's addresses", done.err)
        self.assertNotIn("session", self.names())


class Both(Execute):
    def test_the_host_has_the_arguments_and_the_listing(self):
        echo = self.asm("echo", text_of(os.path.join(EXAMPLES, "c", "echo.asm")).decode().replace("&FC", "&D2"))
        never = self.asm("never", "org &0800\nhere: JMP here\n")
        done = self.tool("execute", "--time", "--listing", "list", "--both", echo, "--host-at", "0800", "--at", "0800", never, "one", "two", status=2)
        self.assertEqual(done.out, "one\ntwo\n")
        self.assertRegex(done.err, r"\Aexecute: echo: [0-9,]+ cycles, [0-9.]+ seconds at 2 MHz\nexecute: never: [0-9,]+ cycles, [0-9.]+ seconds at 3 MHz\n\Z")
        self.assertNotIn("JMP &0800", text_of(self.at("list")).decode())

    def test_labels(self):
        put(self.at("labels"), b"al 000800 .wait\n")
        put(self.at("host-labels"), b"0800 begin\n")
        never = self.asm("never", "org &0800\nhere: JMP here\n")
        done = self.raw("here: JMP here\n", "--limit", "0.2", "--labels", "labels", status=124)
        self.assertIn("it is at wait (0800)\n", done.err)
        done = self.tool("execute", "--limit", "0.2", "--labels", "labels", "--host-labels", "host-labels", "--both", never, "--host-at", "0800",
                         "--at", "0800", never, status=124)
        self.assertIn("; the host is at begin (0800), the second processor at wait (0800)\n", done.err)


class Host(Execute):
    @needs_no_tube
    def test_output_input_and_status(self):
        done = self.tool("execute", "--host", os.path.join(BUILT, "hello-host"), "one")
        self.assertEqual(done.out, "Hello from C: -1 65535 left | BEEF 1234567890\nargument 1 is one\n")
        self.assertEqual(done.err, "and this is an error's text\n")
        copy = "more: JSR &FFE0\nBCS end\nJSR &FFEE\nJMP more\nend: LDA #0\nRTS\n"
        self.assertEqual(self.raw(copy, "--host", stdin=b"some text").out, "some text")
        self.raw("LDA #9\nJMP &C003\n", "--host", status=9, stderr=subprocess.DEVNULL)

    @needs_no_tube
    def test_there_is_no_tube(self):
        # FE at each of its addresses.
        done = subprocess.run([EXECUTE, "--host", "--at", "0800", self.asm("tube", "org &0800\nLDA &FEE0\nJSR &FFEE\nLDA &FEE1\nJSR &FFEE\nLDA #0\nSTA &FEE0\nRTS\n")],
                              cwd=self.folder, stdin=subprocess.DEVNULL, stdout=subprocess.PIPE)
        self.assertEqual((done.returncode, done.stdout), (0, b"\xfe\xfe"))

    @needs_no_tube
    def test_ends(self):
        self.assertEqual(self.raw("NOP\nbyte &02\n", "--host", status=132).err, "execute: the host stopped at 0801: the opcode 02 is none that the 6502 documents\n")
        self.assertEqual(self.raw("NOP\nBRK\nbyte 3,72,105,0\n", "--host", status=134).err, "execute: program ended by a BRK at 0801, error 3: Hi\n")
        self.assertIn("it is at 0800", self.raw("here: JMP here\n", "--host", "--limit", "1", status=124).err)
        put(self.at("more"), length=0x8001 - 0x0200)
        self.assertIn("programs have 0200 to 7FFF", self.tool("execute", "--host", "--at", "0200", "more", status=125).err)

    @needs_no_tube
    def test_time_and_listing(self):
        done = self.raw("LDA #7\nRTS\n", "--host", "--time", "--listing", "list", status=7)
        self.assertIn("8 cycles, 0.000004 seconds at 2 MHz", done.err)
        self.assertRegex(text_of(self.at("list")).decode().splitlines()[0], " 0800 .* LDA #&07$")


# Prints a text up to a 0, and then what follows.
PRINT = """
        LDX #0
put:    LDA text,X
        BEQ done
        JSR &FFE3
        INX
        BNE put
done:
"""


class System(Execute):
    """`--os`: the same program with the ROMs of system/, on the host and on the second processor."""

    def on_both(self, text, *words, status=0, at="2000", **how):
        """What is written on standard output and standard error, on each."""
        self.asm("prog", "org &%s\n" % at + text)
        told = []
        for more in ((), ("--tube",)):
            done = self.tool("execute", "--os", *more, "--at", at, *words, status=status,
                stdout=subprocess.PIPE, stderr=subprocess.PIPE, **how)
            told.append((done.out, done.err))
        return told

    def test_output_and_status(self):
        """All bytes come out, a new line as one line feed; the user flag is the status."""
        text = PRINT + "LDA #1\nLDX #42\nJSR &FFF4\nRTS\ntext: byte 72, 105, 13, 0\n"
        self.assertEqual(self.on_both(text, "prog", status=42), [("Hi\n", "")] * 2)
        # Of codes that print nothing every byte comes: VDU 27, and VDU 25 with its parameters.
        text = PRINT + "LDA #0\nJSR &FFEE\nRTS\ntext: byte 27, 25, 4, 10, 1, 1, 1, 0\n"
        self.assertEqual(self.on_both(text, "prog"),
            [("\x1b\x19\4\n\1\1\1\0", "")] * 2)

    def test_where_it_runs(self):
        self.asm("where", text_of(os.path.join(EXAMPLES, "where.asm")).decode())
        for more, who in (((), "host"), (("--tube",), "second processor"),
                (("--tube", "--speed", "4"), "second processor")):
            done = self.tool("execute", "--os", *more, "--at", "2000", "where")
            self.assertEqual((done.out, done.err), ("The %s runs this.\n" % who, ""))

    def test_its_start_and_arguments(self):
        """It begins at --start; the text after its name is the command's, by OSARGS 1."""
        text = """
        LDA #88
        JMP &FFEE
        LDA #1
        LDX #&70
        LDY #0
        JSR &FFDA
loop:   LDX #&70
        LDY #0
        LDA #5
        JSR &FFF1
        INC &70
        BNE same
        INC &71
same:   LDA &74
        JSR &FFE3
        CMP #13
        BNE loop
        RTS
"""
        self.assertEqual(self.on_both(text, "--start", "2005", "prog", "one", "two words", "-x"),
            [("one two words -x\n", "")] * 2)

    def test_input(self):
        """A line is read by OSWORD 0; from a pipe, a file, and none."""
        text = """
        LDX #<block
        LDY #>block
        LDA #0
        JSR &FFF1
        LDX #0
put:    LDA &2800,X
        JSR &FFE3
        CMP #13
        BEQ done
        INX
        BNE put
done:   RTS
block:  word &2800
        byte 20, 32, 126
"""
        self.assertEqual(self.on_both(text, "prog", stdin=b"abc\ndef\n"), [("abc\nabc\n", "")] * 2)
        told = [("", "execute: prog reads a key after the end of its input\n")] * 2
        self.assertEqual(self.on_both(text, "prog", stdin=b"", status=124), told)
        told = [("abc", told[0][1])] * 2
        self.assertEqual(self.on_both(text, "prog", stdin=b"abc", status=124), told)
        put(self.at("lines"), b"file\nrest")
        for more in ((), ("--tube",)):
            with open(self.at("lines"), "rb") as file:
                done = subprocess.run([EXECUTE, "--os", *more, "--at", "2000", "prog"], cwd=self.folder,
                    stdin=file, stdout=subprocess.PIPE, timeout=300)
                self.assertEqual((done.stdout, file.read()), (b"file\nfile\n", b""))

    def test_keys_font_and_shots(self):
        """Keys of a script come in place of standard input, and a font in place of the set's."""
        put(self.at("keys"), beebtube.typed("k", start=1.3).text().encode() + b"at 9000000 shot\n")
        put(self.at("font"), bytes(960))
        text = "JSR &FFE0\nJSR &FFEE\nhere: JMP here\n"
        given = ("--keys", "keys", "--limit", "1.6", "--shots", "seen")
        told = self.on_both(text, *given, "prog", stdin=b"no\n", status=124)
        self.assertEqual([out for out, _ in told], ["K"] * 2)
        seen = text_of(self.at("seen.000.png"))
        self.tool("execute", "--os", *given, "--font", "font", "--at", "2000", "prog", status=124)
        self.assertNotEqual(text_of(self.at("seen.000.png")), seen)

    def test_files(self):
        """OSFIND, OSBPUT, OSBGET, and OSCLI with its output."""
        text = """
        LDA #&80
        LDX #<name
        LDY #>name
        JSR &FFCE
        TAY
        LDA #65
        JSR &FFD4
        LDA #0
        JSR &FFCE
        LDX #<show
        LDY #>show
        JMP &FFF7
name:   byte 70, 13
show:   byte 68, 85, 77, 80, 32, 70, 13
"""
        self.assertEqual(self.on_both(text, "prog"),
            [("0000 41 ** ** ** ** ** ** ** A\n", "")] * 2)

    def test_ends(self):
        for text, told, place in (("BRK\nbyte 7, 72, 105, 0\n", "7: Hi", "2000"),
                ("LDX #<no\nLDY #>no\nJMP &FFF7\nno: byte 42, 81, 13\n", "254: Bad command", "....")):
            for _, err in self.on_both(text, "prog", status=134):
                self.assertRegex(err, r"\Aexecute: prog ended by a BRK at %s, error %s\n\Z" % (
                    place, told))
        put(self.at("labels"), b"al 002000 .here\n")
        self.assertEqual(self.on_both("here: JMP here\n", "--limit", "2", "--labels", "labels",
            "prog", status=124), [("", "execute: prog did not end within 2 seconds of machine time; "
                "it is at here (2000)\n")] * 2)
        self.asm("wild", "org &2000\nLDA #165\nLDX #1\nbyte 2\n")
        self.assertEqual(self.tool("execute", "--os", "--at", "2000", "wild", status=132).err,
            "execute: the host stopped at 2004: the opcode 02 is none that the 6502 documents\n")

    def test_the_most_output_and_one_more(self):
        text = "LDX #0\nLDY #0\nLDA #0\nl: JSR &FFEE\nINX\nBNE l\nINY\nBNE l\n%sRTS\n"
        self.asm("prog", "org &2000\n" + text % "")
        done = self.tool("execute", "--os", "--at", "2000", "prog")
        self.assertEqual((len(done.out), done.err), (65536, ""))
        self.asm("prog", "org &2000\n" + text % "JSR &FFEE\n")
        done = self.tool("execute", "--os", "--at", "2000", "prog", status=153)
        self.assertEqual((len(done.out), done.err), (65536, "execute: prog wrote more than 65,536 "
            "bytes: the first of them are here, and it was stopped\n"))

    def test_what_does_not_go(self):
        self.asm("prog", "org &1900\nRTS\n")
        before = self.names()
        for words, what in ((["--tube"], "goes with --os"), (["--os", "--host"], "--host does not go"),
                (["--os", "--both", "prog"], "--both does not go"),
                (["--os", "--time"], "--time does not go"),
                (["--os", "--save", "out"], "--save does not go"),
                (["--os", "--trace", "out"], "--trace does not go"),
                (["--os", "--listing", "out"], "--listing does not go"),
                (["--os", "--host-labels", "prog"], "--host-labels does not go"),
                (["--os", "--speed", "4"], "has it with --tube"),
                (["--os", "--cpu", "65c02"], "the host has a 6502"),
                (["--os", "--at", "1800"], "programs have 1900 to 7BFF"),
                (["--os", "--tube", "--at", "7FFF", "--start", "8000"], "outside its bytes"),
                (["--os", "--tube", "--at", "8000"], "programs have 0800 to 7FFF")):
            self.assertIn(what, self.tool("execute", *words, "prog", status=125).err, words)
        for more in (["x" * 201], ["a\rb"]):
            self.assertIn("no text of a command", self.tool("execute", "--os", "prog", *more,
                status=125).err)
        self.assertIn("is no program of a disc", self.tool("execute", "--os",
            os.path.join(BUILT, "three"), status=125).err)
        self.assertEqual(self.names(), before)

    def test_the_disc(self):
        """--disc: what a program leaves on it, beside what was there, whatever its end is."""
        save = """LDA #88\nJSR &FFEE\nLDX #<text\nLDY #>text\nJSR &FFF7\nLDA #1\nLDX #3\nJSR &FFF4\n%s
        org &2040\ntext: byte 83, 65, 86, 69, 32, 77, 65, 68, 69, 32, 50, 48, 48, 48, 32, 43, 54, 13
"""  # SAVE MADE 2000 +6
        put(self.at("old"), b"before")
        self.tool("catalogue", "--make", "some.ssd", "old")
        for name, more, end, status in (("some.ssd", (), "RTS\n", 3), ("new.ssd", ("--tube",),
                "BRK\n", 134), ("new.dsd", (), "here: JMP here\n", 124)):
            self.asm("prog", "org &2000\n" + save % end)
            self.tool("execute", "--os", *more, "--disc", name, "--limit", "8", "--at", "2000",
                "prog", status=status)
            disc = Disc.read(self.at(name))
            files = {file.name: disc.catalogue().bytes_of(file) for file in disc.catalogue().files}
            wanted = {"MADE": text_of(self.at("prog"))[:6]}
            if name == "some.ssd":
                wanted["old"] = b"before"
            self.assertEqual((files, disc.double), (wanted, name == "new.dsd"))

    def test_a_disc_that_is_none(self):
        """A file that is no disc, or a program's, stays as it is; so does a disc that is read."""
        self.asm("prog", "org &2000\nRTS\n")
        put(self.at("text"), b"no disc, but a text that is longer than the header of one" * 20)
        for name, told in (("text", "text is no disc"), ("prog", "is read too"),
                ("away/x.ssd", "it is in no folder"), (".", "it is a folder")):
            before = self.names()
            self.assertIn(told, self.tool("execute", "--os", "--disc", name, "--at", "2000", "prog",
                status=125).err)
            self.assertEqual(self.names(), before)
        self.assertIn("--disc goes with --os", self.tool("execute", "--disc", "x", "--at", "2000",
            "prog", status=125).err)
        put(self.at("old"), b"before")
        self.tool("catalogue", "--make", "some.ssd", "old")
        found = os.stat(self.at("some.ssd")).st_mtime_ns
        self.tool("execute", "--os", "--disc", "some.ssd", "--at", "2000", "prog", status=0)
        self.assertEqual(os.stat(self.at("some.ssd")).st_mtime_ns, found)

    @unittest.skipUnless(shutil.which("cc65"), "cc65 is not there")
    def test_a_program_in_c(self):
        put(self.at("main.c"), b"""#include <stdio.h>
char line[20];
int main(int argc, char* argv[]) {
    FILE* file = fopen("OUT", "w");
    fputs(fgets(line, sizeof line, stdin), file);
    fclose(file);
    printf("%d %s %s", argc, argv[argc - 1], fgets(line, sizeof line, fopen("OUT", "r")));
    return 7;
}
""")
        done = call([os.path.join(EXAMPLES, "c", "build"), "--disc", "prog", "main.c"], self.folder)
        self.assertEqual(done.status, 0, done.err)
        for more in ((), ("--tube",)):
            done = self.tool("execute", "--os", *more, "prog", "a", "b", stdin=b"key\n", status=7,
                stdout=subprocess.PIPE, stderr=subprocess.PIPE)
            self.assertEqual((done.out, done.err), ("key\n3 b key\n", ""))


@unittest.skipUnless(shutil.which("cc65"), "cc65 is not there")
class Building(Execute):
    def build(self, *words, status=0, **how):
        done = call([os.path.join(EXAMPLES, "c", "build")] + list(words), self.folder, **how)
        self.assertEqual(done.status, status, done.out + done.err)
        return done

    def test_a_source_is_not_written_over(self):
        files = {"util.c": b"int helper(void) { return 1; }\n", "main.c": b"int main(void) { return 0; }\n"}
        for name, data in files.items():
            put(self.at(name), data)
        os.link(self.at("util.c"), self.at("other"))
        for words in (["util.c", "main.c"], ["new.c", "main.c"], ["main.c", "main.c"], ["--labels", "main.c", "out", "main.c"],
                      ["./other", "util.c", "main.c"], ["other", "main.c"]):
            self.assertIn("it is not overwritten", self.build(*words, status=2).err)
            self.assertEqual({name: text_of(self.at(name)) for name in files}, files)
        self.assertIn("one file", self.build("--labels", "./out", "out", "main.c", status=2).err)
        self.build("--labels", "labels", "out", "main.c", "util.c")
        self.assertEqual(sorted(self.names()), ["labels", "main.c", "other", "out", "util.c"])
        self.tool("execute", "out")

    def test_from_python(self):
        put(self.at("main.c"), b'#include <stdio.h>\n#include "own.h"\nint main(void) { printf("%d", OWN); return 5; }\n')
        os.mkdir(self.at("include"))
        put(self.at("include/own.h"), b"#define OWN 42\n")
        for how in ({}, {"host": True}, {"cpu": "65c02"}):
            program = beebtube.build(self.at("main.c"), options=("-I", self.at("include")), **how)
            done = beebtube.execute(program, host="host" in how)
            self.assertEqual((done.status, done.out), (5, b"42"), how)
        with self.assertRaisesRegex(beebtube.Fault, "own.h"):
            beebtube.build(self.at("main.c"))

    def test_what_fails_leaves_what_was_there(self):
        put(self.at("main.c"), b"int main(void) { return 0; }\n")
        put(self.at("bad.c"), b"int main(void) { return no; }\n")
        before = b"BTP1 and more"
        put(self.at("out"), before)
        self.build("out", "bad.c", status=1)
        self.assertEqual((text_of(self.at("out")), sorted(self.names())), (before, ["bad.c", "main.c", "out"]))
        done = call([os.path.join(EXAMPLES, "c", "build"), "out", "main.c"], self.folder, limit=100)
        self.assertNotEqual(done.status, 0)
        self.assertEqual((text_of(self.at("out")), sorted(self.names())), (before, ["bad.c", "main.c", "out"]))
        self.build("out", "main.c")
        self.build("/dev/null", "main.c")
        self.tool("execute", "out")


class Sources(Execute):
    def test_registers_of_the_page(self):
        # The addresses that the tool, the sources and the linker's configurations have of one another.
        page = text_of(os.path.join(TOP, "docs", "PROGRAMS.md")).decode()
        for word in ("FC00", "D200", "F803", "C003", "C006"):
            self.assertIn(word, page)
        for name, words in (("para.cfg", ("$FC00", "$F803", "$F800")), ("host.cfg", ("$D200", "$C003", "$8000"))):
            text = text_of(os.path.join(EXAMPLES, "c", name)).decode()
            for word in words:
                self.assertIn(word, text)
        labels = beebtube.labels_of("6502", os.path.join(EXAMPLES, "c", "sim65.asm"))
        self.assertEqual((labels["other"], labels["place"], labels["irq"]), (0xFA00, 0xFA06, 0xFA0A))
        self.assertIsNone(re.search("FE[EF][0-9A-F]", text_of(os.path.join(EXAMPLES, "c", "sim65.asm")).decode()))


if __name__ == "__main__":
    unittest.main()
