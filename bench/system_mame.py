#!/usr/bin/env python3
"""system_mame.py [NAME ..]: runs the images of system/built in MAME's `bbcb` and in the program.

Both print the same codes and press the same keys. The script compares memory from 0000 to 7FFF, and
each pixel, in mode 7 those of the even field. A line for each run has the number that differ. It
leaves out the cursor's flash, and cells that hold times or what an interrupt left: TIMING names
them. The status is 1 if anything else differs. It needs MAME (Debian package mame).
"""
import os
import shutil
import subprocess
import sys
import tempfile

sys.dont_write_bytecode = True
TOP = os.path.dirname(os.path.dirname(os.path.realpath(__file__)))
for part in ("tools", os.path.join("tools", "tests")):
    sys.path.insert(0, os.path.join(TOP, part))
import beebtube  # noqa: E402
import test_system as system  # noqa: E402
import test_system_dfs as dfs  # noqa: E402

MAME = shutil.which("mame") or "/usr/games/mame"
SECOND = system.SECOND
# What depends on when an interrupt came: the bytes that interrupts leave, counts, the clock, the
# converter's levels, and what is below the stack's end. And the slots: MAME's four sockets answer
# in four slots each.
TIMING = [range(*pair) for pair in (
    (0xDA, 0xE2), (0xE4, 0xE8), (0xEF, 0xF2), (0xF4, 0xF5), (0xFA, 0xFD), (0x100, 0x200),
    (0x240, 0x241),
    (0x242, 0x243), (0x248, 0x249), (0x24C, 0x24D), (0x251, 0x252), (0x283, 0x284), (0x28C, 0x28D),
    (0x292, 0x2A1),
    (0x2A1, 0x2BF), (0x2CA, 0x2CB), (0x380, 0x3E0), (0x800, 0x840), (0xA00, 0xB00))]
SKIPPED = {at for cells in TIMING for at in cells}

LUA = """
local events, last, done, at = {}, %f, false, 1
for line in io.lines("schedule") do
    local time, port, mask, value = line:match("(%%S+) (%%S+) (%%d+) (%%d)")
    events[#events + 1] = {tonumber(time), port, tonumber(mask), tonumber(value)}
end
local function keep(name, device, last)
    if not manager.machine.devices[device] then return end
    local space = manager.machine.devices[device].spaces["program"]
    local file = io.open(name, "wb")
    for place = 0, last do file:write(string.char(space:read_u8(place))) end
    file:close()
end
local function look()
    local now = manager.machine.time:as_double()
    while events[at] and events[at][1] <= now do
        local event = events[at]
        for name, field in pairs(manager.machine.ioport.ports[event[2]].fields) do
            if field.mask == event[3] then field:set_value(event[4]) end
        end
        at = at + 1
    end
    if done or now < last then return end
    done = true
    keep("memory", ":maincpu", 0x7FFF)
    keep("second", ":tube:6502:maincpu", 0xF7FF)
    local screen = manager.machine.screens[":screen"]
    local pixels, width, height = screen:pixels()
    local file = io.open("pixels", "wb")
    file:write(string.format("%%d %%d\\n", width or screen.width, height or screen.height), pixels)
    file:close()
    manager.machine:exit()
end
emu.register_frame_done(look)
"""


def mame(folder, keys, seconds, language, discs=(), tube=None):
    """What MAME leaves after so many seconds: files of a folder, among them `memory` and `pixels`.

    Images of discs are left as `0.ssd` and `1.ssd`, and with a boot ROM for the Tube the memory of
    the second processor as `second`.
    """
    images = {"bbcb/os12.rom": system.OS, "bbcb/basic2.rom": (language * 2)[:16384],
        "bbcb/phroma.bin": bytes(16384), "bbcb/saa5050": system.FONT,
        "saa5050/saa5050": system.FONT, "bbc_acorn1770/dfs v2.23,acorn.rom": dfs.DFS}
    words = ["-fdc", "acorn1770" if discs else ""]
    for drive, disc in enumerate(discs):
        put(os.path.join(folder, "%d.ssd" % drive), disc.image)
        words += ["-fdc:acorn1770:wd1770:%d" % drive, "525qd", "-flop%d" % (drive + 1),
            "%d.ssd" % drive]
    if tube:
        images["bbc_tube_6502/6502tube_110.rom"] = tube * 2
        words += ["-tube", "6502"]
    for name, data in images.items():
        place = os.path.join(folder, "roms", name)
        os.makedirs(os.path.dirname(place), exist_ok=True)
        put(place, data)
    lines = ""
    for line in keys.text().splitlines():
        _, tick, what, number = line.split()
        row, column = int(number, 16) >> 4, int(number, 16) & 15
        lines += "%f :COL%d %d %d\n" % (int(tick) / SECOND, column, 1 << row, what == "down")
    put(os.path.join(folder, "schedule"), lines.encode())
    put(os.path.join(folder, "look.lua"), (LUA % seconds).encode())
    done = subprocess.run([MAME, "bbcb", "-rompath", "roms", "-cfg_directory", "cfg",
        "-nvram_directory", "nvram", *words, "-video", "none", "-sound", "none", "-nothrottle",
        "-skip_gameinfo", "-seconds_to_run", str(int(seconds) + 5), "-autoboot_script", "look.lua",
        "-autoboot_delay", "0"], cwd=folder, env={**os.environ, "SDL_VIDEODRIVER": "dummy"},
        stdout=subprocess.PIPE, stderr=subprocess.STDOUT)
    if not os.path.exists(os.path.join(folder, "memory")):
        raise SystemExit("system_mame: MAME left no memory:\n"
            + done.stdout.decode("utf-8", "replace"))
    return {name: system.text_of(os.path.join(folder, name)) for name in os.listdir(folder)
        if os.path.isfile(os.path.join(folder, name))}


def put(name, data):
    with open(name, "wb") as file:
        file.write(data)


def colours_of(frame):
    """The colours, 0 to 7, of a frame of 640 by 256 pixels."""
    pixels = frame.pixmap[-640 * 256 * 3 :]
    return bytes((pixels[at] >> 7) | (pixels[at + 1] >> 7 << 1) | (pixels[at + 2] >> 7 << 2)
        for at in range(0, len(pixels), 3))


def colours_of_mame(width, height, pixels):
    """The same of MAME's screen, each column and line by its place; what it lacks is black."""
    scale = 2 if height > 256 else 1
    rows = []
    for y in range(min(256, height // scale)):
        line = pixels[4 * width * y * scale :][: 4 * width]
        places = [4 * (x * width // 640) for x in range(640)]
        rows.append(bytes((line[at + 2] >> 7) | (line[at + 1] >> 7 << 1) | (line[at] >> 7 << 2)
                          for at in places))
    # With 250 lines MAME's screen begins at the first of them, and a frame two lines before it.
    above = bytes(640 * 2) if len(rows) == 250 else b""
    return (above + b"".join(rows)).ljust(640 * 256, b"\0")


def scenarios():
    """Name, language, keys and seconds of each run."""
    nothing = beebtube.Script([])
    off = bytes([23, 1, 0, 0, 0, 0, 0, 0, 0, 0])
    lines = b"".join(b"line %d of many\r\n" % number for number in range(45))
    for mode in range(8):
        drawn = b"".join(bytes([18, 0, colour]) + system.plot(4, 100 + 60 * colour, 300)
            + system.plot(5, 140 + 60 * colour, 600)
                         for colour in range(1, 8))
        drawn += bytes([18, 0, 1]) + system.plot(4, 200, 50) + system.plot(4, 500,
            100) + system.plot(85, 300, 280)
        drawn += bytes([18, 3, 3]) + system.plot(4, 0, 0) + system.plot(5, 1279,
            1023) + system.plot(21, 1279, 0)
        text = bytes(range(32, 127)) + bytes([17, 1]) + b"one" + bytes([17, 130]) + b"two\r\n"
        yield "mode %d" % mode, system.rom(bytes([22, mode]) + off + text + drawn), nothing, 2.5
        yield "scroll %d" % mode, system.rom(bytes([22, mode]) + off + lines + bytes([30, 11, 11])
            + b"up"), nothing, 2.5
        window = bytes([28, 5, 20, 18, 10, 12]) + lines + bytes([30, 11, 11]) + b"up"
        seconds = 9 if mode == 2 else 5
        yield "window %d" % mode, system.rom(bytes([22, mode]) + off + window), nothing, seconds
    # Codes 1 to 3 are the printer's, at another place in each.
    codes = bytes(code for code in range(32) if not 1 <= code <= 3 for code in [code]
        + [code * number & 255 for number in (3, 5, 7, 11, 2, 9, 13, 6, 1)])
    yield "all codes", system.rom(codes + b"\x06\x04\x16\x07" + off + b"end"), nothing, 3
    for name, text in (("typed",
        "R A 12{RETURN}M 8000{RETURN}*KEY 0 *HELP|M{RETURN}{f0}d ff00{RETURN}"),
                       ("edited", "R A 55{RETURN}{up}{up}" + 4 * "{COPY 0.06}" + "2{RETURN}"),
                       ("escaped", "abc{ESCAPE}{CAPS LOCK}aB{CTRL+U}*FX1,2{RETURN}{SHIFT LOCK}1q"
                                   "{RETURN}")):
        typed = beebtube.typed(text, start=2, hold=0.08, gap=0.08)
        yield name, system.MON, typed, typed.events[-1].tick / SECOND + 1


def main(names):
    failed = 0
    for name, language, keys, seconds in scenarios():
        if names and not any(word in name for word in names):
            continue
        ticks = int(seconds * SECOND)
        shot = beebtube.Script(list(keys.events))
        run = beebtube.host(ticks, os=system.OS, rom15=language, font=system.FONT,
                            keys=(shot.text() + "at %d shot\n" % (ticks - 1)).encode())
        with tempfile.TemporaryDirectory() as folder:
            left = mame(folder, keys, seconds, language)
        memory = left["memory"]
        cells = [at for at in range(32768) if memory[at] != run.host[at] and at not in SKIPPED]
        size, pixels = left["pixels"].split(b"\n", 1)
        ours = colours_of(run.frames[0])
        theirs = colours_of_mame(*map(int, size.split()), pixels)
        # The cursor after the keys flashes from another moment on: a line of 16 pixels in mode 7.
        cursor = 640 * (10 * run.host[0x319] + 11) + 16 * run.host[0x318] if keys.events else -16
        others = sum(one != other and not cursor <= at < cursor + 16
            for at, (one, other) in enumerate(zip(ours, theirs)))
        print("%s: bytes %d, pixels %d%s" % (name, len(cells), others,
            "; first %04X: %02X, MAME %02X" % (
            cells[0], run.host[cells[0]], memory[cells[0]]) if cells else ""), flush=True)
        failed |= bool(cells or others)
    return failed


if __name__ == "__main__":
    sys.exit(main(sys.argv[1:]))
