"""Made-up calls of the tools, for `fuzz_tools.py`: arguments, files, and what follows from them."""
import csv
import gzip
import io
import json
import os
import re
import shlex
import signal
import subprocess
import sys
import tempfile
import zipfile

sys.dont_write_bytecode = True
TOP = os.path.dirname(os.path.dirname(os.path.realpath(__file__)))
sys.path.insert(0, os.path.join(TOP, "tools"))
import captures  # noqa: E402
from beebtube.capture import csv_of, vcd_of  # noqa: E402
from beebtube.frame import Frame, lines_in  # noqa: E402
from beebtube.trace import Trace  # noqa: E402
from beebtube.words import OPTIONS, Call, WrongWord, told  # noqa: E402

# Each tool, and how often it is called beside the others.
SHARES = {"type": 10, "png": 5, "catalogue": 13, "tube": 13, "manifest": 13, "words": 11, "suite": 6, "differs": 10, "screen": 8, "trace": 12, "page": 6, "debug": 8,
          "labels": 12, "play": 8, "execute": 8, "cover": 6, "profile": 6, "dap": 4}
TOOLS = tuple(SHARES)
BIG = 20 * 10**9
EXAMPLES = os.path.join(TOP, "examples")
SIGNALS = (signal.SIGTERM, signal.SIGINT, signal.SIGHUP, signal.SIGKILL)
HOSTILE = ("a\nb", "a\x1b[31mb", "it's", 'a"b', "\udce9", "./-x", "$(id)", "a;b", "%s", "<b>&", "a\\b", "=1+1", "a,b", "\u202eb", "a b")
FIFO = None  # in the place of a file's bytes


def is_file(data):
    return isinstance(data, bytes)


def text_of(name):
    with open(name, "rb") as file:
        return file.read()


# --- What files are made of ---


class Plain:
    """Good files, made once."""

    def __init__(self, program):
        with tempfile.TemporaryDirectory() as folder:
            def made(*words):
                subprocess.run([program] + list(words), cwd=folder, check=True, stdin=subprocess.DEVNULL, stdout=subprocess.DEVNULL)

            for name, part, source in (("os", "6502", "letters-os"), ("tube", "65c02", "letters-tube"), ("some.dsd", "6502", "disc"), ("font", "6502", "font")):
                made("asm", part, os.path.join(EXAMPLES, source + ".asm"), name)
            with open(os.path.join(folder, "keys"), "w") as file:
                file.write("at 1000 shot\n")
            made("solo", "2000", "good", "--os", "os", "--tube", "tube", "--save", "session", "--keys", "keys", "--disc0", "some.dsd", "--wav", "good.wav")
            made("follow", "host", "good.trace", "2000", "good", "--os", "os", "--keys", "keys", "--disc0", "some.dsd")
            made("dis", "6502", "os", "C000", "text")
            self.run = [name for name in sorted(os.listdir(folder)) if name.startswith("good.")]
            self.files = {name: text_of(os.path.join(folder, name)) for name in ["os", "tube", "some.dsd", "font", "session", "text"] + self.run}
            trace = Trace(os.path.join(folder, "good.trace"))
            self.files["good.vcd"], self.files["good.csv"] = b"".join(vcd_of(trace)), b"".join(csv_of(trace))
        self.files["os.asm"] = text_of(os.path.join(EXAMPLES, "letters-os.asm"))
        self.files["small.asm"] = text_of(os.path.join(EXAMPLES, "small.asm"))
        self.files["labels"] = b"al 00C000 .start\nal 00C002 .loop\nal 000070 .count\n"
        self.files["a.keys"] = b"at 100 down 41\nat 200 up 41\n"
        # How often the host's instructions at each address start, by its listing.
        self.starts = {}
        for line in self.files["good.list"].splitlines():
            address = int(line.split()[1], 16)
            self.starts[address] = self.starts.get(address, 0) + 1
        self.frame = b"P6\n640 256\n255\n" + bytes(range(0, 256, 255)) * (640 * 256 * 3 // 2)
        self.picture = Frame(self.frame).png()


def changed(dice, data):
    """Bytes that are nearly these: changed, cut, lengthened, put in, lines taken out or twice; or none of them."""
    data = bytearray(data)
    for _ in range(dice.choice((1, 1, 1, 2, 5))):
        at = dice.randrange(len(data) + 1)
        how = dice.randrange(9)
        if how == 0 and data:
            data[at % len(data)] = dice.randrange(256)
        elif how == 1:
            del data[at:]
        elif how == 2:
            data += dice.randbytes(dice.choice((1, 2, 30, 3000)))
        elif how == 3:
            data[at:at] = dice.choice((b"\0", b"\n", b"\r", b" ", b"\xff", b"\xc3\xa9", b"9" * 30, b"-", b"/", b"../", b"'", b'"', b"\x1b[2J"))
        elif how == 4:
            del data[at : at + dice.choice((1, 2, 7, 100))]
        elif how == 5:
            lines = bytes(data).split(b"\n")
            place = dice.randrange(len(lines))
            lines[place:place] = [lines[dice.randrange(len(lines))]]
            data = bytearray(b"\n".join(lines))
        elif how == 6:
            lines = bytes(data).split(b"\n")
            del lines[dice.randrange(len(lines))]
            data = bytearray(b"\n".join(lines))
        elif how == 7:
            data = bytearray(dice.randbytes(dice.choice((0, 1, 20, 600, 20000))))
        else:
            data = bytearray(bytes(data).swapcase())
    return bytes(data)


# --- What a call is ---


class Made:
    """A call: the tool and its words, the files of its folder (bytes, a length, or the target of a link), what is on standard input, the names that
    it may write, the folders below which it may write what it likes, what is looked at where it ends with 0 in plain surroundings,
    and the statuses that follow from what was made; None where that is not known."""

    def __init__(self, tool, words, files, stdin=b"", writes=(), good=None, folders=(), below=(), wanted=None):
        self.wanted = wanted
        self.tool, self.words, self.files, self.stdin, self.writes, self.good, self.folders = tool, words, files, stdin, set(writes), good, folders
        self.below = tuple("at/%s/" % name for name in below)
        self.around = "plain"


class Generator:
    def __init__(self, plain, program):
        self.plain, self.program = plain, program

    def call(self, dice, only):
        tool = only or dice.choices(TOOLS, [SHARES[name] for name in TOOLS])[0]
        self.is_changed = False
        made = getattr(self, "make_" + tool)(dice)
        # What follows from a changed file is known to few.
        if self.is_changed and not getattr(made, "is_sure", False):
            made.wanted = None
        if dice.random() < 0.12:
            self.rename(dice, made)
        if dice.random() < 0.03 and tool not in ("debug", "cover", "profile"):  # (the program waits for its files)
            made.files[dice.choice(sorted(made.files) or ["unused"])] = FIFO
            made.wanted = made.good = None
        if dice.random() < 0.12:
            made.words = self.other_words(dice, made.words)
            made.good = made.wanted = None
            # Any word may be the name under which is written, but none of what is read.
            places = {os.path.normpath(word) for word in made.words if word and os.path.normpath(word) not in made.files and not os.path.isabs(word)}
            if made.tool in ("catalogue", "png", "words", "trace", "execute", "cover", "profile"):
                made.writes |= places | {word + ".inf" for word in places}
                made.below += tuple("at/%s/" % word for word in places if word not in (".", "..") and not word.startswith("../"))
            if made.tool == "execute":
                made.writes |= {"%s.%03d.png" % (word, number) for word in places for number in range(3)}
            if made.tool == "differs":
                made.writes |= places | {word + "/000.png" for word in places}
            if made.tool in ("page", "play"):
                made.writes |= {word + end for word in places for end in (".html", ".png", ".000.png", ".001.png", ".movie.png", ".wav")}
            if made.tool == "suite":
                # (any word may be the list, the folder of results, or that of what is kept)
                made.below += tuple("at/%s/" % os.path.normpath(word) for word in made.words if word and os.path.normpath(word) not in made.files
                                    and os.path.normpath(word).split("/")[0] not in ("..", ".", ""))
            if made.tool == "manifest":
                ends = (".report", ".host", ".para", ".trace", ".list", ".d0", ".000.ppm")
                made.writes |= {os.path.normpath(word) + end for word in made.words if word and not os.path.isabs(word) for end in ends}
        made.around = dice.choices(("plain", "closed", "full", "broken", "deaf", "all closed", "short", "disk", "other", "others folder", "here", "signal", "eight"),
                                   (48, 4, 4, 4, 3, 3, 4, 4, 4, 4, 6, 12, 5))[0]
        made.signal, made.share, made.room = dice.choice(SIGNALS), dice.random() * 1.1, dice.choice((0, 1, 2, 5, 20, 100))
        if made.tool == "dap" and "--port" in made.words:
            made.around = "plain"
        return made

    # Gives a file, or all outputs of a run, a hostile name.
    def rename(self, dice, made):
        named = [word for word in made.words if word and word not in made.writes and "/" not in word
                 and any(is_file(data) and (name == word or name.startswith(word + ".")) for name, data in made.files.items())]
        if not named or made.tool in ("manifest", "suite", "debug", "words", "play", "dap"):
            return
        old, dot, end = dice.choice(named).partition(".")
        new = dice.choice(HOSTILE)
        made.words = [new + word[len(old):] if word == old + dot + end else word for word in made.words]
        moved = {name: new + name[len(old):] for name in made.files if name == old + dot + end or name.startswith(old + dot + end + ".")}
        made.files = {os.path.normpath(moved.get(name, name)): data for name, data in made.files.items()}
        made.writes |= {os.path.normpath(new + name[len(old):]) for name in made.writes if name.startswith(old + dot + end + ".")}
        made.good = None
        if any(it == "\udce9" for it in (new,)) and made.tool in ("cover", "profile"):
            made.wanted = None  # (words of the program are UTF-8)
        if made.tool == "catalogue" and made.words[0] in ("--make", "--put"):
            made.wanted = None  # (the disc has the file by its name)
        sources = {name for option, name in zip(made.words, made.words[1:]) if option in ("--host", "--para")}
        if made.tool == "cover" and made.wanted == {0} and new in sources and "\n" in new:
            made.wanted = {1}  # (lcov has no form for it)

    def other_words(self, dice, words):
        words = list(words)
        place = dice.randrange(len(words) + 1)
        word = dice.choice(("", "-", "--", "--help", "--make", "--check", "--all", "--side", "7", "nan", "1e400", "-1", "/dev/null", "/dev/full", "..", ".", "/",
                            "../outside/victim", "\udcff", "a\nb", "é", "9" * 400, "n" * 300, "--movie", "--compare", "--oss", "--start=1e9", "{", "x" * 5000))
        if dice.random() < 0.5 or not words:
            words.insert(place, word)
        elif dice.random() < 0.5:
            words[place % len(words)] = word
        else:
            del words[place % len(words)]
        return words

    def nearly(self, dice, data, share=0.75):
        if dice.random() < 0.03:
            self.is_changed = True
            return BIG
        new = changed(dice, data) if dice.random() < share else data
        self.is_changed = self.is_changed or new != data
        return new

    def make_type(self, dice):
        pieces = ["a", "Z", "9", "!", "{RETURN}", "{f0}", "{CTRL+B}", "{SHIFT+BREAK}", "{BREAK}", "{WAIT 1}", "{SHOT}", "{ADC 0 8000}", "{RETURN 2}", "{{", "\n", "\t", " ",
                  "é", "{", "}", "{f10}", "{ADC 9 1}", "{WAIT x}", "{BREAK+A}", "{+}", "\0", "{WAIT 999999}", "{A 999999}", "{CAPS LOCK}", "{SHIFT}", "|", "£"]
        weights = [9] * 17 + [1] * 15
        drawn = dice.choices(pieces, weights, k=dice.choice((0, 1, 5, 30)))
        times = dice.choice((1, 1, 1, 1, 90))
        text, words, wanted = "".join(drawn) * times, [], {0} if times == 1 and len(drawn) <= 5 and not set(drawn) & set(pieces[17:]) else None
        for option in ("--shift", "--control", "--caps", "--shot", "--fit"):
            words += [option] * (dice.random() < 0.2)
        for option in ("--start", "--hold", "--gap", "--speed"):
            if dice.random() < 0.15:
                words += [option, dice.choice(("0", "0.02", "0.5", "3", "4", "1e9", "-1", "inf", "x"))]
                if words[-1] not in (("3", "4") if option == "--speed" else ("0", "0.02", "0.5", "3", "4")):
                    wanted = {2}
                elif wanted == {0} and option != "--speed":
                    wanted = {0, 1}  # (a key that is held 0 seconds)
        data = text.encode()
        if dice.random() < 0.4 and "\0" not in text and not text.startswith("-"):
            return Made("type", words + [text], {}, good=self.good_type, wanted=wanted)
        if dice.random() < 0.3:
            return Made("type", words, {}, stdin=changed(dice, data), good=self.good_type, wanted=wanted if wanted == {2} else None)
        return Made("type", words, {}, stdin=data, good=self.good_type, wanted=wanted)

    def good_type(self, made, at, out):
        with open(at + "/typed", "wb") as file:
            file.write(out)
        return self.asked(at, ["solo", "0", "typed", "--os", "os", "--tube", "tube", "--keys", "typed"], made)

    # The program takes these words where they are; nothing, or what it said.
    def asked(self, at, words, made):
        with tempfile.TemporaryDirectory(dir=at) as folder:
            for name in ("os", "tube"):
                with open(folder + "/" + name, "wb") as file:
                    file.write(self.plain.files[name])
            if os.path.exists(at + "/typed"):
                os.rename(at + "/typed", folder + "/typed")
            done = subprocess.run([self.program] + words, cwd=folder, stdin=subprocess.DEVNULL, stdout=subprocess.PIPE, stderr=subprocess.PIPE)
        return "" if done.returncode == 0 else "the program says %r" % done.stderr[:200]

    def make_png(self, dice):
        files = {"a.ppm": self.nearly(dice, self.plain.frame, 0.4), "b.ppm": self.plain.frame, "old.png": self.nearly(dice, self.plain.picture, 0.4)}
        out = dice.choice(("new.png", "old.png", "a.ppm", "b.ppm", "below/new.png", "lost"))
        files["lost"] = ("lost.png",)
        how = dice.randrange(3)
        # A link to nothing is written where it leads.
        writes = {out, "lost.png"} if out == "lost" else {out} if out.endswith(".png") else set()
        wanted = {0} if writes else {1}
        if how == 0:
            return Made("png", ["a.ppm", out], files, writes=writes, good=lambda made, at, _: self.shows(at, out, ["a.ppm"]), wanted=wanted)
        if how == 1:
            words = ["--movie", out] + ["a.ppm", "b.ppm"][: dice.choice((1, 2))]
            return Made("png", words, files, writes=writes, good=lambda made, at, _: self.shows(at, out, words[2:]), wanted=wanted)
        return Made("png", ["--compare", "old.png", "a.ppm"], files, good=lambda made, at, _: self.shows(at, "old.png", ["a.ppm"]), wanted={0})

    def shows(self, at, picture, frames):
        wanted = [Frame(text_of(os.path.join(at, name))).lines() for name in frames]
        return "" if lines_in(text_of(os.path.join(at, picture))) == wanted else "the picture does not show the frames"

    # Many discs, and whole ones: --csv, --json, --extract, --make, --put, --take, --inf.
    def make_discs(self, dice):
        disc, how = self.plain.files["some.dsd"], dice.choice(("--csv", "--json", "--extract", "--make", "--put", "--take", "--inf"))
        if how in ("--csv", "--json"):
            names = sorted({dice.choice(HOSTILE + ("a", "b")).strip("./") + dice.choice((".dsd", ".ssd")) for _ in range(dice.randrange(5))})
            files = {"discs/" + name: self.nearly(dice, disc, 0.1) for name in names}

            def good(made, at, out):
                text = out.decode("utf-8", "surrogateescape")
                rows = json.loads(text) if how == "--json" else list(csv.DictReader(text.splitlines()))
                found = {row["disc"] for row in rows}
                if how == "--csv":
                    found = {name[1:] if name[:2] in ("'=", "'-", "'+", "'@") else name for name in found}
                return "" if found == {told(name) for name in names} else "it has other discs: %r" % (found,)
            return Made("catalogue", [how, "discs"], files, good=good, folders=("discs",), wanted={0} if not any(it.endswith(".ssd") for it in names) else {0, 1})
        files = {"some.dsd": self.nearly(dice, disc, 0.3), "ONE": self.nearly(dice, b"one" * dice.choice((0, 1, 90)), 0.1), "b": b"b", "b.inf": b"$.TWO 001900 008023 L\n"}
        if how == "--extract":
            return Made("catalogue", [how, "some.dsd", "new"], files, below=("new",), wanted={0},
                        good=lambda made, at, out: "" if out == b"files %d\n" % sum(not name.endswith(".inf") for _, _, them in os.walk(at + "/new") for name in them) else "another count")
        if how == "--inf":
            return Made("catalogue", [how, "some.dsd", dice.choice(("NOTES", "$.!BOOT", "LOST")), "new"], files, writes=("new", "new.inf"))
        more = ["--title", dice.choice(("A TITLE", "too long a title", "\n"))] * (dice.random() < 0.2 and how != "--take")
        more += ["--boot", dice.choice(("run", "exec", "x"))] * (dice.random() < 0.2 and how != "--take")
        names = dice.sample(("ONE", "b"), dice.randrange(3)) if how != "--take" else dice.choice((["NOTES"], ["!BOOT"], ["LOST"]))
        words = ([how] if how == "--make" else [how, "some.dsd"]) + [dice.choice(("new.dsd", "new.dsd", "below/new.dsd", "some.dsd", "new", "new.ssd"))] + names + more
        is_good = words[1 if how == "--make" else 2] in ("new.dsd", "below/new.dsd") and (names or how == "--make") and not more and names not in (["!BOOT"], ["LOST"])

        def count(made, at, out):
            image, had = text_of(os.path.join(at, words[1 if how == "--make" else 2])), {"--make": 0, "--put": 2, "--take": 2}[how]
            many = image[256 + 5] // 8
            return "" if many == had + len(names) * (-1 if how == "--take" else 1) or made.files["some.dsd"] != disc else "the disc has %d files" % many
        return Made("catalogue", words, files, writes={"new.dsd", "below/new.dsd", "new.ssd"}, good=count, wanted={0} if is_good else None)

    def make_catalogue(self, dice):
        if dice.random() < 0.5:
            return self.make_discs(dice)
        name = dice.choice(("some.dsd", "some.ssd"))
        files = {name: self.nearly(dice, self.plain.files["some.dsd"]), "link": (name,)}
        words = ["--side", dice.choice("01")] * (dice.random() < 0.3) + [name]
        out = None
        if dice.random() < 0.6:
            out = dice.choice(("new", "new", name, "link", "./" + name, "below/new", "nowhere/new", "/dev/null"))
            words += [dice.choice(("NOTES", "$.notes", "A.BACK", "!BOOT", "X", "", ".", "$.", "..")), out]
        writes = {out} if out in ("new", "below/new") else set()
        known = {"0": ("NOTES", "$.notes", "!BOOT"), "1": ("A.BACK",)}["1" if words[:2] == ["--side", "1"] else "0"]
        is_good = out is None or out in ("new", "below/new", "/dev/null") and words[-2] in known
        return Made("catalogue", words, files, writes=writes, wanted=None if name == "some.ssd" else {0} if is_good else {1})

    def make_tube(self, dice):
        data = self.plain.files["good.trace"]
        if dice.random() < 0.2:
            data = b"T2\n" + data
        if dice.random() < 0.3:
            data += b"00000FFFFF H X 0 00\n"
        files = {"t": self.nearly(dice, data)}
        words = dice.choice(([], ["--all"], ["--at", dice.choice(("0", "100", "1999", "9" * 15, "x", "-1", "9" * 16))]))

        def good(made, at, out):
            # (the tool reads no line after the tick that is asked for)
            ticks = [int(line[:10], 16) for line in files["t"].splitlines() if re.match(rb"[0-9A-F]{10} ", line)]
            said = re.search(rb"after access ([0-9]+)\n", out) if "--at" in words else None
            return "" if said is None or int(said[1]) == sum(tick < int(words[1]) for tick in ticks) else "it is after another access"
        return Made("tube", words + ["t"], files, good=good, wanted={2} if words[1:] in (["x"], ["-1"], ["9" * 16]) else None)

    def make_manifest(self, dice):
        files = {name: self.plain.files[name] for name in ("os", "tube", "small.asm", "session", "good.trace")}
        files["link"] = ("../outside/victim",)
        files["own"] = ("small.asm",)
        words = dice.choice((
            "run 2000 o --os os --tube tube", "solo 500 o --os os --tube tube --save session", "resume session 2000 o --save session", "asm 6502 small.asm small.asm",
            "asm 6502 own own", "asm 6502 small.asm link", "asm 6502 small.asm new", "check good.trace", "replay para good.trace 2000 o --tube tube", "gen 1",
            "asm 6502 small.asm ../outside/new", "asm 6502 small.asm @/new", "solo 9 o --os os --tube tube --wav @/victim", "asm 6502 @/victim new",
            "dis 6502 os C000 new", "check link", "check /dev/zero", "check fifo", "solo 9 o --os os --tube tube --keys good.trace", "run 9 o --oss x", "check missing",
            "follow host good.trace 2000 o --os os", "dis 6502 @/victim 0000 @/victim", "solo 9 ../outside/o --os os --tube tube", "asm 6502 small.asm below/new",
            "solo 9 o --os os --tube tube --save link", "asm small.asm ../outside/victim", "check good.trace --save @/victim")).replace("@", "OUTSIDE")
        names = {"link", "o.report", "o.host", "o.para", "o.trace", "o.list", "o.d0", "o.000.ppm", "new", "session.written", "small.asm.written", "own.written", "link.written", "session"}
        if dice.random() < 0.4:
            return Made("manifest", words.split(), files, writes=names)
        text = b"beebtube manifest 1\nsources 0\nwords " + words.encode() + b"\nstatus 0\n"
        files["text"] = self.nearly(dice, text)
        return Made("manifest", ["--check", "text"], files, good=self.good_check)

    # If the check reports `same`, it counts each file that the manifest names, and no other.
    def good_check(self, made, at, out):
        lines = text_of(at + "/text").decode("utf-8", "replace").splitlines()
        wanted = [line for line in lines if line.startswith(("read ", "wrote "))]
        words = [line for line in lines if line.startswith("words ")]
        if len(words) != 1 or "status 0" not in lines and not any(line.startswith("status ") for line in lines):
            return "a text without words or a status is the same"
        counts = re.match(rb"same: files read ([0-9]+), written ([0-9]+)\n", out.split(b"another program")[-1][out.split(b"another program")[-1].find(b"same"):])
        return "" if counts and sum(map(int, counts.groups())) == len(wanted) else "the counts are other ones than the lines"

    def make_words(self, dice):
        files = {name: self.plain.files[name] for name in ("os", "tube", "font")}
        lines = ["--os os", "--tube tube", "--font font", "--speed 4", "--keep 5", "# text", "", "--save ../outside/victim", "--wav x", "--os ../outside/victim", "--oss os",
                 "--plugs 9", "--disc0 /dev/zero", "--keys o*", "--keys $(id)", "--rom1 fifo", "--at C000", "--speed 5 x", "--tube tube 0"]
        drawn = dice.choices(lines, [9] * 6 + [1] * 13, k=dice.randrange(6))
        options = [line.split()[0] for line in drawn if line.startswith("-")]
        wanted = {0} if options and set(drawn) <= set(lines[:6]) and len(set(options)) == len(options) else {1} if set(drawn) <= set(lines[:9] + lines[10:12]) else None
        text = "".join(line + "\n" for line in drawn).encode()
        files["set"] = self.nearly(dice, text, 0.4)
        if dice.random() < 0.4:
            out = dice.choice(("set", "new", "os", "./os", "below/new", "nowhere/new", "../outside/victim"))
            words = [word for line in dice.choices(lines[:5] + lines[7:], k=dice.randrange(1, 4)) for word in line.split()]
            # What is named on the command line is written there: that is what the words say.
            return Made("words", ["--make", out] + words, {**files, "set": text}, writes={"set", "new", "below/new"} & {out})
        return Made("words", ["--check"] * (dice.random() < 0.3) + ["set"], files, good=self.good_words, wanted=wanted)

    def good_words(self, made, at, out):
        words = out.decode("utf-8", "surrogateescape").split()
        if made.words[0] == "--check":
            return "" if not words else "--check says something"
        try:
            options = dict(zip(words[::2], words[1::2]))
            taker = "follow host" if "--at" in options or "--watch" in options else "run"
            call = taker.split() + (["t"] if taker != "run" else []) + ["9", "o"] + words
            Call(call + (["--os", "os"] if "--os" not in options else []) + (["--tube", "x"] if "--tube" not in options and taker == "run" else []))
        except WrongWord as wrong:
            return "" if "does not take it" in str(wrong) else "the words are none: %s" % wrong
        if any(OPTIONS[option].kind == "output" for option in options):
            return "the words name an output"
        return ""

    def make_suite(self, dice):
        files, discs, is_plain = {"os": self.plain.files["os"], "tube": self.plain.files["tube"]}, dice.choice((0, 1, 1, 2, 2)), True
        for number in range(discs):
            begin = "discs/%d" % number
            if dice.random() < 0.2:
                begin, is_plain = "discs/%s%d" % (dice.choice(HOSTILE).strip("./"), number), False
            ending = dice.choice(("ssd", "dsd", "DSD", "ssd.gz", "zip"))
            data = b"disc %d" % number * 20
            if ending == "zip":
                packed = io.BytesIO()
                with zipfile.ZipFile(packed, "w") as archive:
                    archive.writestr("a\x1b%d.ssd" % number, data)
                data = packed.getvalue()
            files[begin + "." + ending] = self.nearly(dice, gzip.compress(data, mtime=0) if ending == "ssd.gz" else data, 0.3)
            for end, text in ((".keys", self.plain.files["a.keys"]), (".set", b"--speed 4\n"), (".txt", b"A{SHOT}")):
                if dice.random() < 0.2:
                    files[begin + end], is_plain = self.nearly(dice, text, 0.3), False
        rows = ["a,2000,,", "b,,discs/0.ssd,solo", "a,9,,", "c,9,,--keep 5 --wav x", "d,x,,", "e,9,,replay host /dev/null", "f,9,../outside/victim,", "g,9,,--save /etc/no", "../h,9,,",
                "i,9,fifo,", "j,9,,--oss x", "k,9,/dev/zero,", "=1,9,,\"--plugs 2\"", "l,9,,--no-tube", "m,9,,--new OUTSIDE/victim"]
        table = "name,ticks,disc0,words\n" + "".join(row + "\n" for row in dice.choices(rows, [9, 9, 1, 9] + [1] * 11, k=dice.randrange(5)))
        files["list.csv"] = self.nearly(dice, table.encode(), 0.4)
        stored = "name,state,status,ticks,seconds,processor,words,words_sum,inputs,outputs,differs,said,key\na,done,0,2000,1,1,run,0,os=0,host=0,,,0\n"
        files["stored.csv"] = self.nearly(dice, stored.encode(), 0.5)
        how = dice.choice(("", "", "", "--jobs", "--gather", "--clear"))
        words = [how] * bool(how) + list(dice.choice((("--ticks", "100"), ("--ticks", "2000"), ("--ticks", "2000"), ("--ticks", "x"), ("--seconds", "0.0001"))))
        for option in ("--shot", "--text", "--recursive"):
            words += [option] * (dice.random() < 0.2)
        for option, value in (("--against", "stored.csv"), ("--keep", "kept"), ("--pages", dice.choice(("none", "plain", "whole", "x"))), ("-j", dice.choice("120")),
                              ("--only", dice.choice(("done", "same,new", "x"))), ("--batch", dice.choice("120"))):
            words += [option, value] * (dice.random() < 0.2)
        wanted = {2} if {"x", "0"} & set(words) else {1} if how == "--gather" and discs and is_plain else {0} if is_plain and how != "--gather" and "--against" not in words else None
        words += [dice.choice(("discs", "discs", "list.csv")), "results", "--", "--os", "os", "--tube", "tube"]
        is_folder = "discs" in words
        if is_folder and not discs and wanted == {0}:
            wanted = {1}  # (a folder without a disc has no run)
        if not is_folder and wanted != {2}:
            wanted = {0} if table == "name,ticks,disc0,words\na,2000,,\n" and wanted else None
        if not is_folder and how == "--gather":
            wanted = None

        def good(made, at, out):
            if how == "--jobs":
                keys = [[word for word in shlex.split(line) if re.fullmatch("--key=[0-9a-f]{64}", word)] for line in out.decode().splitlines()]
                return "" if all(len(it) >= 1 for it in keys) and (not is_folder or "--batch" in words or len(keys) == discs) and not os.path.exists(os.path.join(at, "results")) else "a job has no key, or something was written"
            if how == "--clear":
                return ""
            with open(os.path.join(at, "results", "results.csv"), newline="", encoding="utf-8") as file:
                found = list(csv.DictReader(file))
            counts = b"suite: %d of %d are good: " % (len(found), len(found))
            if not any(line.startswith(counts) for line in out.splitlines()) or is_folder and "--against" not in words and len(found) != discs:
                return "the count is another one"
            if "--only" in words:
                return ""
            if any(row["state"] not in ("done", "same") or not os.path.exists(os.path.join(at, "results", "runs", row["key"] + ".json")) for row in found):
                return "a run that is good has no result"
            return "" if text_of(os.path.join(at, "results", "index.html")).count(b"<article") == len(found) else "the page has another number of runs"
        return Made("suite", words, files, good=good, folders=("discs",), below=("results", "kept"), wanted=wanted)

    # --- Runs, listings, captures ---

    def outputs(self, dice, name, share=0.25):
        """The outputs of a run under another name, some of them changed, some not there."""
        made = {}
        for old in self.plain.run:
            if dice.random() < 0.95:
                made[name + old[4:]] = self.nearly(dice, self.plain.files[old], share)
        return made

    def make_differs(self, dice):
        if dice.random() < 0.4:
            listing = self.plain.files["good.list"]
            lines = []
            for number, line in enumerate(listing.splitlines()):
                words = line.split(b" ", 7)
                logged = b"A=%b X=%b Y=%b S=1%b P=%b " % tuple(word[2:] for word in words[2:7])
                lines.append((logged if number % 3 else b"") + words[1] + b": " + words[7].lower())
                if number == 30:
                    lines += [b"", b"   (loops for 8 instructions)", b""]
            files = {"run.list": self.nearly(dice, listing, 0.4), "mame.tr": self.nearly(dice, b"\n".join(lines) + b"\n", 0.6)}
            return Made("differs", ["--mame", "mame.tr", "run.list"], files)
        if dice.random() < 0.3:
            trace, later = self.plain.files["good.trace"], dice.choice((0, 0, 7))
            other = b"".join(b"%010X%b\n" % (int(line[:10], 16) + later, line[10:]) for line in trace.splitlines())
            files = {"one.trace": self.nearly(dice, trace, 0.4), "two": self.nearly(dice, other, 0.4)}
            words = ["--within", dice.choice(("0", "6", "7", "-1"))] * (dice.random() < 0.4)
            wanted = {0} if not words or int(words[1]) >= later else {1}
            return Made("differs", ["--order"] + words + ["one", "two"], files, wanted={2} if "-1" in words else wanted)
        files = {**self.outputs(dice, "one", 0.15), **self.outputs(dice, "two", 0.15)}
        pictures = dice.random() < 0.4

        def good(made, at, out):
            for end in {name[3:] for name in made.files}:
                one, two = (made.files.get(name + end) for name in ("one", "two"))
                if one != two:
                    return "%s differs, and is not told" % end
            return "" if out.startswith(b"same: files ") else "it does not say that they are the same"
        one, two = ({name[3:]: data for name, data in files.items() if name.startswith(run)} for run in ("one", "two"))
        made = Made("differs", ["--pictures", "pics"] * pictures + ["one", "two"], files, writes={"pics", "pics/000.png"} if pictures else (), good=good,
                    wanted={1} if one != two else {0} if BIG not in one.values() else None)
        made.is_sure = True
        return made

    def make_screen(self, dice):
        words = dice.choice((["run"], ["--start", dice.choice(("7C28", "7FFF", "7C0", "x")), "run"], ["--frame", dice.choice("019"), "run"],
                             ["--frame", "0", "--colour", "--columns", dice.choice(("20", "80", "320", "0", "999")), "run"]))
        files = self.outputs(dice, "run", 0.5)
        wanted = {2} if {"7C0", "x"} & set(words) else {0} if words in (["run"], ["--frame", "0", "run"]) or "--start" in words else {1} if words[:1] == ["--frame"] and len(words) == 3 else None
        if not {"run.host", "run.000.ppm"} <= set(files) and wanted == {0}:
            wanted = None
        return Made("screen", words, files, wanted=wanted, good=lambda made, at, out: "" if "--frame" in made.words or out.count(b"\n") == 25 else "it has not 25 lines")

    # A capture with clocks that drift, glitches and names of its own, by `captures`; perhaps with a wrong answer.
    def make_capture(self, dice):
        plan, is_wrong = captures.plan_of(dice), dice.random() < 0.5
        if is_wrong:
            plan = plan._replace(sides="HP")
        machine = captures.Machine(dice, plan, 40000000)
        planted = machine.plant(150000) if is_wrong else None
        with tempfile.TemporaryDirectory() as folder:
            name, said = captures.write(os.path.join(folder, "in"), plan, machine)
            data, name = text_of(name), os.path.basename(name)
        words = ["--speed", str(plan.speed)] + (["--names", said] if said else [])
        words += list(dice.choice(((), (), ("--glitch", "x"), ("--skew", "1"), ("--glitch", "5ns"))))
        wanted = {2} if "x" in words or "1" in words else {8} if planted is not None else {0} if plan.sides == "HP" else {0, 1}
        return Made("trace", words + [name, "out.trace"], {name: self.nearly(dice, data, 0.3)}, writes={"out.trace"}, wanted=None if "5ns" in words else wanted)

    def make_trace(self, dice):
        if dice.random() < 0.4:
            return self.make_capture(dice)
        how = dice.choice((".vcd", ".csv", ".trace"))
        source = "in" + how
        files = {source: self.nearly(dice, self.plain.files["good" + how], 0.8)}
        out = dice.choice(("out.trace", "out.trace", source, "below/out.trace", "nowhere/out.trace") if how != ".trace" else ("out.vcd", "out.csv", source, "/dev/null"))
        words = (["--at", dice.choice(("0", "5", "-1", "9" * 15))] * (dice.random() < 0.2) + ["--speed", dice.choice("345")] * (dice.random() < 0.1)
                 + ["--names", dice.choice(("HCLK=D3", "tick=time", "x", "HA0="))] * (dice.random() < 0.1)) + [source, out]

        def good(made, at, _):
            if not out.endswith(".trace") or made.words[-1] != out:
                return ""
            done = subprocess.run([self.program, "check", out], cwd=at, stdin=subprocess.DEVNULL, stdout=subprocess.PIPE, stderr=subprocess.PIPE)
            return "" if done.returncode in (0, 8) else "the program says %r" % done.stderr[:200]
        is_good = out in ("out.trace", "below/out.trace", "out.vcd", "out.csv")
        return Made("trace", words, files, writes={out} if is_good else (), good=good, wanted=None if len(words) > 2 else {0} if is_good else {1, 2})

    def make_page(self, dice):
        files = self.outputs(dice, "run", 0.3)
        words = ["run"]
        if dice.random() < 0.3:
            files["run.html"] = dice.choice((b"mine", b"", b"<!DOCTYPE html>\n"))
        if dice.random() < 0.3:
            files["run.manifest"] = self.nearly(dice, b"beebtube manifest 1\nsources 0\nwords solo 2000 run --os os --tube tube\nstatus 0\n", 0.7)
        if dice.random() < 0.3:
            files.update(self.outputs(dice, "other", 0.3))
            words += ["--against", "other"]
        if dice.random() < 0.3:
            files["k"] = self.nearly(dice, self.plain.files["a.keys"])
            words += ["--keys", "k"]
        words += ["--trace", dice.choice(("0", "10", "none", "x"))] * (dice.random() < 0.3)
        is_all = len([name for name in files if name.startswith("run.")]) == len(self.plain.run) and words == ["run"]
        wanted = {2} if "x" in words else {1} if files.get("run.html") == b"mine" else {0} if is_all else None
        return Made("page", words, files, writes={"run.html"}, wanted=wanted, good=lambda made, at, _: "" if text_of(at + "/run.html").startswith(b"<!DOCTYPE html>") else "it is no page")

    def make_labels(self, dice):
        how = dice.randrange(3)
        if how == 0:
            part = dice.choice(("6502", "65c02", "z80"))
            source = self.nearly(dice, self.plain.files["small.asm"] + b"b1:\nb2:\nlast: RTS\n")
            return Made("labels", ["small.asm", part], {"small.asm": source}, wanted={2} if part == "z80" else {0})
        text = "good.list" if how == 1 else "text"
        dump = b"Processed\n[{'start':49152L,'.loop':49154L,'K':1.5L}]\n"
        labels = dice.choice((self.plain.files["labels"], dump, b"C000 start\nC002 loop\n"))
        files = {"labels": self.nearly(dice, labels, 0.5), text: self.nearly(dice, self.plain.files[text], 0.4)}

        def good(made, at, out):
            if text != "text" or made.files[text] != self.plain.files[text]:
                return ""
            with open(at + "/named", "wb") as file:
                file.write(out)
            done = subprocess.run([self.program, "asm", "6502", "named", "again"], cwd=at, stdin=subprocess.DEVNULL, stdout=subprocess.PIPE, stderr=subprocess.PIPE)
            same = done.returncode == 0 and text_of(at + "/again") == self.plain.files["os"]
            for name in ("named", "again"):
                if os.path.exists(at + "/" + name):
                    os.unlink(at + "/" + name)
            return "" if same else "the text with names is another source: %r" % done.stderr[:100]
        return Made("labels", ["--in", "labels", text], files, good=good, wanted={0})

    def make_debug(self, dice):
        files = {name: self.plain.files[name] for name in ("os", "tube", "font")}
        files["session"] = self.nearly(dice, self.plain.files["session"], 0.5)
        files["labels"] = self.nearly(dice, self.plain.files["labels"], 0.3)
        files["old.png"] = self.nearly(dice, self.plain.picture, 0.4)
        words = dice.choice((["session"], ["solo", "500", "x", "--os", "os", "--tube", "tube"], ["host", "500", "x", "--os", "os"], ["host", "500", "x", "--os", "tube"],
                             ["run", "300", "x", "--os", "os", "--tube", "missing"], ["os"], ["/dev/zero"]))
        names = dice.choices(("step", "back", "step 30", "back 7", "next", "return", "go 100", "go +5", "go -1", "go end", "until C00C", "before C000", "change 0070", "who 0070",
                              "access H R 0", "access P W 1 back", "sender", "memory 70 4", "list", "stack", "tube", "screen", "frame new.png", "frame old.png", "frame os", "where",
                              "host", "para", "other", "beam", "help", "bogus", "step 0", "until start", "g", "s", "m", "quit", "frame ../outside/victim", "; ;", "\xff"), k=dice.randrange(1, 7))
        script = "; ".join(names)
        words += ["--host-labels", "labels"] * (dice.random() < 0.3) + ["--against", dice.choice(("session", "solo 400 y --os os --tube tube", "'"))] * (dice.random() < 0.2)
        writes = {"new.png", "old.png"}
        is_good = set(names) <= {"step", "back", "list", "stack", "tube", "where", "help", "quit", "frame new.png"} and words in (["session"], ["solo", "500", "x", "--os", "os", "--tube", "tube"])
        wanted = {0} if is_good else {1} if words in (["os"], ["/dev/zero"]) else None
        if dice.random() < 0.6:
            return Made("debug", words + ["-c", script], files, writes=writes, wanted=wanted)
        return Made("debug", words, files, wanted=wanted, stdin=script.replace("; ", "\n").encode("utf-8", "surrogateescape") + b"\n", writes=writes)

    def make_play(self, dice):
        files = {name: self.plain.files[name] for name in ("os", "tube", "font")}
        disc = dice.choice(("game.ssd", "game.dsd", "-", "game.txt", "missing.ssd"))
        if disc in ("game.ssd", "game.dsd", "game.txt"):
            files[disc] = self.nearly(dice, self.plain.files["some.dsd"], 0.3)
        lines = ["--os os", "--font font", "--tube tube", "--speed 4", "--plugs 1", "--disc1 os", "# text", "--keys os", "--disc0 font", "--os missing", "--rom15 os"]
        text = "--os os\n" + "".join(line + "\n" for line in dice.choices(lines[1:], [9] * 6 + [1] * 4, k=dice.randrange(4)))
        chosen = dice.choice(("set", "roms.set", None))
        files[chosen or "roms.set"] = self.nearly(dice, text.encode(), 0.25)
        name = dice.choice(("game", "screen"))
        if dice.random() < 0.2:
            files[name + ".png"] = self.nearly(dice, self.plain.picture, 0.5)
        words = ["--start", "0.01", "--wait", dice.choice(("0", "0.02", "-1"))]
        for option in ("--both", "--caps", "--movie", "--wav", "--ticks"):
            words += [option] * (dice.random() < 0.2)
        words += ["--out", dice.choice(("new", "below/new", "nowhere/new", "../outside/victim"))] * (dice.random() < 0.2)
        words += ([chosen] if chosen else []) + [disc] + [dice.choice(("A", "a{SHOT}b", "{BREAK}", "{XX}", "", "\xe9"))] * (dice.random() < 0.7)
        ends = (".png", ".000.png", ".movie.png", ".wav")

        def good(made, at, out):
            if "--ticks" in made.words:
                return "" if out.strip().isdigit() else "it does not say the ticks"
            for one in out.decode().split():
                data = text_of(os.path.join(at, one))
                if one.endswith(".png") and not lines_in(data):
                    return "%s is no picture" % one
            return "" if out else "it names nothing"
        return Made("play", words, files, writes={base + end for base in ("game", "screen", "new", "below/new", "../outside/victim") for end in ends}, good=good)

    def make_execute(self, dice):
        built = os.path.join(EXAMPLES, "c", "built")
        files = {"out": b"", "loop": b"\x4c\x00\x08", "brk": b"\0", "kil": b"\x02", "k": self.nearly(dice, b"at 1000 shot\n", 0.2), "l": self.nearly(dice, b"al 000800 .here\n", 0.2)}
        del files["out"]
        words, wanted = dice.choice(((["--at", "0800", "loop"], 124), (["--at", "0800", "brk"], 134), (["--host", "--at", "2000", "kil"], 132), (["--at", "0800", "--start", "0801", "brk"], None),
                                     (["--at", "800", "loop"], 125), (["--host", "--trace", "new.trace", "limit"], 125), (["--shots", "new", "hello"], 125), (["--start", "0800", "brk"], 125),
                                     (["--both", "asks-host", "answers"], None), (["--at", "0800", "--both", "asks-host", "loop"], 124), (["hello"], 0), (["limit"], 0), (["three"], 3), (["upper"], 0),
                                     (["hello-host"], None), (["--host", "asks-host"], None), (["missing"], 125), (["--cpu", "z80", "three"], 125)))
        for name in set(words) & set(os.listdir(built)):
            files[name] = self.nearly(dice, text_of(os.path.join(built, name)), 0.4)
        more = ["--limit", "0.02" if wanted == 124 else "0.2"] + ["--time"] * (dice.random() < 0.2)
        for option in (("--listing", "new.list"), ("--save", "new.save"), ("--labels", "l"), ("--keys", "k", "--shots", "new")):
            more += option if dice.random() < 0.2 else ()
        if "--shots" in more and wanted == 125 and "--shots" in words:
            wanted = None
        return Made("execute", more + words + ["word"], files, stdin=dice.randbytes(dice.choice((0, 20))), wanted=None if wanted is None else {wanted},
                    writes={"new.list", "new.trace", "new.save", "new.000.png"})

    # The words of a run, and sources of its machines.
    def measured(self, dice):
        files = {name: self.nearly(dice, self.plain.files[name], 0.08) for name in ("os", "tube", "some.dsd", "labels", "os.asm", "session")}
        files["keys"] = b"at 1000 shot\n"
        run = dice.choice((["solo", "2000", "x", "--os", "os", "--tube", "tube", "--keys", "keys", "--disc0", "some.dsd"], ["session"], ["host", "2000", "x", "--os", "os"]))
        sources = dice.choice((["--host", "labels"], ["--host", "os.asm"], ["--para", "labels"], ["--host", "labels", "--para", "labels"]))
        return files, run, sources, {2} if run[0] == "host" and "--para" in sources else {0}

    def make_cover(self, dice):
        files, run, sources, wanted = self.measured(dice)
        out = dice.choice((None, None, "new.info", "nowhere/new.info", "below/new.info"))

        def good(made, at, told_):
            text = told_ if out is None else text_of(os.path.join(at, out))
            for record in text.decode().split("end_of_record\n")[:-1]:
                hits = dict(map(int, it.split(",")) for it in re.findall("(?m)^DA:(.*)$", record))
                counts = [int(re.search("(?m)^%s:([0-9]+)$" % name, record)[1]) for name in ("LF", "LH")]
                if counts != [len(hits), sum(map(bool, hits.values()))]:
                    return "its sums are others than its lines"
                if sources == ["--host", "labels"] and run[0] == "solo" and not self.is_any_changed(made):
                    starts = [max((self.plain.starts.get(at, 0) for at in place), default=0) for place in ((0xC000, 0xC001), range(0xC002, 0xC102))]
                    if [hits.get(1), hits.get(2)] != starts:
                        return "the listing has other starts: %r" % starts
            return ""
        return Made("cover", sources + (["-o", out] if out else []) + run, files, writes={out} - {None, "nowhere/new.info"}, good=good,
                    wanted={1} if out == "nowhere/new.info" and wanted == {0} else wanted)

    def is_any_changed(self, made):
        return any(data != self.plain.files.get(name, data) for name, data in made.files.items())

    def make_profile(self, dice):
        files, run, sources, wanted = self.measured(dice)
        files["before"] = self.nearly(dice, b"# callgrind format\nversion: 1\nevents: Cycles\n\nfl=labels\nfn=start\n1 10\n", 0.5)
        more = list(dice.choice(((), (), ("-o", "new.out"), ("--against", "before"))))

        def good(made, at, out):
            cycles = [int(row[1].replace(",", "")) for row in re.finditer(r"(?m)^ *([0-9,]+) +[0-9.]+ ", out.decode("utf-8", "replace"))]
            if sources[0] != "--host" or more or len(sources) > 2 or self.is_any_changed(made):
                return ""
            return "" if 0 <= 2000 // 3 - sum(cycles) < 9 else "%d cycles of %d" % (sum(cycles), 2000 // 3)
        two = len(sources) > 2 and "-o" in more
        return Made("profile", sources + more + run, files, writes={"new.out"} if "-o" in more else (), good=good,
                    wanted={2} if two else None if "--against" in more else wanted)

    def make_dap(self, dice):
        words = dice.choice(([], [], [], ["--port", "0"], ["--port", "65536"], ["--port"], ["--port", "x"], ["x"]))
        files = {name: self.plain.files[name] for name in ("os", "tube")}
        files["session"] = self.nearly(dice, self.plain.files["session"], 0.4)
        asked = [{"command": "initialize", "arguments": {"adapterID": "x"}}, {"command": "launch", "arguments": dice.choice((
            {"session": "session"}, {"args": ["solo", "500", "x", "--os", "os", "--tube", "tube"]}, {"session": "\x1b"}, {"args": "x"}, {"program": 7}, {}))},
            {"command": "configurationDone"}, {"command": "threads"}, {"command": dice.choice(("stepBack", "next", "x", "stackTrace")), "arguments": {"threadId": 1}}, {"command": "disconnect"}]
        texts = [json.dumps({"seq": number, "type": "request", **it}).encode() for number, it in enumerate(asked, 1)]
        stdin = b"".join(b"Content-Length: %d\r\n\r\n%b" % (len(text), text) for text in texts)
        if dice.random() < 0.3:
            stdin = changed(dice, stdin)

        def good(made, at, out):
            while out:
                head, _, rest = out.partition(b"\r\n\r\n")
                length = int(head.split(b":")[1])
                message, out = json.loads(rest[:length]), rest[length:]
                if message["type"] not in ("response", "event"):
                    return "it sends %r" % message
            return ""
        return Made("dap", words, files, stdin=stdin, good=good, wanted={0} if not words else {2} if words[1:] != ["0"] else None)
