"""Running the program: each call in a folder of its own, without a shell.

`Program().run(ticks, os=.., tube=..)` gives a `Run`; where the program refuses, `Refused` is raised with what is wrong.
"""
from __future__ import annotations

import contextlib
import os
import re
import subprocess
import weakref
from typing import TYPE_CHECKING, Any, Dict, List, Literal, Mapping, NamedTuple, Optional, Sequence, Set, Tuple, Union

from .disc import LARGEST, Disc, is_double
from .explain import explain
from .faults import Fault, Refused
from .files import IMAGE_CAP, OUTPUT_CAP, SESSION_CAP, SOURCE_CAP, Name, own_folder, read_file
from .frame import Frame, frames_in
from .labels import Labels
from .report import Registers, Report
from .report import parse as parse_report
from .script import Script
from .sets import read_set
from .trace import Trace

if TYPE_CHECKING:
    from .past import Past

# The folder above release/, docs/, examples/ and tools/: the clone, or an installed package, which has what it needs of them.
_PACKAGE = os.path.dirname(os.path.realpath(__file__))
ABOUT = os.path.join(_PACKAGE, "release", "about")
IS_INSTALLED = os.path.exists(ABOUT)
TOP = _PACKAGE if IS_INSTALLED else os.path.dirname(os.path.dirname(_PACKAGE))
LAUNCHER = os.path.join(TOP, "beebtube")
OWN = os.path.join(TOP, "system", "system.set")  # the project's own ROMs


class Source(str):
    """The text of a source, a script or a trace, where another `str` is the name of a file."""

    def __repr__(self) -> str:
        return f"Source({str(self)!r})"


# What an image, a script, a trace or a session may be given as: its bytes, its text (a Source), or the name of its file.
Data = Union[bytes, bytearray, Name, Source, Script, Disc]
Optionally = Optional[Data]
Side = Literal["host", "para"]
Part = Literal["6502", "65c02"]
Speed = Literal[3, 4]


class Ended(NamedTuple):
    """How a call ended: its status, or a signal's number below zero, and what it said."""

    status: int
    out: bytes
    err: bytes

    @property
    def text(self) -> str:
        """What it said of its status, without the last line feed."""
        said = self.out if self.status == 8 else self.err
        return said.decode("utf-8", "replace").rstrip("\n")

    @property
    def is_cut_short(self) -> bool:
        """It ended by what says more of this machine than of the call: no room, no thread, no memory, or a signal."""
        return self.status in (5, 6, 7) or self.status < 0


class Version(NamedTuple):
    """What `./beebtube --version` prints.

    sources  the sum of the sources from which the program is built
    kits     the kits that proved them
    program  the path of the program that is run, None where it is not built yet
    sum      the program's own SHA-256 sum, None likewise
    """

    sources: str
    kits: List[str]
    program: Optional[str]
    sum: Optional[str]


class Program:
    """The program: that which ./beebtube runs, or another of a path. BEEBTUBE=PATH in the environment is taken where none is said.

    The launcher itself is asked once which program it runs; that one is then called, so what is said is what the program says.
    """

    def __init__(self, path: Optional[Name] = None):
        given = os.fspath(path) if path is not None else os.environ.get("BEEBTUBE") or None
        self._path = os.path.realpath(given) if given else None
        self._running: Set["subprocess.Popen[bytes]"] = set()

    @property
    def path(self) -> str:
        """The path of the program, which is built first where it has to be. Fault where it cannot be."""
        if self._path is None:
            found = version().program
            if found is None:
                _ask_launcher(["check", os.devnull])
                found = version().program
            if found is None:
                raise Fault("there is no program of these sources")
            self._path = found
        return self._path

    def __repr__(self) -> str:
        return f"Program({self._path!r})" if self._path else "Program()"

    def call(self, words: Sequence[str], folder: Name = ".", timeout: Optional[float] = None, stdin: bytes = b"",
             nice: int = 0) -> Ended:
        """Calls the program with these words in a folder.

        timeout  seconds after which it is ended; Fault then
        stdin    what it reads from its standard input
        nice     how much less it is to be preferred to others, 0 to 19
        """
        command = [self.path] + list(words)
        if nice:
            command = ["nice", "-n", str(nice)] + command
        try:
            # Signals of pipes and of files that grow too long stay ignored, as Python has them: such a write fails then.
            child = subprocess.Popen(command, cwd=folder, stdin=subprocess.PIPE if stdin else subprocess.DEVNULL,
                                     stdout=subprocess.PIPE, stderr=subprocess.PIPE, restore_signals=False)
        except (OSError, ValueError) as error:
            if not os.path.isdir(folder):
                raise Fault("the folder of the run is gone: "
                            "it goes by close() and with its process") from None
            raise Fault("cannot run %s: %s" % (self.path, error)) from None
        self._running.add(child)
        try:
            out, err = child.communicate(stdin or None, timeout)
        except subprocess.TimeoutExpired:
            raise Fault("the program did not end within %g seconds" % (timeout or 0)) from None
        finally:
            if child.returncode is None:
                child.kill()
                child.communicate()
            self._running.discard(child)
        return Ended(child.wait(), out, err)

    def stop(self) -> None:
        """Ends all calls that go on, in other threads too."""
        for child in list(self._running):
            child.kill()

    def done(self, words: Sequence[str], folder: Name = ".", timeout: Optional[float] = None) -> Ended:
        """The same; Refused where the status is not 0."""
        ended = self.call(words, folder, timeout)
        if ended.status != 0:
            raise Refused(ended.status, ended.text, explain(ended.status, ended.text, list(words), folder))
        return ended

    # --- Runs ---

    # Images, scripts, sessions and traces are `Data`: bytes, a Source, the name of a file, a Script or a Disc.

    def run(
            self, ticks: int, *, os: Optionally = None, tube: Optionally = None,
            rom0: Optionally = None, rom1: Optionally = None, rom2: Optionally = None,
            rom3: Optionally = None, rom4: Optionally = None, rom5: Optionally = None,
            rom6: Optionally = None, rom7: Optionally = None, rom8: Optionally = None,
            rom9: Optionally = None, rom10: Optionally = None, rom11: Optionally = None,
            rom12: Optionally = None, rom13: Optionally = None, rom14: Optionally = None,
            rom15: Optionally = None,
            font: Optionally = None, keys: Optionally = None, disc0: Optionally = None, disc1: Optionally = None,
            plugs: Optional[int] = None, keep: Optional[int] = None, speed: Optional[Speed] = None,
            wav: bool = False, save: bool = False, timeout: Optional[float] = None) -> "Run":
        """Runs both machines from power-on, in two threads.

        ticks      how long: 6,000,000 are a second, or 12,000,000 with speed=4; at most 1,073,741,824
        os, tube   the operating system and the boot ROM; rom0 to rom15 are paged ROMs
        keys       the key script; font, disc0, disc1, plugs, keep, speed are those of docs/COMMANDS.md
        wav, save  the sound and the session are kept
        timeout    seconds after which it is ended; Fault then
        Refused where the program refuses.
        """
        return self._machines(["run", str(ticks)], locals())

    def solo(
            self, ticks: int, *, os: Optionally = None, tube: Optionally = None,
            rom0: Optionally = None, rom1: Optionally = None, rom2: Optionally = None,
            rom3: Optionally = None, rom4: Optionally = None, rom5: Optionally = None,
            rom6: Optionally = None, rom7: Optionally = None, rom8: Optionally = None,
            rom9: Optionally = None, rom10: Optionally = None, rom11: Optionally = None,
            rom12: Optionally = None, rom13: Optionally = None, rom14: Optionally = None,
            rom15: Optionally = None,
            font: Optionally = None, keys: Optionally = None, disc0: Optionally = None, disc1: Optionally = None,
            plugs: Optional[int] = None, keep: Optional[int] = None, speed: Optional[Speed] = None,
            wav: bool = False, save: bool = False, timeout: Optional[float] = None) -> "Run":
        """Runs both machines on one thread; the same files."""
        return self._machines(["solo", str(ticks)], locals())

    def resume(self, session: Data, ticks: int, *,
               keys: Optionally = None, keep: Optional[int] = None,
               wav: bool = False, save: bool = False, timeout: Optional[float] = None) -> "Run":
        """Goes on with a saved run, up to the tick `ticks` from power-on.

        keys  what is pressed from the session's moment on, in place of what its own script has there: one start serves
              many tests. Ticks are from power-on. Fault at an event before that moment.
        """
        given = {"keep": keep, "wav": wav, "save": save, "timeout": timeout}
        if keys is not None:
            session = _with_keys(session, keys)
        return self._machines(["resume", "session", str(ticks)], given, {"session": session})

    def replay(
            self, side: Side, trace: Union[Data, Trace], ticks: int, *, os: Optionally = None, tube: Optionally = None,
            rom0: Optionally = None, rom1: Optionally = None, rom2: Optionally = None,
            rom3: Optionally = None, rom4: Optionally = None, rom5: Optionally = None,
            rom6: Optionally = None, rom7: Optionally = None, rom8: Optionally = None,
            rom9: Optionally = None, rom10: Optionally = None, rom11: Optionally = None,
            rom12: Optionally = None, rom13: Optionally = None, rom14: Optionally = None,
            rom15: Optionally = None,
            font: Optionally = None, keys: Optionally = None, disc0: Optionally = None, disc1: Optionally = None,
            plugs: Optional[int] = None, speed: Optional[Speed] = None,
            wav: bool = False, no_tube: bool = False, timeout: Optional[float] = None) -> "Run":
        """Runs one machine, side "host" or "para", against a trace. Refused with status 8 where it does something else."""
        return self._machines(["replay", side, "trace", str(ticks)], locals(), {"trace": trace})

    def host(
            self, ticks: int, *, os: Optionally = None,
            rom0: Optionally = None, rom1: Optionally = None, rom2: Optionally = None,
            rom3: Optionally = None, rom4: Optionally = None, rom5: Optionally = None,
            rom6: Optionally = None, rom7: Optionally = None, rom8: Optionally = None,
            rom9: Optionally = None, rom10: Optionally = None, rom11: Optionally = None,
            rom12: Optionally = None, rom13: Optionally = None, rom14: Optionally = None,
            rom15: Optionally = None,
            font: Optionally = None, keys: Optionally = None, disc0: Optionally = None, disc1: Optionally = None,
            plugs: Optional[int] = None, speed: Optional[Speed] = None,
            wav: bool = False, timeout: Optional[float] = None) -> "Run":
        """Runs a Model B alone: nothing answers where the Tube would."""
        return self._machines(["replay", "host", "trace", str(ticks)], {**locals(), "no_tube": True}, {"trace": b""})

    def follow(
            self, side: Side, trace: Union[Data, Trace], ticks: int, *, os: Optionally = None, tube: Optionally = None,
            rom0: Optionally = None, rom1: Optionally = None, rom2: Optionally = None,
            rom3: Optionally = None, rom4: Optionally = None, rom5: Optionally = None,
            rom6: Optionally = None, rom7: Optionally = None, rom8: Optionally = None,
            rom9: Optionally = None, rom10: Optionally = None, rom11: Optionally = None,
            rom12: Optionally = None, rom13: Optionally = None, rom14: Optionally = None,
            rom15: Optionally = None,
            font: Optionally = None, keys: Optionally = None, disc0: Optionally = None, disc1: Optionally = None,
            plugs: Optional[int] = None, speed: Optional[Speed] = None,
            at: Union[int, str, None] = None, watch: Union[int, str, None] = None, from_tick: Optional[int] = None,
            no_tube: bool = False, timeout: Optional[float] = None) -> "Run":
        """Lists the instructions of a machine against a trace. `.listing` has them.

        at, watch  instructions at this address, and those before which this byte changed; numbers or four digits
        from_tick  instructions that begin at this tick or later
        """
        return self._machines(["follow", side, "trace", str(ticks)], locals(), {"trace": trace})

    def _machines(self, words: List[str], given: Mapping[str, Any], files: Optional[Dict[str, Any]] = None) -> "Run":
        made = Run()
        named = {}
        for name, data in (files or {}).items():
            named[name] = _put(made.folder, name, data)
        options = {name: value for name, value in given.items() if name not in _NO_OPTIONS}
        if words[0] in ("run", "solo") or given.get("no_tube"):
            options = _with_own(options)
        words = words + ["out"] + _option_words(made.folder, options, named)
        ended = self.call(words, made.folder, given["timeout"])
        if ended.status != 0:
            raise _refusal(ended, words, made.folder, named)
        made.said = ended.out.decode("utf-8", "replace")
        made.words, made.program = words, self
        return made

    # --- Texts and images ---

    def check(self, trace: Union[Data, Trace]) -> int:
        """How many accesses a trace has whose answers the chip would give; Refused with status 8 where it would not, or 4."""
        with own_folder() as folder:
            return int(self._made(["check", "trace"], folder, {"trace": trace}).out.split()[1])

    def asm(self, part: Part, source: Data) -> bytes:
        """The image of a source text (a Source, bytes, or the name of its file) for part "6502" or "65c02"."""
        with own_folder() as folder:
            self._made(["asm", part, "source", "image"], folder, {"source": source})
            return read_file(os.path.join(folder, "image"), 65536)

    def dis(self, part: Part, image: Data, origin: int) -> str:
        """The source text of an image's bytes, which lie from the address `origin` on."""
        with own_folder() as folder:
            self._made(["dis", part, "image", "%04X" % origin, "text"], folder, {"image": image})
            return read_file(os.path.join(folder, "text"), SOURCE_CAP).decode("ascii")

    def labels_of(self, part: Part, source: Data) -> Labels:
        """The labels of a source text, with their addresses, by the program's own assembler."""
        return Labels.of_source(self, part, bytes_of(source, SOURCE_CAP))

    # Calls the program on files that are put into a folder; Refused names the caller's files.
    def _made(self, words: List[str], folder: str, files: Dict[str, Any]) -> Ended:
        named = {name: _put(folder, name, data) for name, data in files.items()}
        ended = self.call(words, folder)
        if ended.status != 0:
            raise _refusal(ended, words, folder, named)
        return ended

    def gen(self, seed: int) -> Dict[str, str]:
        """What the demonstration of a seed says: `seed`, `bytes`, `sum` and `ticks`, each as a text."""
        said = self.done(["gen", str(seed)]).out.decode().splitlines()
        return {word: rest for word, _, rest in (line.partition(" ") for line in said)}


class Run:
    """What a call wrote, in a folder of its own, which goes away with this (or at `close()`).

    said     what stood on standard output
    words    the words of the call
    program  the program that was called
    """

    said = ""
    words: List[str] = []
    program: Optional[Program] = None

    def __repr__(self) -> str:
        return f"<Run: {' '.join(self.words)}>"

    def __reduce__(self) -> str:
        raise TypeError("a Run stays in its process, with its folder: pass on its members instead")

    def __init__(self) -> None:
        stack = contextlib.ExitStack()
        self.folder: str = stack.enter_context(own_folder())
        self._close = weakref.finalize(self, stack.close)

    def close(self) -> None:
        """Removes the folder."""
        self._close()

    def __enter__(self) -> "Run":
        return self

    def __exit__(self, *_: object) -> None:
        self.close()

    def path(self, ending: str) -> str:
        """The path of an output, as `path("host")` of OUT.host, `path("wav")` and `path("save")`; Fault where it was not written."""
        place = os.path.join(self.folder, "out." + ending)
        if not os.path.exists(place):
            raise Fault("the call wrote no %s" % ending)
        return place

    def output(self, ending: str) -> bytes:
        """The bytes of an output."""
        return read_file(self.path(ending), OUTPUT_CAP)

    @property
    def report(self) -> Report:
        """Ticks, registers and counts."""
        return parse_report(self.output("report"))

    @property
    def registers(self) -> Dict[str, Registers]:
        """The registers of "host" and "para", where the command has them."""
        return self.report.registers

    @property
    def host(self) -> bytes:
        """The host's memory, 32,768 bytes from 0000 on."""
        return self.output("host")

    @property
    def para(self) -> bytes:
        """The second processor's memory, 65,536 bytes."""
        return self.output("para")

    @property
    def memory(self) -> Dict[str, bytes]:
        """The memories of "host" and "para", where the command has them."""
        return {name: self.output(name) for name in ("host", "para") if os.path.exists(os.path.join(self.folder, "out." + name))}

    @property
    def accesses(self) -> Trace:
        """The accesses to the Tube, read from the trace's file one after another."""
        return Trace(self.path("trace"), self)

    @property
    def frames(self) -> List[Frame]:
        """The frames of the shots, in their order."""
        return [Frame.read(os.path.join(self.folder, name)) for name in frames_in(self.folder)]

    @property
    def discs(self) -> Dict[int, Disc]:
        """The discs afterwards, by their drives, 0 and 1."""
        found = {}
        for drive in (0, 1):
            if os.path.exists(os.path.join(self.folder, "out.d%d" % drive)):
                image = self.output("d%d" % drive)
                # What a session holds is known to be double by its length alone.
                double = os.path.lexists(os.path.join(self.folder, "disc%d.dsd" % drive)) or len(image) > LARGEST[False]
                found[drive] = Disc(image, double)
        return found

    @property
    def plugs(self) -> List[bytes]:
        """What the plugged devices hold: the RAM card's 65,536 bytes, and what was printed."""
        names = sorted(name for name in os.listdir(self.folder) if re.fullmatch(r"out\.plug[0-9]", name))
        return [self.output(name[4:]) for name in names]

    @property
    def wav(self) -> bytes:
        """The sound file, of wav=True."""
        return self.output("wav")

    @property
    def session(self) -> bytes:
        """The session file, of save=True; `resume` takes it."""
        return self.output("save")

    def past(self) -> Past:
        """The run with all its moments, of save=True."""
        from .past import Past
        return Past.of_session(self.program or Program(), self.path("save"))

    @property
    def listing(self) -> str:
        """The listing, of `follow`."""
        return self.output("list").decode("ascii")

    def screen(self, start: int = 0x7C00) -> List[str]:
        """The 25 lines of a teletext page, each without blanks at its end.

        start  the address of the page's first letter, 7C00 to 7FFF: another if the system has scrolled the screen. After
               7FFF the page goes on at 7C00.
        Codes below 20 (colours and the like) are blanks; the bytes 23, 5F and 60 are the signs that teletext has for them.
        """
        return screen_of(self.host, start)


def screen_of(memory: bytes, start: int = 0x7C00) -> List[str]:
    """The same of a host's memory."""
    if not 0x7C00 <= start <= 0x7FFF or len(memory) < 0x8000:
        raise Fault("a teletext page begins at 7C00 to 7FFF of the host's memory")
    text = (memory[start:0x8000] + memory[0x7C00:start])[:1000].decode("latin-1").translate(_SHOWN)
    return [text[at : at + 40].rstrip() for at in range(0, 1000, 40)]


# The signs of teletext's English set where they are others than those of ASCII.
_SIGNS = {0x23: "£", 0x5B: "←", 0x5C: "½", 0x5D: "→", 0x5E: "↑", 0x5F: "#", 0x60: "—", 0x7B: "¼", 0x7C: "‖", 0x7D: "¾", 0x7E: "÷", 0x7F: "█"}
# Each byte as a letter of the page: its top bit does not count.
_SHOWN = [_SIGNS.get(code & 127, chr(code & 127) if code & 127 >= 32 else " ") for code in range(256)]

_FILES = ("os", "tube", "font", "keys") + tuple("rom%d" % slot for slot in range(16))


def bytes_of(data: Union[Data, Trace], most: int) -> bytes:
    """The bytes of what a caller gives; Fault where its file cannot be read, or has more than `most`."""
    if isinstance(data, Trace):
        return bytes_of(data._source, most)
    if isinstance(data, Source):
        return data.encode("utf-8")
    if isinstance(data, Script):
        return data.text().encode()
    if isinstance(data, Disc):
        return data.image
    if isinstance(data, (bytes, bytearray, memoryview)):
        return bytes(data)
    return read_file(data, most)


# Puts data into the folder under a name, and gives the name of its file where it has one; that is linked to, since the
# program reads alone.
def _put(folder: str, name: str, data: Union[Data, Trace]) -> Optional[str]:
    place = os.path.join(folder, name)
    if isinstance(data, Trace):
        data = data._source
    if isinstance(data, (str, os.PathLike)) and not isinstance(data, Source):
        os.symlink(os.path.abspath(os.fspath(data)), place)
        return os.fspath(data)
    if not isinstance(data, (bytes, bytearray, memoryview, Source, Script, Disc)):
        raise TypeError(f"{name}: bytes, a Source, a Script, a Disc or the name of a file, and no {type(data).__name__}")
    with open(place, "wb") as file:
        file.write(bytes_of(data, 0))
    return None


# What of a call's arguments is no option of the program.
_NO_OPTIONS = ("self", "ticks", "side", "trace", "session", "timeout")
_OPTIONS = {"no_tube": "--no-tube", "from_tick": "--from"}


def _with_own(options: Dict[str, Any]) -> Dict[str, Any]:
    """Without an operating system a machine has the project's own ROMs, but for those that are given."""
    if options.get("os") is not None:
        if "no_tube" not in options and options.get("tube") is None:
            raise TypeError("tube is missing beside os")
        return options
    own = {option[2:]: value for option, value in read_set(OWN) if option != "--tube" or "no_tube" not in options}
    return {**options, **{name: value for name, value in own.items() if options.get(name) is None}}


def _option_words(folder: str, options: Dict[str, Any], named: Dict[str, Optional[str]]) -> List[str]:
    words: List[str] = []
    for name, value in options.items():
        option = _OPTIONS.get(name, "--" + name)
        if name in ("wav", "save", "no_tube"):
            if not isinstance(value, bool):
                raise TypeError(f"{name}: True or False, and no {type(value).__name__}: Run.wav and Run.session have what is kept")
            words += ([option] + ["out." + name] * (name != "no_tube")) if value else []
        elif value is None:
            continue
        elif name in ("disc0", "disc1") or name in _FILES:
            place = name if name in _FILES else name + (".dsd" if _is_double(value) else ".ssd")
            named[place] = _put(folder, place, value)
            words += [option, place]
        else:
            words += [option, "%04X" % value if name in ("at", "watch") and isinstance(value, int) else str(value)]
    return words


# What a call was refused for, with the caller's names in place of those in the call's folder.
def _refusal(ended: Ended, words: List[str], folder: str, named: Mapping[str, Optional[str]]) -> Refused:
    # (by a name of its own, which keeps the ending, so that no other word of a text is taken for it)
    places = {name: "given-" + name for name, given in named.items() if given is not None}
    for name, place in places.items():
        if not os.path.lexists(os.path.join(folder, place)):
            os.symlink(os.path.abspath(str(named[name])), os.path.join(folder, place))
    why = explain(ended.status, ended.text, [places.get(word, word) for word in words], folder)
    text = re.sub(r"\A(cannot read|too long) (.*)\Z", lambda it: f"{it[1]} {named.get(it[2]) or it[2]}", ended.text)
    for name, place in places.items():
        why = [line.replace(place, str(named[name])) for line in why]
    return Refused(ended.status, text, why)


# A session with another script from its moment on.
def _with_keys(session: Data, given: Data) -> bytes:
    from .inputs import Fields
    fields = Fields(bytes_of(session, SESSION_CAP))
    keys = given if isinstance(given, Script) else Script.parse(bytes_of(given, IMAGE_CAP))
    before = [it for it in Script.parse(fields.images.get("keys", b"")).events if it.tick < fields.tick]
    early = [it for it in keys.events if it.tick < fields.tick]
    if early:
        raise Fault(f"the keys begin at tick {early[0].tick:,}, before the session's {fields.tick:,}")
    return fields.with_keys(Script(before + keys.events).text().encode())


def _is_double(value: Any) -> bool:
    if isinstance(value, Disc):
        return value.double
    return not isinstance(value, (bytes, bytearray, memoryview)) and is_double(value)


def _ask_launcher(words: List[str]) -> Tuple[int, str, str]:
    try:
        done = subprocess.run([LAUNCHER] + words, stdin=subprocess.DEVNULL, stdout=subprocess.PIPE, stderr=subprocess.PIPE)
    except OSError as error:
        raise Fault("cannot run %s: %s" % (LAUNCHER, error.strerror)) from None
    return done.returncode, done.stdout.decode("utf-8", "replace"), done.stderr.decode("utf-8", "replace")


# What an installed package says of itself, as its launcher would.
def _about() -> Tuple[int, str, str]:
    about = read_file(ABOUT).decode("utf-8")
    return 0, about + f"program {os.path.join(TOP, 'release', 'beebtube')}\n", ""


_version: Optional[Version] = None


def know(told: Version) -> None:
    """Takes what the launcher printed for another call, so that it is not asked once more."""
    global _version
    _version = told


def version() -> Version:
    """What the launcher prints about its program; Fault if it does not. It is asked until it has a program."""
    global _version
    if _version is None or _version.program is None:
        _version = _ask_version()
    return _version


def _ask_version() -> Version:
    status, out, err = _about() if IS_INSTALLED else _ask_launcher(["--version"])
    told: Dict[str, List[str]] = {}
    for line in out.splitlines():
        word, _, rest = line.partition(" ")
        told.setdefault(word, []).append(rest)
    if status != 0 or "sources" not in told:
        raise Fault("./beebtube does not tell which program it runs: %s" % (err.strip() or out.strip()))
    return Version(told["sources"][0], told.get("kit", []), *(told[word][0] if word in told else None for word in ("program", "sum")))
