"""Reading with a cap, sums, and writing that leaves nothing half done.

A name is a text as the system gives it, a path, or bytes. What is wrong with a file is raised as `Fault`, in the program's own
words: `cannot read NAME`, `too long NAME`, `cannot write NAME`.
"""
from __future__ import annotations

import contextlib
import errno
import fcntl
import hashlib
import io
import os
import re
import shutil
import signal
import stat
import tempfile
import time
from typing import BinaryIO, Callable, Iterable, Iterator, List, Optional, Union

from .faults import Fault, NoRoom

Name = Union[str, "os.PathLike[str]"]

# The most bytes of a file of each kind, as the program takes them.
TRACE_CAP = 100663296
SOURCE_CAP = 4194304
SESSION_CAP = 33554432
IMAGE_CAP = 1048576
# Of a text that only tools read: a manifest, a set, a text to be typed.
TEXT_CAP = 4194304
# Of a picture, and of any output of the program: a listing of 1,048,576 lines is the longest.
OUTPUT_CAP = 268435456

BLOCK = 1 << 18

# Signals that end a tool.
STOPS = (signal.SIGINT, signal.SIGTERM, signal.SIGHUP)

# The mode of a new file: asked once, since asking changes it for a moment.
_mask = os.umask(0)
os.umask(_mask)
MODE_OF_NEW = 0o666 & ~_mask


@contextlib.contextmanager
def reading(name: Name) -> Iterator[None]:
    """What fails meanwhile is the fault `cannot read NAME`."""
    try:
        yield
    except (OSError, ValueError):
        raise Fault(f"cannot read {os.fspath(name)}") from None


def too_long(name: Name, most: int) -> Fault:
    """The fault of a file that has more bytes than a tool takes."""
    return Fault(f"too long {os.fspath(name)}: it has more than {most:,} bytes")


# A file that has no bytes yet gives none: it is not waited for.
class _Reading(io.FileIO):
    def readinto(self, buffer) -> int:  # type: ignore[no-untyped-def]
        count = super().readinto(buffer)
        if count is None:
            raise BlockingIOError(errno.EAGAIN, os.strerror(errno.EAGAIN))
        return count


def open_file(name: Name, plain: bool = False) -> BinaryIO:
    """The file, opened for reading without waiting for whoever writes a pipe; Fault if it cannot be opened, or if a plain file is
    meant and it is a folder, a pipe or a device."""
    number = None
    try:
        number = os.open(name, os.O_RDONLY | os.O_NONBLOCK | os.O_CLOEXEC)
        mode = os.fstat(number).st_mode
        if plain and not stat.S_ISREG(mode):
            raise Fault("%s is no plain file" % os.fspath(name))
        if not stat.S_ISREG(mode):
            os.set_blocking(number, True)
        return io.BufferedReader(_Reading(number))
    except (OSError, ValueError, Fault) as error:
        if number is not None:
            os.close(number)
        raise error if isinstance(error, Fault) else Fault("cannot read %s" % os.fspath(name)) from None


def read_file(name: Name, most: int = IMAGE_CAP, plain: bool = False) -> bytes:
    """The bytes of a file, `most` of them at most; no more than one byte above is read, however long it is."""
    with open_file(name, plain) as file, reading(name):
        # No more room than a plain file needs; another kind of file has no length before it is read.
        data = file.read(min(most, os.fstat(file.fileno()).st_size) + 1)
        if data:
            data += file.read(most + 1 - len(data))
    if len(data) > most:
        raise too_long(name, most)
    return data


def read_text(name: Name, most: int = TEXT_CAP, plain: bool = False) -> str:
    """The text of a file in UTF-8; Fault where it is none."""
    try:
        return read_file(name, most, plain).decode("utf-8")
    except UnicodeDecodeError as error:
        raise Fault("%s is no text: byte %d is not UTF-8" % (os.fspath(name), error.start)) from None


def blocks_of(name: Name, most: Optional[int] = None) -> Iterator[bytes]:
    """The bytes of a file in blocks, so that a large one is never held whole."""
    left = most
    with open_file(name) as file, reading(name):
        for block in iter(lambda: file.read(BLOCK), b""):
            if left is not None:
                left -= len(block)
                if left < 0:
                    raise too_long(name, most or 0)
            yield block


LONGEST = 4096  # bytes of a line of a listing or a trace


def lines_of(name: Name, most: int = OUTPUT_CAP) -> Iterator[bytes]:
    """The lines of a file without their ends, one after another; Fault where it has more than `most` bytes, or a line is too long."""
    read = 0
    with open_file(name) as file, reading(name):
        for line in iter(lambda: file.readline(LONGEST), b""):
            read += len(line)
            if read > most:
                raise too_long(name, most)
            if len(line) == LONGEST:
                raise Fault(f"{os.fspath(name)} has a line of {LONGEST:,} bytes or more")
            yield line.rstrip(b"\r\n")


class Sum:
    """The SHA-256 sum of a file, in 64 hexadecimal digits, and its length in bytes."""

    def __init__(self, blocks: Iterable[bytes]):
        digest = hashlib.sha256()
        self.length = 0
        for block in blocks:
            digest.update(block)
            self.length += len(block)
        self.digits = digest.hexdigest()

    def __str__(self) -> str:
        return "%s %d" % (self.digits, self.length)


def sum_of(name: Name, most: Optional[int] = OUTPUT_CAP) -> Sum:
    """The sum of a file; Fault where it cannot be read or has more bytes than `most`."""
    return Sum(blocks_of(name, most))


def is_plain(name: Name) -> bool:
    """It is a plain file, or a link to one: no folder, no pipe, no device."""
    try:
        return stat.S_ISREG(os.stat(name).st_mode)
    except (OSError, ValueError):
        return False


def same_file(one: Name, other: Name) -> bool:
    """Both names are of one file, by whatever path or link."""
    try:
        return os.path.samefile(one, other)
    except (OSError, ValueError):
        return os.path.realpath(one) == os.path.realpath(other)


def look_at_place(name: Name, what: str, is_own: Callable[[bytes], bool], most: int = 4096) -> None:
    """Fault if a file of another kind has the name of one that is to be written: the name came there by a mistake, or the file is
    somebody's own. `is_own` says of its first bytes whether it is a `what`; an empty file is no other one."""
    if is_plain(name):
        with open_file(name) as file, reading(name):
            begin = file.read(most)
        if begin and not is_own(begin):
            raise Fault(f"{os.fspath(name)} is there, and is no {what}: it is not overwritten")


def make_folder(name: Name) -> None:
    """Makes a folder, and those above it, if it is missing; Fault if it cannot be made."""
    try:
        os.makedirs(name, exist_ok=True)
    except (OSError, ValueError) as error:
        raise writing_fault(name, error) from None


def make_new_folder(name: Name, what: str) -> None:
    """The same; Fault if there is something in it."""
    make_folder(name)
    with reading(name):
        if os.listdir(name):
            raise Fault(f"{os.fspath(name)} is there, and is not empty: {what} a new folder")


def inside(folder: Name, name: str) -> str:
    """The path of `name` below `folder`; Fault where the name is absolute, goes up, is empty or goes through a link."""
    clean = os.path.normpath(name) if name else ""
    if not clean or "\0" in name or os.path.isabs(name) or clean == "." or clean.split("/")[0] == ".." or name.endswith("/"):
        raise Fault("%r is no file below the folder" % name)
    place = os.path.join(os.fspath(folder), clean)
    if os.path.realpath(place) != os.path.join(os.path.realpath(folder), clean):
        raise Fault("%r goes through a link" % name)
    return place


@contextlib.contextmanager
def held() -> Iterator[None]:
    """Signals that end the tool come only after this."""
    before = signal.pthread_sigmask(signal.SIG_BLOCK, STOPS)
    try:
        yield
    finally:
        signal.pthread_sigmask(signal.SIG_SETMASK, before)


# In a folder where all may write, a link of somebody else leads to a file that he chose.
def _is_link_of_another(name: Name) -> bool:
    link, folder = os.lstat(name), os.stat(os.path.dirname(os.path.abspath(name)))
    is_shared = folder.st_mode & (stat.S_ISVTX | stat.S_IWOTH) == stat.S_ISVTX | stat.S_IWOTH
    return stat.S_ISLNK(link.st_mode) and is_shared and link.st_uid not in (os.geteuid(), folder.st_uid)


def write_beside(name: Name, data: Union[bytes, str, Iterable[bytes]], reads: Iterable[Name] = (), follow: bool = True,
                 sync: bool = False) -> None:
    """Writes a file whole or not at all: into a new file beside it, which is renamed once all bytes are there. So where the disk
    is full, or this is ended, the file is what it was before.

    data   bytes, a text (as UTF-8), or blocks of bytes
    reads  files that are read: Fault where `name` is one of them
    follow  a link is followed, and a device or a pipe is written as it is; where this is false only a plain file is written, and
            a link is replaced by it
    sync   the bytes are on the disk afterwards
    Fault where the file cannot be written, NoRoom if the disk is full.
    """
    shown = os.fspath(name)
    for read in reads:
        if same_file(name, read):
            raise Fault("%s is read too, and is not overwritten" % shown)
    if isinstance(data, str):
        data = data.encode("utf-8", "surrogateescape")
    blocks = [data] if isinstance(data, bytes) else data
    try:
        try:
            found = os.stat(name, follow_symlinks=follow)
        except FileNotFoundError:
            found = None
        if found is not None and not follow and stat.S_ISLNK(found.st_mode):
            found = None
        if follow and os.path.islink(name) and _is_link_of_another(name):
            raise Fault("cannot write %s: it is a link of another user" % shown)
        if found is not None and not stat.S_ISREG(found.st_mode):
            if stat.S_ISDIR(found.st_mode) or not follow:
                raise Fault("cannot write %s: it is %s" % (shown, "a folder" if stat.S_ISDIR(found.st_mode) else "no plain file"))
            with open(name, "wb") as file:
                for block in blocks:
                    file.write(block)
            return
        place = os.path.realpath(name) if follow else os.path.abspath(name)
        if found is not None and not os.access(place, os.W_OK):
            raise Fault("cannot write %s: it is not to be written" % shown)
        _write_new(place, blocks, None if found is None else stat.S_IMODE(found.st_mode), sync)
    except (OSError, ValueError) as error:
        raise writing_fault(name, error) from None


def writing_fault(name: Name, error: Exception) -> Fault:
    """What is wrong if a file or a folder cannot be written."""
    reason = ": " + error.strerror if isinstance(error, OSError) and error.strerror else ""
    is_full = isinstance(error, OSError) and error.errno in (errno.ENOSPC, errno.EDQUOT)
    return (NoRoom if is_full else Fault)("cannot write %s%s" % (os.fspath(name), reason))


# Whoever made a file or a folder holds it, so that nobody takes it for one that was left.
def _hold(number: int) -> None:
    try:
        fcntl.flock(number, fcntl.LOCK_EX | fcntl.LOCK_NB)
    except OSError:
        pass


def _write_new(place: str, blocks: Iterable[bytes], mode: Optional[int], sync: bool) -> None:
    folder, beside = os.path.dirname(place) or ".", None
    try:
        with held():
            number, beside = tempfile.mkstemp(prefix="." + PREFIX, dir=folder)
        with os.fdopen(number, "wb") as file:
            _hold(number)
            for block in blocks:
                file.write(block)
            file.flush()
            os.fchmod(file.fileno(), MODE_OF_NEW if mode is None else mode)
            os.rename(beside, place)
            if sync:
                os.fsync(file.fileno())
    except BaseException:
        if beside is not None:
            with contextlib.suppress(OSError):
                os.unlink(beside)
        raise


def sync_folder(folder: Name) -> None:
    """The names of a folder's files are on the disk afterwards."""
    number = os.open(folder, os.O_RDONLY)
    try:
        os.fsync(number)
    finally:
        os.close(number)


# --- Folders of one's own ---

PREFIX = "beebtube-"
LEFT = re.compile(re.escape(PREFIX) + "[a-z0-9_]{8}")
# The bytes of the file `lock` of a folder of one's own. Without them nothing is removed.
MARK = b"beebtube: this folder is removed once nobody holds this file\n"
OLD = 60  # seconds after which a new file that nobody holds was left


@contextlib.contextmanager
def own_folder(below: Optional[Name] = None) -> Iterator[str]:
    """A new folder of its own, below a folder, or below TMPDIR or where the system has such folders, which goes away afterwards
    with what is in it. Fault where there can be none."""
    given = os.environ.get("TMPDIR") if below is None else None
    if given and not (os.path.isdir(given) and os.access(given, os.W_OK | os.X_OK)):
        raise Fault("TMPDIR=%s is no folder that may be written" % given)
    folder, lock = None, None
    try:
        # A signal that ends the tool waits until it is known which folder goes away.
        with held():
            try:
                folder = tempfile.mkdtemp(prefix=PREFIX if below is None else "." + PREFIX, dir=given or below)
                lock = os.open(os.path.join(folder, "lock"), os.O_WRONLY | os.O_CREAT | os.O_CLOEXEC, 0o600)
                _hold(lock)
                os.write(lock, MARK)
                os.mkdir(os.path.join(folder, "run"))
            except (OSError, ValueError) as error:
                raise writing_fault(below or given or tempfile.gettempdir(), error) from None
        yield os.path.realpath(os.path.join(folder, "run"))
    finally:
        with held():
            if folder is not None:
                _remove_own(folder)
            if lock is not None:
                os.close(lock)


# Removes a folder of one's own; its mark goes last, so that what could not be removed now is known for one's own later.
def _remove_own(folder: str) -> None:
    with contextlib.suppress(OSError):
        for name in os.listdir(folder):
            if name != "lock":
                shutil.rmtree(os.path.join(folder, name), ignore_errors=True)
        if os.listdir(folder) in (["lock"], []):
            shutil.rmtree(folder, ignore_errors=True)


def clear_left(folder: Name, files: bool = False) -> None:
    """Removes what tools that were killed left in a folder: folders of their own, and with `files` new files that did not get their
    name, too. What somebody holds stays, and so does what has another form."""
    with contextlib.suppress(OSError):
        with os.scandir(folder) as entries:
            found = [entry for entry in entries if LEFT.fullmatch(entry.name.lstrip("."))]
        for entry in found:
            with contextlib.suppress(OSError):
                if entry.is_dir(follow_symlinks=False) and entry.stat(follow_symlinks=False).st_uid == os.geteuid():
                    _clear(os.path.join(entry.path, "lock"), MARK, lambda: _remove_own(entry.path))
                elif files and entry.is_file(follow_symlinks=False) and time.time() - entry.stat(follow_symlinks=False).st_mtime > OLD:
                    _clear(entry.path, b"", lambda: os.unlink(entry.path))


# Removes what a file marks, if it begins so, is one's own, and nobody holds it.
def _clear(name: str, begin: bytes, remove: Callable[[], None]) -> None:
    number = os.open(name, os.O_RDWR | os.O_NOFOLLOW | os.O_NONBLOCK | os.O_CLOEXEC)
    try:
        if os.fstat(number).st_uid == os.geteuid() and os.read(number, len(begin)) == begin:
            fcntl.flock(number, fcntl.LOCK_EX | fcntl.LOCK_NB)
            with held():
                remove()
    finally:
        os.close(number)


def files_below(folder: Name) -> List[str]:
    """The plain files below a folder, as paths from there, sorted; links are left out."""
    found = []
    for at, _, names in os.walk(folder):
        for name in names:
            place = os.path.join(at, name)
            if stat.S_ISREG(os.lstat(place).st_mode):
                found.append(os.path.relpath(place, folder))
    return sorted(found)
