"""Tasks beside each other in processes of their own, so that none of them harms another; and how long the rest takes."""
from __future__ import annotations

import contextlib
import gc
import json
import os
import pickle
import selectors
import signal
import sys
import time
from typing import Any, Callable, Dict, Iterable, Iterator, List, NamedTuple, NoReturn, Optional, Tuple

from .faults import Fault, NoRoom
from .files import STOPS, held, writing_fault


class Done(NamedTuple):
    """A task that has ended: what it was started with, its value, or what is wrong with it, and whether a disk is full."""

    mark: Any
    value: Any
    fault: str
    no_room: bool = False


class _Worker:
    """A process that takes one task after another: its number, the pipes to it and from it, its task's mark, and what it told so far."""

    def __init__(self, pid: int, tasks: int, answers: int):
        self.pid, self.tasks, self.answers = pid, tasks, answers
        self.mark: Any = None
        self.told = b""

    def close(self) -> int:
        """Closes the pipes once it has ended; gives its status."""
        os.close(self.tasks)
        os.close(self.answers)
        return os.waitstatus_to_exitcode(os.waitpid(self.pid, 0)[1])


class Workers:
    """Processes that work on tasks, at most so many at once.

    work  is done with each task; a task goes through pickle, and its value through JSON
    """

    def __init__(self, most: int, work: Callable[[Any], Any]):
        self.most, self.work = most, work
        self._selector = selectors.DefaultSelector()
        self._busy: Dict[int, _Worker] = {}
        self._idle: List[_Worker] = []

    def __len__(self) -> int:
        return len(self._busy)

    @property
    def is_full(self) -> bool:
        return len(self._busy) >= self.most

    def start(self, task: Any, mark: Any) -> None:
        """Starts a task in a process that has none."""
        data = pickle.dumps(task)
        while True:
            # What comes while there is a process that nobody knows of yet, comes a moment later.
            with held():
                worker = self._idle.pop() if self._idle else self._fork()
                worker.mark, worker.told = mark, b""
                self._busy[worker.answers] = worker
                self._selector.register(worker.answers, selectors.EVENT_READ)
            try:
                _write_all(worker.tasks, len(data).to_bytes(8, "little") + data)
                return
            except BrokenPipeError:  # somebody ended it meanwhile
                self._end(worker)

    def _fork(self) -> _Worker:
        sys.stdout.flush()
        sys.stderr.flush()
        (task_reader, task_writer), (answer_reader, answer_writer) = os.pipe(), os.pipe()
        try:
            pid = os.fork()
            if pid == 0:
                others = [number for it in [*self._idle, *self._busy.values()] for number in (it.tasks, it.answers)]
                _work(self.work, task_reader, answer_writer, [task_writer, answer_reader, *others])
            return _Worker(pid, task_writer, answer_reader)
        except OSError as error:
            os.close(task_writer)
            os.close(answer_reader)
            raise Fault("no process can be started: %s" % error.strerror) from None
        finally:
            os.close(task_reader)
            os.close(answer_writer)

    def _end(self, worker: _Worker) -> int:
        del self._busy[worker.answers]
        self._selector.unregister(worker.answers)
        status = worker.close()
        # What it called goes on without it, if it was killed.
        with contextlib.suppress(OSError):
            os.killpg(worker.pid, signal.SIGKILL)
        return status

    def ended(self, timeout: Optional[float] = None) -> Iterator[Done]:
        """The tasks that end within so many seconds; it waits for one of them."""
        for key, _ in self._selector.select(timeout):
            worker = self._busy[key.fd]
            block = os.read(worker.answers, 1 << 16)
            worker.told += block
            if block and not block.endswith(b"\n"):
                continue
            if block:
                value, fault, no_room = json.loads(worker.told)
                del self._busy[worker.answers]
                self._selector.unregister(worker.answers)
                self._idle.append(worker)
            else:
                status = self._end(worker)
                value, no_room = None, False
                fault = "its process was ended by signal %d" % -status if status < 0 else "its process told nothing, and ended with %d" % status
            yield Done(worker.mark, value, fault, no_room)

    def stop(self) -> None:
        """Ends all processes; what they made for themselves is gone then."""
        workers = [*self._idle, *self._busy.values()]
        for worker in workers:
            os.kill(worker.pid, signal.SIGTERM)
        for worker in workers:
            if worker.answers in self._busy:
                self._selector.unregister(worker.answers)
            worker.close()
        self._busy.clear()
        self._idle.clear()


def _write_all(number: int, data: bytes) -> None:
    while data:
        data = data[os.write(number, data) :]


def _read_all(number: int, length: int) -> bytes:
    data = b""
    while len(data) < length:
        block = os.read(number, length - len(data))
        if not block:
            raise EOFError
        data += block
    return data


# The first signal ends a task, which then clears away what it made for itself; those behind it are not heard.
def _stopped(number: int, _frame: object) -> None:
    for it in STOPS:
        signal.signal(it, signal.SIG_IGN)
    raise SystemExit(128 + number)


# A process that works: it takes tasks until nobody gives more, and tells of each its value, or what is wrong.
def _work(work: Callable[[Any], Any], tasks: int, answers: int, others: Iterable[int]) -> NoReturn:
    try:
        os.setpgid(0, 0)
        # Pipes to other processes end with the one that made them.
        for number in others:
            os.close(number)
        # What is shared with the others stays shared.
        gc.freeze()
        for it in STOPS:
            if signal.getsignal(it) is not signal.SIG_IGN:
                signal.signal(it, _stopped)
        signal.pthread_sigmask(signal.SIG_UNBLOCK, STOPS)
        while True:
            task = pickle.loads(_read_all(tasks, int.from_bytes(_read_all(tasks, 8), "little")))
            _write_all(answers, json.dumps(_outcome(work, task)).encode() + b"\n")
    except BaseException:  # noqa: BLE001 # a signal, or no more tasks
        pass
    finally:
        os._exit(1)


# The value of a task, what is wrong, and whether a disk is full.
def _outcome(work: Callable[[Any], Any], task: Any) -> Tuple[Any, str, bool]:
    try:
        return work(task), "", False
    except Fault as fault:
        return None, str(fault) or "something is wrong", isinstance(fault, NoRoom)
    except OSError as error:
        name = os.fsdecode(error.filename) if error.filename is not None else "a file"
        return None, "%s: %s" % (name, error.strerror), isinstance(writing_fault(name, error), NoRoom)
    except MemoryError:
        return None, "no memory", False
    except Exception as error:  # noqa: BLE001 # one run hides no other
        return None, "a fault of this tool: %s: %s" % (type(error).__name__, error), False


class Forecast:
    """How much is done, and how long the rest takes, by the weights of what was done."""

    def __init__(self) -> None:
        self.began, self.weight, self.left = time.monotonic(), 0.0, 0.0

    def plans(self, weight: float) -> None:
        """There is a task of this weight, too."""
        self.left += weight

    def drops(self, weight: float) -> None:
        """A task of this weight needed nothing."""
        self.left -= weight

    def ends(self, weight: float) -> None:
        """A task of this weight has ended."""
        self.weight, self.left = self.weight + weight, self.left - weight

    def rest(self) -> Optional[float]:
        """How many seconds the rest takes; None where nothing is known yet."""
        return (time.monotonic() - self.began) * self.left / self.weight if self.weight > 0 else None

    def told(self) -> str:
        rest = self.rest()
        return "about %s more" % told_time(rest) if rest is not None else "no forecast yet"


def told_time(seconds: float) -> str:
    """A time as a person says it."""
    for most, each, name in ((90, 1, "s"), (90 * 60, 60, "min"), (36 * 3600, 3600, "h")):
        if seconds < most:
            return "%.0f %s" % (max(seconds / each, 1), name)
    return "%.1f days" % (seconds / 86400)
