"""The table of a collection: a row for each run of a list, what it came to, and how it is beside the same run of a stored table."""
from __future__ import annotations

import csv
import io
import re
from typing import Dict, Iterable, Iterator, List, NamedTuple, Optional, Sequence, Tuple

from .collection import Entry, words_of_list, words_sum
from .faults import Fault
from .files import OUTPUT_CAP, read_text
from .results import Result
from .sets import with_names
from .words import printable, told

COLUMNS = ("name", "state", "status", "ticks", "seconds", "processor", "words", "words_sum", "inputs", "outputs", "differs", "was", "title", "files", "said", "key")
# The columns that a stored table needs.
NEEDED = ("name", "status", "words_sum", "inputs", "outputs", "key")

# States of a run in a table, and what each is. A collection is good if all are of the first part.
GOOD = {
    "done": "Done",
    "same": "The same as the stored run",
    "equal": "Other words or files, and the same outputs as the stored run",
    "renamed": "The same as a stored run of another name",
    "failing": "Failed as the stored run did",
}
STATES = {
    **GOOD,
    "differs": "Differs from the stored run",
    "failed": "Failed",
    "missing": "Not there yet",
    "new": "Not among the stored runs",
    "gone": "Stored, and no longer in the list",
}
# What is to be looked at first.
ORDER = ("differs", "failed", "new", "gone", "missing", "failing", "equal", "renamed", "same", "done")


class Row(NamedTuple):
    """A run in the table. `cells` are by COLUMNS; `result` is None where there is none, and `stored` the cells of the stored table."""

    name: str
    state: str
    cells: Dict[str, str]
    result: Optional[Result]
    stored: Optional[Dict[str, str]]

    @property
    def is_good(self) -> bool:
        """All that was asked for was done, and is as it was before."""
        return self.state in GOOD and (self.state == "failing" or not self.cells["said"])

    def line(self) -> str:
        """What is said of it."""
        if self.state == "renamed":
            more = "it was " + self.cells["was"]
        elif self.state in ("differs", "equal"):
            more = self.cells["differs"]
        else:
            more = " ".join(filter(None, (self.cells["status"] if self.cells["status"] != "0" else "", self.cells["said"])))
        return "%s %s%s" % (self.state, self.name, ": " + printable(more) if more else "")


def _pairs(files: Iterable[Tuple[str, str, int]]) -> Iterator[Tuple[str, str]]:
    return ((name, digits) for name, digits, _ in files)


def _cell(files: Iterable[Tuple[str, str, int]]) -> str:
    return " ".join("%s=%s" % pair for pair in _pairs(files))


def sums_in(cell: str) -> Dict[str, str]:
    """The sums of a cell, by the files' names."""
    return {name: digits for name, _, digits in (it.rpartition("=") for it in cell.split())}


def _differing(one: Dict[str, str], other: Dict[str, str]) -> List[str]:
    return [name for name in dict.fromkeys([*one, *other]) if one.get(name) != other.get(name)]


# What differs of a run's outcome from the stored one: `status`, and files written by their endings.
def _outcome(cells: Dict[str, str], stored: Dict[str, str]) -> List[str]:
    return ["status"] * (cells["status"] != stored["status"]) + _differing(sums_in(stored["outputs"]), sums_in(cells["outputs"]))


# What differs of that which it was given: files read behind `read:`, and `words`.
def _given(cells: Dict[str, str], stored: Dict[str, str]) -> List[str]:
    found = ["read:" + name for name in _differing(sums_in(stored["inputs"]), sums_in(cells["inputs"]))]
    return found + ["words"] * (cells["words_sum"] != stored["words_sum"])


class Stored:
    """The rows of a stored table by their names, and which of them the list no longer has."""

    def __init__(self, rows: Dict[str, Dict[str, str]], entries: Iterable[Entry]):
        self.rows = rows
        names = {safe_name(entry.name) for entry in entries}
        self.gone = {name: row for name, row in rows.items() if name not in names}
        self._lost: Dict[Tuple[str, str], List[str]] = {}
        for name, row in self.gone.items():
            if row["key"]:
                self._lost.setdefault((row["words_sum"], row["inputs"]), []).append(name)

    def of(self, cells: Dict[str, str]) -> Optional[Dict[str, str]]:
        """The stored row of a run: of its name, or else one that the list no longer has, of the same words and files."""
        if cells["name"] in self.rows:
            return self.rows[cells["name"]]
        lost = self._lost.get((cells["words_sum"], cells["inputs"])) if cells["key"] else None
        return self.gone.pop(lost.pop(0)) if lost else None


def row_of(entry: Entry, result: Optional[Result], fault: str, stored: Optional[Stored]) -> Row:
    """The row of a run: of its result, or of what went wrong, or where both are nothing of one that is not there yet.

    stored  the rows of a stored table; None where nothing is compared
    """
    cells = dict.fromkeys(COLUMNS, "")
    cells.update(name=safe_name(entry.name), words=words_of_list(entry.order) if entry.order.command else "", said=fault)
    if result is not None:
        cells.update(status=str(result.status), ticks=str(result.ticks), seconds="%.3f" % result.seconds, processor="%.3f" % result.processor,
                     words_sum=words_sum(result.words), inputs=_cell(result.reads), outputs=_cell(result.wrote), key=result.key,
                     title=result.title, files=" ".join(result.files))
        cells["said"] = " ".join(filter(None, (with_names(result.said, entry.order.options), fault)))
    old = stored.of(cells) if stored is not None else None
    if result is not None and old is not None:
        cells["differs"] = " ".join(_outcome(cells, old) + _given(cells, old)) if old["key"] else "status"
    if old is not None and old["name"] != cells["name"]:
        cells["was"] = old["name"]
    cells["state"] = _state(cells, stored is not None, old)
    return Row(cells["name"], cells["state"], cells, result, old)


def _state(cells: Dict[str, str], is_compared: bool, old: Optional[Dict[str, str]]) -> str:
    if not cells["key"] or cells["status"] != "0":
        if not cells["key"] and not cells["said"]:
            return "missing"
        as_before = old is not None and bool(old["key"]) == bool(cells["key"]) and (not _outcome(cells, old) if cells["key"] else cells["said"] == old["said"])
        return "failing" if as_before else "failed"
    if not is_compared:
        return "done"
    if old is None:
        return "new"
    if not old["key"] or _outcome(cells, old):
        return "differs"
    return "renamed" if cells["was"] else "equal" if cells["differs"] else "same"


def gone_row(stored: Dict[str, str]) -> Row:
    """The row of a run that a stored table has and the list has not."""
    cells = {**dict.fromkeys(COLUMNS, ""), "name": stored["name"], "state": "gone", "words": stored.get("words", "")}
    return Row(stored["name"], "gone", cells, None, stored)


# --- As a file ---

# What a sheet takes for the begin of a formula, at the begin of a cell or behind a sign that some sheets take for the end of one.
_FORMULA = "[=+\\-@\uff1d\uff0b\uff0d\uff20]"
_is_formula = re.compile("'|" + _FORMULA).match


def safe_name(name: str) -> str:
    """A run's name as a table has it: a text of one line that is no other run's."""
    return re.sub("(?<=[;\t])" + _FORMULA, lambda match: "\\u%04x" % ord(match.group()), told(name))


# A cell that a sheet would take for a formula has a ' in front; what cannot be shown is ?.
def cell_text(cell: str) -> str:
    """A cell's text as it stands in a file."""
    cell = printable(cell)
    if ";" in cell:
        cell = re.sub("(?<=;)(?=%s)" % _FORMULA, "'", cell)
    return "'" + cell if _is_formula(cell) else cell


def table_begin() -> str:
    """The first line of each table."""
    return ",".join(COLUMNS) + "\n"


def table_text(rows: Sequence[Row]) -> str:
    """The table of all runs."""
    text = io.StringIO(newline="")
    text.write(table_begin())
    writer = csv.writer(text, lineterminator="\n")
    writer.writerows([cell_text(row.cells[column]) for column in COLUMNS] for row in rows)
    return text.getvalue()


def read_table(name: str) -> Dict[str, Dict[str, str]]:
    """The rows of a stored table by their names, those that have a result or failed without one. Fault where it is none."""
    found: Dict[str, Dict[str, str]] = {}
    reader = csv.reader(io.StringIO(read_text(name, OUTPUT_CAP), newline=""))
    try:
        heads: List[str] = next(reader, [])
        if not set(NEEDED) <= set(heads) or len(set(heads)) < len(heads):
            raise Fault("%s is no table of results" % name)
        for cells in reader:
            if len(cells) != len(heads):
                raise Fault("%s, line %d: a row has %d cells" % (name, reader.line_num, len(heads)))
            row = {column: cell[1:] if cell[:1] == "'" else cell for column, cell in zip(heads, cells)}
            if row["key"] or row.get("said") and row.get("state") in ("failed", "failing"):
                found[row["name"]] = row
    except csv.Error as error:
        raise Fault("%s, line %d: %s" % (name, reader.line_num, error)) from None
    return found
