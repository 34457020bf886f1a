"""The discs of a run on its page: what is on each side, and what the run changed."""
from __future__ import annotations

from typing import List, Optional

from .disc import SECTOR, TRACK, Catalogue, Disc, File, shown_address
from .markup import grouped, shown, table


def side_of(disc: Disc, before: Optional[Disc], side: int, name: str) -> str:
    parts = []
    now, was = (it.catalogues().get(side) if it is not None else None for it in (disc, before))
    if before is None:
        parts.append("<p>What the run changed is not told: the disc before it was not handed to this page.</p>")
    else:
        changed = _changed(disc, before, side)
        parts.append("<p>Sectors that the run changed: %s</p>" % (", ".join(changed[:200]) + (" .." if len(changed) > 200 else "") or "none"))
    if now is None:
        return "".join(parts) + "<p>%s has no catalogue of the DFS.</p>" % name
    rows = [_file_row(file, _change(file, now, was) if before is not None else "") for file in now.files]
    if was is not None:
        kept = {file.whole_name for file in now.files}
        rows += [_file_row(file, "gone") for file in was.files if file.whole_name not in kept]
    caption = "%s: title %s, cycle %02X, sectors %d" % (name, shown(now.title) or "none", now.cycle, now.sectors)
    return "".join(parts) + table(["File", "Locked", "Load", "Start", "Length", "Sector", "In the run"], rows, caption)


def _changed(disc: Disc, before: Disc, side: int) -> List[str]:
    if disc.image == before.image:
        return []
    tracks = max(len(disc.image), len(before.image)) // (SECTOR * TRACK * (2 if disc.double else 1)) + 1
    return ["%X" % at for at in range(TRACK * tracks) if disc.sector(at, side) != before.sector(at, side)]


def _change(file: File, now: Catalogue, was: Optional[Catalogue]) -> str:
    old = next((it for it in was.files if it.whole_name == file.whole_name), None) if was is not None else None
    if was is None or old is None:
        return "new"
    bytes_same = now.bytes_of(file) == was.bytes_of(old)
    return "same" if bytes_same and file == old else "its entry changed" if bytes_same else "changed"


def _file_row(file: File, change: str) -> List[str]:
    return [shown(file.whole_name), "locked" if file.locked else "", shown_address(file.load), shown_address(file.start), grouped(file.length), "%03X" % file.sector, change]
