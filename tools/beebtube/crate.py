"""RO-Crate metadata (JSON-LD) of runs and their files, for an archive.

A crate is a folder whose `ro-crate-metadata.json` names each of its files. Each manifest in the
folder is a run: an action of the program, with the files that it read and wrote.
"""
from __future__ import annotations

import json
import os
import time
from typing import Any, Dict, List, Optional
from urllib.parse import quote

from .faults import Fault
from .files import read_text, sum_of
from .manifest import Manifest
from .program import TOP
from .words import shown
from .words import told as told_name

METADATA = "ro-crate-metadata.json"
CRATE = "https://w3id.org/ro/crate/1.1"
CONTEXT = [CRATE + "/context", {"sha256": "http://schema.org/sha256"}]
# The media types of files, by their endings or, without an ending, by their names.
FORMATS = {"png": "image/png", "wav": "audio/wav", "ppm": "image/x-portable-pixmap",
           **dict.fromkeys(("report", "trace", "manifest", "keys"), "text/plain")}
# What stands for the license, which each crate has to have.
NO_LICENSE = "Not stated: discs and ROM images may have owners. Ask whoever made this crate."
ENDS = "http://schema.org/%sActionStatus"
Entity = Dict[str, Any]


# A name of any bytes as a part of a URI.
def _quoted(name: str) -> str:
    return quote(os.fsencode(name))


def _reference(*entities: Entity) -> List[Entity]:
    return [{"@id": entity["@id"]} for entity in entities]


# The day of the crate; of the same files and the same SOURCE_DATE_EPOCH it has the same bytes.
def _today() -> str:
    epoch = os.environ.get("SOURCE_DATE_EPOCH", "")
    return time.strftime("%Y-%m-%d", time.gmtime(int(epoch) if epoch.isdigit() else None))


class Crate:
    """The entities of a folder, by their names."""

    def __init__(self, folder: str):
        self.folder = folder
        self.files: Dict[str, Entity] = {}
        self.others: Dict[str, Entity] = {}
        self.runs: List[Entity] = []

    def add(self, name: str) -> None:
        """Adds the run of a manifest, whose name is from the folder on. Fault if a file of it is
        not here, or differs."""
        manifest = Manifest(os.path.join(self.folder, name), {})
        begin = os.path.dirname(name)
        reads: List[Entity] = []
        wrote: List[Entity] = []
        for kind, file, wanted in manifest.files:
            entity = self._file(begin, file, wanted, manifest)
            (reads if kind == "read" else wrote).append(entity)
        wrote.append(self._data(name, str(sum_of(os.path.join(self.folder, name)))))
        told: Dict[str, List[str]] = {}
        for line in manifest.lines:
            word, _, rest = line.partition(" ")
            told.setdefault(word, []).append(rest)
        done = told.get("status") == ["0"]
        run: Entity = {
            "@id": "#run-" + _quoted(begin or name), "@type": "CreateAction", "name": told_name(begin or name),
            "description": " ".join(["beebtube", *told.get("words", [])]),
            "instrument": _reference(self._program(told)), "object": _reference(*reads),
            "result": _reference(*wrote), "actionStatus": ENDS % ("Completed" if done else "Failed")}
        if not done:
            run["error"] = "\n".join(["status " + " ".join(told.get("status", [])), *told.get("told", [])])
        self.runs.append(run)

    # A file of a run: one of the folder is a part of the crate, another one is named with its sum.
    def _file(self, begin: str, name: str, wanted: str, manifest: Manifest) -> Entity:
        place = os.path.normpath(os.path.join(begin, name))
        if os.path.isabs(name) or place.split("/")[0] == "..":
            digits, _, length = wanted.partition(" ")
            return self.others.setdefault(name + wanted, {
                "@id": "#sha256-" + digits, "@type": "CreativeWork", "name": told_name(name),
                "sha256": digits, "contentSize": length})
        found = manifest.found(name, wanted)
        if found != "the same here":
            raise Fault(f"{shown(place)} is {found}: {shown(manifest.name)} has another checksum"
                        if found == "another here" else f"{shown(place)} is not here")
        return self._data(place, wanted)

    def _data(self, name: str, wanted: str) -> Entity:
        digits, _, length = wanted.partition(" ")
        ending = os.path.basename(name).rpartition(".")[2]
        return self.files.setdefault(name, {
            "@id": _quoted(name), "@type": "File", "sha256": digits, "contentSize": length,
            "name": told_name(os.path.basename(name)),
            "encodingFormat": FORMATS.get(ending, "application/octet-stream")})

    # The program as the manifest names it: by its sources' checksum, or by its own.
    def _program(self, told: Dict[str, List[str]]) -> Entity:
        known = [f"{word} {it}" for word in ("sources", "program", "kit") for it in told.get(word, [])]
        return self.others.setdefault(" ".join(known), {
            "@id": "#beebtube-" + _quoted((known or ["unknown"])[0].replace(" ", "-")),
            "@type": "SoftwareApplication", "name": "beebtube", "identifier": known})

    def text(self, license_: Optional[str]) -> str:
        """The metadata. The license is a URL or a text; None if nobody has stated one."""
        version = read_text(os.path.join(TOP, "VERSION")).strip()
        names = sorted(self.files)
        root: Entity = {
            "@id": "./", "@type": "Dataset",
            "name": told_name(os.path.basename(os.path.abspath(self.folder))),
            "description": f"Runs of beebtube, an emulator of the BBC Micro: {len(self.runs)}",
            "datePublished": _today(), "hasPart": _reference(*(self.files[name] for name in names)),
            "mentions": _reference(*self.runs)}
        root["license"] = license_ or NO_LICENSE
        others = list(self.others.values())
        if license_ and "://" in license_:
            others.append({"@id": license_, "@type": "CreativeWork", "name": license_,
                           "description": "The license of this crate"})
            root["license"] = _reference(others[-1])
        about: Entity = {
            "@id": METADATA, "@type": "CreativeWork", "about": {"@id": "./"},
            "conformsTo": {"@id": CRATE},
            "description": f"Written by beebtube {version}"}
        graph = [about, root, *self.runs, *(self.files[name] for name in names), *others]
        return json.dumps({"@context": CONTEXT, "@graph": graph}, indent=1, ensure_ascii=False) + "\n"
