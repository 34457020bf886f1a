#!/usr/bin/env python3
"""Checks the metadata of a folder, `ro-crate-metadata.json`, by the rules of RO-Crate 1.1.

bench/crate.py FOLDER

It prints a line for each rule that does not hold, with the id of the entity, and then has status 1.
The rules are of RO-Crate 1.1 and, for actions and their program, of its profile Process Run Crate.
They were written from memory. The script shares no code with tools/beebtube/crate.py.
"""
import hashlib
import json
import os
import re
import sys
import urllib.parse

HEAD, STANDARD = "ro-crate-metadata.json", "https://w3id.org/ro/crate/1.1"
# Terms of the standard's context, all of schema.org but `conformsTo`.
TERMS = """about actionStatus agent conformsTo contentSize datePublished description encodingFormat
    endTime error hasPart identifier instrument license mentions name object result""".split()
# What an entity of each type has; the root is `./`.
NEEDED = {"./": "name description datePublished license hasPart", "CreativeWork": "",
          "File": "name contentSize encodingFormat sha256", "Person": "name", "Dataset": "",
          "CreateAction": "name description instrument object result actionStatus",
          "SoftwareApplication": "name identifier"}
# The types to which the references of an action may lead.
LEADS = {"instrument": ["SoftwareApplication"], "object": ["File", "CreativeWork"],
         "result": ["File"], "agent": ["Person"]}
STATES = ["http://schema.org/%sActionStatus" % state for state in ("Completed", "Failed")]


def values(entity, term):
    found = entity.get(term, [])
    return found if isinstance(found, list) else [found]


def is_reference(it):
    return isinstance(it, dict) and set(it) == {"@id"}


# Each function gives pairs: a rule, and whether it holds.

def of_text(text, graph):
    contexts = values(text, "@context")
    yield "the file has a context and a graph alone", set(text) == {"@context", "@graph"}
    yield "the context is that of the standard", STANDARD + "/context" in contexts
    yield "sha256 is that of schema.org", {"sha256": "http://schema.org/sha256"} in contexts
    yield "each entity is there once", len(graph) == len(values(text, "@graph"))
    head, root = graph.get(HEAD, {}), graph.get("./", {})
    yield "the head is a CreativeWork", head.get("@type") == "CreativeWork"
    yield "the head is about ./", head.get("about") == {"@id": "./"}
    yield "the head conforms to the standard", head.get("conformsTo") == {"@id": STANDARD}
    yield "the root is a Dataset", root.get("@type") == "Dataset"
    date = r"\d{4}-\d\d-\d\d(T.*)?$"
    yield "the date is one of ISO 8601", bool(re.match(date, str(root.get("datePublished"))))


def of_entity(name, entity, graph):
    kind = entity.get("@type")
    bad = r"[^!#-;=?-Z_a-z~\[\]]|%(?![0-9A-F]{2})"
    yield "its id is a URI reference", not re.search(bad, name)
    yield "its type is known", kind in NEEDED
    for term in NEEDED.get("./" if name == "./" else kind, "").split():
        yield "it has " + term, bool(entity.get(term))
    for term in set(entity) - {"@id", "@type"}:
        yield term + " is a term of the context", term in [*TERMS, "sha256"]
        for it in values(entity, term):
            yield term + " is a text or a reference", isinstance(it, str) or is_reference(it)
            to = it["@id"] if is_reference(it) else ""
            yield f"{term} leads to an entity", not to or to in graph or "://" in to
            yield f"{term} has the right type", (
                term not in LEADS or graph.get(to, {}).get("@type") in LEADS[term])
    if kind != "File" and name not in ("./", HEAD):
        yield "its id begins with # or is a URL", name.startswith("#") or "://" in name


def of_action(name, entity, graph):
    yield "the root mentions it", {"@id": name} in values(graph.get("./", {}), "mentions")
    state = entity.get("actionStatus")
    yield "its status is known", state in STATES
    yield "it has an error if and only if it failed", ("error" in entity) == (state == STATES[1])


def of_file(name, entity, graph, folder):
    yield "it is a part of the root", {"@id": name} in values(graph.get("./", {}), "hasPart")
    is_relative = not re.match("[/#]|[^/]*:", name) and ".." not in name.split("/")
    yield "its id is a relative path", is_relative
    path = os.path.join(os.fsencode(folder), urllib.parse.unquote_to_bytes(name))
    is_here = is_relative and os.path.isfile(path)
    yield "it is here", is_here
    data = open(path, "rb").read() if is_here else b""
    yield "its length is right", entity.get("contentSize") == str(len(data))
    yield "its checksum is right", entity.get("sha256") == hashlib.sha256(data).hexdigest()
    form = str(entity.get("encodingFormat"))
    yield "its format is a media type", bool(re.fullmatch(r"[a-z]+/[\w.+-]+", form))


def faults_of(folder, text):
    """The rules that do not hold, each after the id of its entity."""
    graph = {entity.get("@id", ""): entity for entity in values(text, "@graph")}
    rules = [(HEAD, *it) for it in of_text(text, graph)]
    for name, entity in graph.items():
        found = list(of_entity(name, entity, graph))
        if entity.get("@type") == "CreateAction":
            found += of_action(name, entity, graph)
        if entity.get("@type") == "File":
            found += of_file(name, entity, graph, folder)
        rules += [(name, *it) for it in found]
    return [f"{name}: does not hold: {rule}" for name, rule, holds in rules if not holds]


def main(folder):
    with open(os.path.join(folder, HEAD), encoding="utf-8") as file:
        text = json.load(file)
    found = faults_of(folder, text)
    print("\n".join(found + [f"crate: entities {len(text['@graph'])}, faults {len(found)}"]))
    return 1 if found else 0


if __name__ == "__main__":
    if len(sys.argv) != 2 or sys.argv[1] in ("-h", "--help"):
        sys.exit(print(__doc__.strip()))
    sys.exit(main(sys.argv[1]))
