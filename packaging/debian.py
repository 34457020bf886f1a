"""The Debian package: `python3 packaging/debian.py FOLDER` makes FOLDER/beebtube_VERSION_amd64.deb by dpkg-deb.

It has the package for Python, a command for the program and each tool, with a man page, the completion, and the pages.
Of the same files it has the same bytes.
"""
import ast
import gzip
import hashlib
import os
import shutil
import subprocess
import sys
import tempfile

import backend

EPOCH = "473385600"  # 1985-01-01, as the archive has it
PACKAGES = "usr/lib/python3/dist-packages"
DOC = "usr/share/doc/beebtube"
COMMAND = """#!/usr/bin/python3
import sys

sys.dont_write_bytecode = True
from beebtube.entries import {0}

{0}()
"""
CONTROL = """Package: beebtube
Version: {version}
Architecture: amd64
Maintainer: The beebtube project <beebtube@localhost.localdomain>
Installed-Size: {size}
Depends: libc6 (>= 2.34), python3 (>= 3.9)
Suggests: cc65
Section: otherosfs
Priority: optional
Description: emulator of the BBC Micro and its 6502 Second Processor
 An emulator of the BBC Micro Model B and the 6502 Second Processor, joined by
 the Tube, whose runs repeat byte for byte and whose functions are proved to
 meet their contracts. The tools beside it run programs as commands, look at
 runs forwards and backwards, and compare them; a package for Python is the
 same for tests.
"""
COPYRIGHT = """Format: https://www.debian.org/doc/packaging-manuals/copyright-format/1.0/
Upstream-Name: beebtube

Files: *
Copyright: 2026 The beebtube project
License: none
 No licence is given yet.
"""
CHANGES = """beebtube ({version}) stable; urgency=medium

  * CHANGELOG.md has what this version brought.

 -- The beebtube project <beebtube@localhost.localdomain>  Tue, 01 Jan 1985 00:00:00 +0000
"""
# Python starts sooner with bytecode, which goes with the package.
POSTINST = """#!/bin/sh
set -e
py3compile -p beebtube
"""
PRERM = """#!/bin/sh
set -e
find /usr/lib/python3/dist-packages/beebtube -name __pycache__ -prune -exec rm -rf {} +
"""


def put(root, name, data, mode=0o644):
    place = os.path.join(root, name)
    os.makedirs(os.path.dirname(place), exist_ok=True)
    with open(place, "wb") as file:
        file.write(data if isinstance(data, bytes) else data.encode())
    os.chmod(place, mode)


def packed(data):
    return gzip.compress(data, 9, mtime=0)


def man_of(name):
    """A man page of what `--help` prints, the tool's own text."""
    text = (ast.get_docstring(ast.parse(backend.text_of("tools/" + name))) or "").replace("\\", "\\e").replace("-", "\\-")
    lines = [("\\&" if line[:1] in (".", "'") else "") + line for line in text.splitlines()]
    return ".TH BEEBTUBE\\-%s 1 \"\" \"beebtube %s\"\n.SH NAME\nbeebtube\\-%s \\- %s\n.SH DESCRIPTION\n.nf\n%s\n.fi\n" % (
        name.upper(), backend.version(), name, lines[0].rstrip("."), "\n".join(lines))


def stage(root):
    backend.tree(os.path.join(root, PACKAGES))
    entries = dict(line.split(" = ") for line in backend.entries().split("\n\n")[0].splitlines()[1:])
    for command, entry in entries.items():
        put(root, "usr/bin/" + command, COMMAND.format(entry.split(":")[1]), 0o755)
    for name in backend.tools():
        put(root, "usr/share/man/man1/beebtube-%s.1.gz" % name, packed(man_of(name).encode()))
    put(root, "usr/share/man/man1/beebtube.1.gz", packed(backend.text_of("docs/beebtube.1")))
    build = (".TH BEEBTUBE\\-BUILD 1\n.SH NAME\nbeebtube\\-build \\- makes a program for beebtube\\-execute, by cc65\n"
             ".SH SYNOPSIS\nbeebtube\\-build OUT SOURCE ..; beebtube\\-build \\-\\-help has the options\n")
    put(root, "usr/share/man/man1/beebtube-build.1.gz", packed(build.encode()))
    put(root, "usr/share/bash-completion/completions/beebtube", backend.text_of("tools/completion.bash"))
    put(root, DOC + "/copyright", COPYRIGHT)
    put(root, DOC + "/changelog.gz", packed(CHANGES.format(version=backend.version()).encode()))
    for name in ["README.md", "CHANGELOG.md"] + sorted("docs/" + it for it in os.listdir(os.path.join(backend.TOP, "docs")) if it.endswith((".md", ".png", ".svg"))):
        put(root, DOC + "/" + name, backend.text_of(name))
    put(root, "usr/share/lintian/overrides/beebtube", OVERRIDES)
    for folder, _, _ in os.walk(root):
        os.chmod(folder, 0o755)
    size = sum(os.path.getsize(os.path.join(folder, name)) for folder, _, names in os.walk(root) for name in names)
    put(root, "DEBIAN/control", CONTROL.format(version=backend.version(), size=size // 1024 + 1))
    put(root, "DEBIAN/postinst", POSTINST, 0o755)
    put(root, "DEBIAN/prerm", PRERM, 0o755)
    sums = ""
    for folder, _, names in sorted(os.walk(root)):
        for name in sorted(names):
            place = os.path.relpath(os.path.join(folder, name), root)
            if not place.startswith("DEBIAN/"):
                with open(os.path.join(folder, name), "rb") as file:
                    sums += "%s  %s\n" % (hashlib.md5(file.read()).hexdigest(), place)
    put(root, "DEBIAN/md5sums", sums)


# The program is the one whose checksum the package's release/sum has, so its symbols stay.
OVERRIDES = """# release/sum has the checksum of this very file
beebtube: unstripped-binary-or-object
# the project has no address for mail
beebtube: bogus-mail-host
beebtube: bogus-mail-host-in-debian-changelog
"""


def build_deb(folder):
    name = "beebtube_%s_amd64.deb" % backend.version()
    root = tempfile.mkdtemp(prefix="beebtube-deb-")
    try:
        stage(root)
        subprocess.run(["dpkg-deb", "--root-owner-group", "-Zxz", "--build", root, os.path.join(folder, name)], check=True,
                       stdout=subprocess.DEVNULL, env={**os.environ, "SOURCE_DATE_EPOCH": EPOCH, "LC_ALL": "C"})
    finally:
        shutil.rmtree(root)
    return name


if __name__ == "__main__":
    if len(sys.argv) != 2:
        sys.exit(__doc__.strip())
    print(build_deb(sys.argv[1]))
