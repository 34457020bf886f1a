"""The build backend of pyproject.toml. Its wheel has the program, the package, the tools, and what tools/execute needs of
examples/c; it is made of the files of this tree and needs nothing beside Python.

    python3 packaging/backend.py wheel FOLDER    the wheel
    python3 packaging/backend.py tree FOLDER     the same files in a folder, beebtube/ below it
"""
import base64
import glob
import hashlib
import os
import subprocess
import sys
import zipfile

TOP = os.path.dirname(os.path.dirname(os.path.realpath(__file__)))
TAG = "py3-none-manylinux_2_34_x86_64"
SUMMARY = "An emulator of the BBC Micro and its 6502 Second Processor whose runs repeat byte for byte"
# The files of the package `beebtube` beside its modules, and the folder of it in which they are.
FILES = [
    ("VERSION", ""), ("docs/help.txt", "docs"), ("release/*", "release"), ("tools/start.py", "tools"),
    ("system/system.set", "system"), ("system/built/*.rom", "system/built"),
] + [("examples/c/" + name, "examples/c") for name in (
    "arguments.s", "boot.asm", "build", "disc.cfg", "disc.h", "disc.s", "host.asm", "host.cfg", "io.s", "language.asm", "para.cfg", "sim65.asm",
    "start.s", "tube.h")]


def text_of(name):
    with open(os.path.join(TOP, name), "rb") as file:
        return file.read()


def version():
    return text_of("VERSION").decode().strip()


def tools():
    """The names of the tools, each a script of tools/."""
    return [os.path.basename(it) for it in sorted(glob.glob(os.path.join(TOP, "tools", "*"))) if os.path.isfile(it) and os.access(it, os.X_OK)]


def modules():
    """The files of the package in tools/beebtube, and in folders below it."""
    found = glob.glob(os.path.join(TOP, "tools", "beebtube", "**"), recursive=True)
    return sorted(os.path.relpath(it, os.path.join(TOP, "tools", "beebtube")) for it in found if it.endswith((".py", ".css", ".js", "py.typed")))


def check():
    """Ends if release/ is not what its sums say, or is not of the sources that are here."""
    if hashlib.sha256(text_of("release/beebtube")).hexdigest() != text_of("release/sum").decode().split()[0]:
        sys.exit("release/beebtube has another sum than release/sum")
    if os.path.isdir(os.path.join(TOP, "crates")):
        sources = subprocess.run([os.path.join(TOP, ".ci", "sources")], check=True, stdout=subprocess.PIPE).stdout.split()[0]
        if sources != text_of("release/sources").split()[0]:
            sys.exit("release/ is not of these sources")


def package():
    """The files of the package: their names, bytes, and whether they are run."""
    check()
    found = {}
    wanted = [("tools/beebtube/" + name, os.path.dirname(name)) for name in modules()] + [("tools/" + name, "tools") for name in tools()]
    for pattern, folder in FILES + wanted:
        names = sorted(glob.glob(os.path.join(TOP, pattern)))
        if not names:
            sys.exit("there is no " + pattern)
        for name in names:
            place = "/".join(part for part in ("beebtube", folder, os.path.basename(name)) if part)
            found[place] = (text_of(name), os.access(name, os.X_OK))
    told = subprocess.run([os.path.join(TOP, "beebtube"), "--version"], check=True, stdout=subprocess.PIPE).stdout.decode().splitlines()
    about = "".join(line + "\n" for line in told if not line.startswith("program "))
    found["beebtube/release/about"] = (about.encode(), False)
    return dict(sorted(found.items()))


def entries():
    lines = ["[console_scripts]", "beebtube = beebtube.entries:program", "beebtube-build = beebtube.entries:build"]
    lines += ["beebtube-%s = beebtube.entries:%s" % (name, name) for name in tools()]
    return "\n".join(lines + ["", "[pytest11]", "beebtube = beebtube.plugin", ""])


def build_wheel(wheel_directory, config_settings=None, metadata_directory=None):
    name, info = "beebtube-%s" % version(), "beebtube-%s.dist-info/" % version()
    files = package()
    texts = {
        "METADATA": "Metadata-Version: 2.1\nName: beebtube\nVersion: %s\nSummary: %s\nRequires-Python: >=3.9\n" % (version(), SUMMARY),
        "WHEEL": "Wheel-Version: 1.0\nGenerator: beebtube\nRoot-Is-Purelib: false\nTag: %s\n" % TAG,
        "entry_points.txt": entries(),
    }
    files.update({info + name: (text.encode(), False) for name, text in texts.items()})
    record = ""
    for place, (data, _) in files.items():
        digest = base64.urlsafe_b64encode(hashlib.sha256(data).digest()).decode().rstrip("=")
        record += "%s,sha256=%s,%d\n" % (place, digest, len(data))
    files[info + "RECORD"] = ((record + info + "RECORD,,\n").encode(), False)
    made = "%s-%s.whl" % (name, TAG)
    with zipfile.ZipFile(os.path.join(wheel_directory, made), "w", zipfile.ZIP_DEFLATED) as archive:
        for place, (data, runs) in files.items():
            entry = zipfile.ZipInfo(place, (1985, 1, 1, 0, 0, 0))
            entry.compress_type, entry.create_system = zipfile.ZIP_DEFLATED, 3
            entry.external_attr = (0o100755 if runs else 0o100644) << 16
            archive.writestr(entry, data)
    return made


def build_sdist(sdist_directory, config_settings=None):
    sys.exit("there is no sdist: .ci/archive makes an archive")


def tree(folder):
    for place, (data, runs) in package().items():
        os.makedirs(os.path.dirname(os.path.join(folder, place)), exist_ok=True)
        with open(os.path.join(folder, place), "wb") as file:
            file.write(data)
        os.chmod(os.path.join(folder, place), 0o755 if runs else 0o644)


if __name__ == "__main__":
    if len(sys.argv) != 3 or sys.argv[1] not in ("wheel", "tree"):
        sys.exit(__doc__.strip())
    print(build_wheel(sys.argv[2]) if sys.argv[1] == "wheel" else tree(sys.argv[2]) or "beebtube")
