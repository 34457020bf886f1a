"""The archive: the same bytes each time, and a program that runs from it."""
import importlib.util
import os
import shutil
import subprocess
import sys
import zipfile

from common import EXAMPLES, TOOLS, TOP, Case, call, pretend_clone, put, text_of, unittest


@unittest.skipUnless(shutil.which("git") and os.path.exists(os.path.join(TOP, ".ci", "archive")), "git is not there")
class Archive(Case):
    def clone(self, name):
        """A clone with two sources alone, in git."""
        top = pretend_clone(self.at(name))
        for folder in ("tools", "docs", "examples"):
            os.unlink(os.path.join(top, folder))
            shutil.copytree(os.path.join(TOP, folder), os.path.join(top, folder), ignore=shutil.ignore_patterns("__pycache__", "tests"))
        for folder in ("packaging", "system"):
            shutil.copytree(os.path.join(TOP, folder), os.path.join(top, folder), ignore=shutil.ignore_patterns("__pycache__"))
        os.mkdir(os.path.join(top, "bench"))
        for file in (".ci/archive", "README.md", "CHANGELOG.md", "CITATION.cff", "VERSION", "bench/gate.csv", "Dockerfile", "action.yml", "pyproject.toml", "conftest.py"):
            shutil.copy(os.path.join(TOP, file), os.path.join(top, file))
        self.git(top, "init", "-q")
        self.git(top, "add", "-A")
        self.git(top, "commit", "-q", "-m", "all")
        return top

    def git(self, top, *words):
        subprocess.run(["git", "-c", "user.name=x", "-c", "user.email=x@x", "-C", top] + list(words), check=True, stdout=subprocess.DEVNULL)

    def archive(self, top, into, *kinds, status=0):
        """(The name of the folder is a relative one.)"""
        os.makedirs(self.at(into), exist_ok=True)
        done = call([os.path.join(top, ".ci", "archive"), into, *kinds], self.folder)
        self.assertEqual(done.status, status, done.out + done.err)
        return done

    def test_the_same_bytes_and_a_run_from_it(self):
        one, other = self.clone("one"), self.clone("other")
        put(os.path.join(other, "own"), b"not of git")
        for top in (one, other):
            for name in ("README.md", "beebtube"):
                os.utime(os.path.join(top, name), (1, len(top)))
        os.chmod(os.path.join(other, "README.md"), 0o600)
        for top, into in ((one, "a"), (one, "b"), (other, "c")):
            self.archive(top, into, "archive", "wheel")
        names = sorted(os.listdir(self.at("a")))
        version = text_of(os.path.join(TOP, "VERSION")).decode().strip()
        self.assertEqual(names, ["beebtube-%s%s" % (version, it) for it in ("-py3-none-manylinux_2_34_x86_64.whl", ".sha256", ".tar.gz")])
        for into in ("b", "c"):
            self.assertEqual([text_of(self.at(into + "/" + name)) for name in names], [text_of(self.at("a/" + name)) for name in names])
        subprocess.run(["sha256sum", "--quiet", "-c", names[1]], cwd=self.at("a"), check=True)
        subprocess.run(["tar", "xzf", self.at("a/" + names[2])], cwd=self.folder, check=True)
        top = self.at("beebtube-" + version)
        subprocess.run(["sha256sum", "--quiet", "-c", "SHA256SUMS"], cwd=top, check=True)
        trace = os.path.join(top, "examples", "nmi.trace")
        self.assertEqual(self.launcher("check", trace, top=top).out, "ok 5\n")
        self.assertIn("accesses 5", call([os.path.join(top, "tools", "tube"), trace], self.folder).out)
        self.assertFalse(os.path.exists(os.path.join(top, "own")))

    @unittest.skipUnless(importlib.util.find_spec("pip"), "pip is not there")
    def test_pip_installs_the_clone(self):
        # Without an index, and without a change of the clone.
        top = self.clone("one")
        done = call([sys.executable, "-m", "pip", "install", "-q", "--no-index", "--target", self.at("site"), top], self.folder,
                    env={"PYTHONDONTWRITEBYTECODE": "1", "PIP_DISABLE_PIP_VERSION_CHECK": "1", "PIP_ROOT_USER_ACTION": "ignore", "HOME": self.folder})
        self.assertEqual(done.status, 0, done.out + done.err)
        changed = subprocess.run(["git", "-C", top, "status", "--short"], check=True, stdout=subprocess.PIPE).stdout
        self.assertEqual(changed.replace(b"?? crates/beebtube/out/\n", b""), b"")
        done = call([sys.executable, "-c", "import beebtube; print(beebtube.__version__, beebtube.execute(%r).status)"
                     % os.path.join(EXAMPLES, "c", "built", "three")], self.folder, env={"PYTHONPATH": self.at("site")})
        self.assertEqual(done.out, text_of(os.path.join(TOP, "VERSION")).decode().strip() + " 3\n")
        self.assertIn("beebtube-execute", os.listdir(self.at("site/bin")))

    def test_what_is_no_release_is_refused(self):
        top = self.clone("one")
        put(os.path.join(top, "README.md"), b"changed\n")
        self.assertIn("changed", self.archive(top, "a", "archive", status=1).err)
        self.git(top, "checkout", "-q", "README.md")
        put(os.path.join(top, "crates", "beebtube", "src", "main.rt"), b"other\n")
        self.git(top, "commit", "-q", "-a", "-m", "other")
        self.assertIn("not of these sources", self.archive(top, "a", "archive", status=1).err)
        self.assertEqual(os.listdir(self.at("a")), [])
        self.assertEqual(call([os.path.join(top, ".ci", "archive"), self.at("missing")], self.folder).status, 1)
        self.assertEqual(call([os.path.join(top, ".ci", "archive")], self.folder).status, 2)
        self.assertEqual(call([os.path.join(top, ".ci", "archive"), "--help"], self.folder).status, 0)
        self.assertEqual(call([os.path.join(top, ".ci", "archive"), self.folder, "rpm"], self.folder).status, 2)

    @unittest.skipUnless(shutil.which("dpkg-deb"), "dpkg-deb is not there")
    def test_the_debian_package(self):
        top = self.clone("one")
        for into in ("a", "b"):
            self.archive(top, into, "deb")
        name = [it for it in os.listdir(self.at("a")) if it.endswith("_amd64.deb")][0]
        self.assertEqual(text_of(self.at("a/" + name)), text_of(self.at("b/" + name)))
        subprocess.run(["dpkg-deb", "-x", self.at("a/" + name), self.at("root")], check=True)
        packages = self.at("root/usr/lib/python3/dist-packages")
        subprocess.run("md5sum --quiet -c -", shell=True, cwd=self.at("root"), check=True,
                       input=subprocess.run(["dpkg-deb", "-I", self.at("a/" + name), "md5sums"], check=True, stdout=subprocess.PIPE).stdout)
        for tool in TOOLS:
            self.assertTrue(os.path.exists(self.at("root/usr/share/man/man1/beebtube-%s.1.gz" % tool)), tool)
        done = call([sys.executable, self.at("root/usr/bin/beebtube-execute"), os.path.join(EXAMPLES, "c", "built", "three")], self.folder,
                    env={"PYTHONPATH": packages})
        self.assertEqual((done.status, done.err), (3, ""))

    def test_the_wheel_in_a_folder(self):
        # As pip unpacks it, with entry points as it makes them.
        top = self.clone("one")
        self.archive(top, "a", "wheel")
        wheel = [it for it in os.listdir(self.at("a")) if it.endswith(".whl")][0]
        with zipfile.ZipFile(self.at("a/" + wheel)) as packed:
            packed.extractall(self.at("site"))
            for entry in packed.infolist():
                os.chmod(self.at("site/" + entry.filename), entry.external_attr >> 16 & 0o777)
            entries = packed.read([it for it in packed.namelist() if it.endswith("entry_points.txt")][0]).decode()
            record = packed.read([it for it in packed.namelist() if it.endswith("RECORD")][0]).decode().splitlines()
        self.assertEqual(sorted(line.split(",")[0] for line in record), sorted(packed.namelist()))
        for tool in TOOLS:
            self.assertIn("beebtube-%s = beebtube.entries:%s\n" % (tool, tool), entries)

        def entry(name, *words):
            script = "import sys; sys.argv = sys.argv[1:]; from beebtube.entries import %s as it; sys.exit(it())" % name
            return call([sys.executable, "-c", script, "beebtube-" + name] + list(words), self.folder, env={"PYTHONPATH": self.at("site")})
        self.pair()
        self.assertEqual(entry("execute", os.path.join(EXAMPLES, "c", "built", "three")).status, 3)
        self.assertEqual(entry("program", "solo", "2000", "o", "--os", "os", "--tube", "tube").status, 0)
        self.assertTrue(os.path.exists(self.at("o.trace")))
        done = entry("program", "run", "9", "o", "--oss", "x")
        self.assertEqual((done.status, done.err), (1, "usage\nbeebtube: --oss: no such option, --os?\n"))
        self.assertIn("\nprogram %s/site/beebtube/release/beebtube\n" % self.folder, entry("program", "--version").out)
        self.assertEqual(entry("tube", self.at("o.trace")).out, self.tool("tube", "o.trace").out)
        self.assertIn("tube: cannot read missing\n", entry("tube", "missing").err)


if __name__ == "__main__":
    unittest.main()
