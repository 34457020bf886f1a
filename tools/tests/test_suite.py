"""What tools/suite promises: each run once, none that hides another, and data that stays data."""
import base64
import csv
import fcntl
import gzip
import hashlib
import html.parser
import json
import os
import re
import shlex
import shutil
import subprocess
import sys
import urllib.parse
import xml.etree.ElementTree
import zipfile

from common import EXAMPLES, IS_ROOT, TOP, Case, beebtube, call, child_of, children_of, is_alive, put, signal, text_of, unittest, wait_until
from beebtube import collection, files, results
from beebtube.collection import Order, Sums, listing_of, order_of, plan_of
from beebtube.frame import lines_in
from beebtube.table import COLUMNS, read_table
from beebtube.workers import Forecast, told_time

SMALL_DISK = os.environ.get("BEEBTUBE_SMALL_DISK")  # a folder on a file system of some 64 kB
WORDS = ("--", "--os", "os", "--tube", "tube")


class Suite(Case):
    def discs(self, *names):
        self.pair()
        os.mkdir(self.at("discs"))
        for name in names:
            put(self.at("discs/" + name), name.encode() * 20)

    def suite(self, *more, status=0, ticks="2000", words=WORDS, name="discs", **with_):
        return self.tool("suite", "--ticks", ticks, *more, name, "results", *words, status=status, **with_)

    def lines(self, done):
        """What was said of the runs."""
        return [line for line in done.out.splitlines() if not line.startswith("suite: ")]

    def table(self, name="results/results.csv"):
        with open(self.at(name), newline="", encoding="utf-8") as file:
            return {row["name"]: row for row in csv.DictReader(file)}

    def page(self, name="results/index.html"):
        return text_of(self.at(name)).decode()

    def runs(self, ending="json"):
        return sorted(name for name in os.listdir(self.at("results/runs")) if name.endswith("." + ending))

    def ran(self, done):
        return int(re.search("suite: run ([0-9]+), there before", done.out).group(1))

    # A program that counts its runs, does what a script says first, and then is the program.
    def counting(self, script=""):
        put(self.at("counts"), b"#!/bin/sh\necho \"$*\" >>%s/counted\n%s\nexec %s \"$@\"\n"
            % (os.fsencode(self.folder), script.encode(), os.fsencode(beebtube.Program().path)))
        os.chmod(self.at("counts"), 0o755)
        return {"BEEBTUBE": self.at("counts")}

    def counted(self):
        words = text_of(self.at("counted")).decode().splitlines() if os.path.exists(self.at("counted")) else []
        return len([line for line in words if line.startswith(("run", "solo", "replay", "resume", "follow"))])


class Running(Suite):
    def test_eight_runs_with_a_planted_difference(self):
        self.discs(*("%d.ssd" % number for number in range(8)))
        self.assertEqual(self.lines(self.suite()), ["done %d.ssd" % number for number in range(8)])
        os.rename(self.at("results/results.csv"), self.at("stored.csv"))
        done = self.suite("--against", "stored.csv")
        self.assertEqual(self.lines(done), ["same %d.ssd" % number for number in range(8)])
        self.assertEqual(self.ran(done), 0)
        put(self.at("discs/5.ssd"), b"another")
        done = self.suite("--against", "stored.csv", status=1)
        self.assertEqual(self.lines(done), ["same %d.ssd" % number for number in range(5)] + ["differs 5.ssd: d0 read:disc0.ssd", "same 6.ssd", "same 7.ssd"])
        self.assertIn("suite: 7 of 8 are good: same 7, differs 1\nsuite: run 1, there before 7; ", done.out)
        table = self.table()
        self.assertEqual([name for name, row in table.items() if row["differs"]], ["5.ssd"])
        self.assertEqual((table["5.ssd"]["state"], table["5.ssd"]["differs"]), ("differs", "d0 read:disc0.ssd"))
        page = self.page()
        part = page[page.index('<section id="differs"') : page.index('<section id="same"')]
        self.assertIn(">5.ssd</a></h3>", part)
        self.assertEqual(part.count('<article class="card">'), 1)
        self.assertEqual(page.count('<article class="card">'), 8)
        for digits in (table["5.ssd"]["outputs"], text_of(self.at("stored.csv")).decode().split("\n")[6]):
            self.assertIn(re.search("d0=([0-9a-f]{16})", digits).group(1), part)

    def test_the_sums_are_those_of_the_files(self):
        self.discs("a.ssd")
        put(self.at("discs/a.keys"), b"at 100 shot\n")
        self.suite("--keep", "kept")
        row = self.table()["a.ssd"]
        for cell, begin in (("inputs", ""), ("outputs", "out.")):
            self.assertTrue(row[cell])
            for it in row[cell].split():
                name, digits = it.split("=")
                self.assertEqual(hashlib.sha256(text_of(self.at("kept/a.ssd/" + begin + name))).hexdigest(), digits)
        self.assertEqual(row["words_sum"], hashlib.sha256(b"run 2000 out --os os --tube tube --disc0 disc0.ssd --keys keys").hexdigest())
        self.assertEqual((row["status"], row["ticks"]), ("0", "2000"))
        self.assertLess(0, float(row["seconds"]))

    def test_what_is_kept_is_a_run_that_others_can_check(self):
        self.discs("a.ssd")
        self.suite("--keep", "kept", "--shot")
        self.assertEqual(sorted(os.listdir(self.at("kept/a.ssd"))), ["disc0.ssd", "keys", "os"] + ["out." + it for it in (
            "000.ppm", "d0", "host", "manifest", "para", "report", "trace")] + ["tube"])
        self.assertEqual(self.tool("manifest", "--check", "out.manifest", folder=self.at("kept/a.ssd")).out, "same: files read 4, written 6\n")
        self.tool("page", "out", folder=self.at("kept/a.ssd"))
        # A file that no run left there is not removed.
        self.assertIn("kept/a.ssd has out.html, which", self.suite("--keep", "kept", "--shot", "--ticks", "1999", status=1).out)
        os.unlink(self.at("kept/a.ssd/out.html"))
        # What is there is not run again; of what lacks, that run is.
        self.assertEqual(self.ran(self.suite("--keep", "kept", "--shot")), 0)
        os.unlink(self.at("kept/a.ssd/out.d0"))
        self.assertEqual(self.ran(self.suite("--keep", "kept", "--shot")), 1)
        self.assertTrue(os.path.exists(self.at("kept/a.ssd/out.d0")))

    def test_nothing_is_kept_over_what_is_no_run(self):
        self.discs("a.ssd", "b.ssd")
        os.makedirs(self.at("kept/a.ssd"))
        put(self.at("kept/a.ssd/own"), b"own")
        done = self.suite("--keep", "kept", status=1)
        self.assertIn("it is not overwritten", self.lines(done)[0])
        self.assertEqual(self.lines(done)[1], "done b.ssd")
        self.assertEqual(text_of(self.at("kept/a.ssd/own")), b"own")
        self.assertEqual(sorted(os.listdir(self.at("kept"))), ["a.ssd", "b.ssd"])

    def test_files_of_somebody_else_are_never_removed(self):
        self.discs("a.ssd")
        os.makedirs(self.at("kept/a.ssd"))
        for name in ("os", "tube"):
            put(self.at("kept/a.ssd/my-" + name), text_of(self.at(name)))
        put(self.at("kept/a.ssd/out.manifest"), self.tool("manifest", "run", "2000", "out", "--os", "my-os", "--tube", "my-tube", folder=self.at("kept/a.ssd")).out.encode())

        def refused(words=WORDS):
            before = {name: text_of(self.at("kept/a.ssd/" + name)) for name in os.listdir(self.at("kept/a.ssd"))}
            told = self.suite("--keep", "kept", status=1, words=words).out
            self.assertIn("it is not overwritten", told)
            self.assertEqual({name: text_of(self.at("kept/a.ssd/" + name)) for name in os.listdir(self.at("kept/a.ssd"))}, before)
            self.assertEqual(os.listdir(self.at("kept")), ["a.ssd"])
            return told
        self.assertIn("has my-os", refused())
        shutil.rmtree(self.at("kept/a.ssd"))
        self.suite("--keep", "kept")
        put(self.at("discs/a.ssd"), b"another")
        put(self.at("kept/a.ssd/NOTES"), b"a year of notes")
        self.assertIn("has NOTES", refused())
        os.unlink(self.at("kept/a.ssd/NOTES"))
        put(self.at("kept/a.ssd/out.host"), b"\1" + text_of(self.at("kept/a.ssd/out.host"))[1:])
        self.assertIn("has out.host", refused())
        put(self.at("kept/a.ssd/out.host"), b"\0" + text_of(self.at("kept/a.ssd/out.host"))[1:])
        self.assertIn("has os, which is read too", refused(("--", "--os", "kept/a.ssd/os", "--tube", "tube")))
        self.suite("--keep", "kept")
        self.assertEqual(text_of(self.at("kept/a.ssd/disc0.ssd")), b"another")

    # A folder whose sitecustomize.py does something where a function of a module is called.
    def site(self, text):
        os.makedirs(self.at("site"), exist_ok=True)
        put(self.at("site/sitecustomize.py"), text.encode())
        return {"PYTHONPATH": self.at("site")}

    def test_all_that_is_kept_can_be_checked_at_once(self):
        self.discs("a.ssd", "b\n.ssd", "c.ssd")
        os.mkdir(self.at("discs/below"))
        put(self.at("discs/below/d.ssd"), b"d")
        self.suite("--keep", "kept", "--recursive")
        done = self.tool("manifest", "--check", "kept")
        self.assertEqual(done.out, "same a.ssd\nsame b\\x0a.ssd\nsame below/d.ssd\nsame c.ssd\nmanifest: 4 of 4 are the same\n")
        text = text_of(self.at("kept/c.ssd/out.manifest"))
        put(self.at("kept/c.ssd/out.manifest"), text.replace(b"status 0", b"status 3"))
        os.unlink(self.at("kept/a.ssd/os"))
        done = self.tool("manifest", "--check", "kept", "-j", "1", status=1)
        self.assertEqual(done.out, "failed a.ssd\n  cannot read os\nsame b\\x0a.ssd\nsame below/d.ssd\ndiffers c.ssd\n  not here: status 3\n  only here: status 0\n"
                         "manifest: 2 of 4 are the same\n")
        os.mkdir(self.at("none"))
        self.assertIn("has no run", self.tool("manifest", "--check", "none", status=1).err)
        for words in (("-j", "0"), ("-j", "x"), ("-k", "1")):
            self.tool("manifest", "--check", "kept", *words, status=2)

    def test_files_that_are_kept_are_whole_wherever_it_ends(self):
        """Ended or killed at each change of a name, or as the old files are removed, the old or the new ones are there; and it goes on."""
        self.discs("a.ssd")
        self.suite("--keep", "kept")
        put(self.at("discs/a.ssd"), b"another")
        shutil.copytree(self.at("kept"), self.at("before"))
        script = ("import os, signal\ncount = [0]\ndef make(old):\n    def it(*words, **how):\n        found = old(*words, **how)\n        count[0] += 'kept' in os.fspath(words[0]) and 'a.ssd' in ''.join(map(str, words))"
                  "\n        if count[0] == %d: os.kill(os.getpid(), signal.%s)\n        return found\n    return it\nos.rename = make(os.rename)\n")
        for number, name in ((1, "SIGTERM"), (2, "SIGTERM"), (2, "SIGKILL")):
            shutil.rmtree(self.at("kept"))
            shutil.copytree(self.at("before"), self.at("kept"))
            shutil.rmtree(self.at("results"))
            call([os.path.join(TOP, "tools", "suite"), "--ticks", "2000", "--keep", "kept", "discs", "results", *WORDS], self.folder, env=self.site(script % (number, name)))
            self.assertIn(text_of(self.at("kept/a.ssd/disc0.ssd")), (b"another", b"a.ssd" * 20))
            self.tool("manifest", "--check", "out.manifest", folder=self.at("kept/a.ssd"))
            self.suite("--keep", "kept")
            self.assertEqual((text_of(self.at("kept/a.ssd/disc0.ssd")), os.listdir(self.at("kept"))), (b"another", ["a.ssd"]))

    def test_what_was_killed_is_cleared_later(self):
        self.discs("a.ssd")
        os.mkdir(self.at("own"))
        self.suite(env={"TMPDIR": self.at("own")})
        for folder in ("own/beebtube-12345678", "own/beebtube-checkout", "own/beebtube-heldheld", "kept/.beebtube-12345678"):
            os.makedirs(self.at(folder + "/run"))
            put(self.at(folder + "/lock"), files.MARK if "checkout" not in folder else b"my own")
        for name in ("runs/.beebtube-abcdefgh", ".beebtube-abcdefgh", "runs/.beebtube-new_file"):
            put(self.at("results/" + name), b"x")
            os.utime(self.at("results/" + name), (0, 0) if "new" not in name else None)
        with open(self.at("own/beebtube-heldheld/lock"), "r+b") as lock:
            fcntl.flock(lock, fcntl.LOCK_EX)
            self.suite("--keep", "kept", env={"TMPDIR": self.at("own")})
        self.assertEqual(sorted(os.listdir(self.at("own"))), ["beebtube-checkout", "beebtube-heldheld"])
        self.assertEqual(os.listdir(self.at("kept")), ["a.ssd"])
        self.assertEqual([name for name in os.listdir(self.at("results")) + os.listdir(self.at("results/runs")) if name.startswith(".")], [".beebtube-new_file"])

    def test_many_at_once_keep_the_same(self):
        self.discs("a.ssd", "b.ssd", "c.ssd")
        words = [os.path.join(TOP, "tools", "suite"), "-j", "1", "--ticks", "2000", "--pages", "none", "--keep", "kept", "discs", "results", *WORDS]
        begun = [subprocess.Popen(words, cwd=self.folder, stdout=subprocess.PIPE, stderr=subprocess.STDOUT) for _ in range(4)]
        for done in begun:
            said = done.communicate(timeout=300)[0].decode()
            self.assertEqual(done.returncode, 0, said)
        self.assertEqual(sorted(os.listdir(self.at("kept"))), ["a.ssd", "b.ssd", "c.ssd"])

    def test_another_program_meanwhile(self):
        """What another program wrote is no result of the one that the suite began with."""
        self.discs("a.ssd", "b.ssd")
        env = self.counting("case \"$*\" in run*) [ -e done ] || : ;; esac; [ -e %s ] && echo '#' >>%s || : >%s" % (self.at("begun"), self.at("counts"), self.at("begun")))
        done = self.suite("-j", "1", status=1, env=env)
        self.assertIn("the program was changed meanwhile", done.out)
        self.assertLess(len(self.runs()), 2)
        self.assertIn("there before 0", done.out)

    def test_a_fifo_is_not_waited_for(self):
        self.discs("a.ssd")
        os.mkfifo(self.at("discs/b.set"))
        os.mkfifo(self.at("f"))
        os.mkfifo(self.at("discs/c.ssd"))
        self.assertEqual([line.split(":")[0] for line in self.lines(self.suite(status=1))], ["done a.ssd", "failed b.set", "failed c.ssd"])
        put(self.at("list.csv"), b"name,ticks,set,keys\nx,100,f,\ny,100,,f\n")
        self.assertEqual([line.split(":")[0] for line in self.lines(self.suite(name="list.csv", status=1))], ["failed x", "failed y"])
        self.suite(name="f", status=1)

    def test_one_that_fails_hides_no_other(self):
        self.pair()
        put(self.at("long"), b"x" * 204801)
        rows = ["good,2000,,", "missing,2000,nowhere.ssd,", "refused,2000,long,", "ticks,1e6,,", "again,2000,,", "good,2000,,", ",2000,,", "more,2000,,,9", "words,2000,,--os 'x", "up/../good,1,,",
                "option,2000,,--oss x", "zero,2000,/dev/zero,", "last,2000,,solo"]
        put(self.at("list.csv"), ("name,ticks,disc0,words\n" + "\n".join(rows) + "\n").encode())
        done = self.suite(name="list.csv", status=1)
        said = self.lines(done)
        self.assertEqual(len(said), 13)
        for line, begin in zip(said, ("done good", "failed missing: cannot read nowhere.ssd", "failed refused: 3 bad image disc0 204801: --disc0 long has 204,801 bytes", "failed ticks: 1 usage: 1e6: TICKS",
                                      "done again", "failed good (line 7): two runs have the name good", "failed line 8: ", "failed more: line 9 has more cells", "failed words: its arguments are not valid",
                                      "failed line 11: up/../good: each part", "failed option: 1 usage: --oss: no such option, --os?", "failed zero: /dev/zero is no plain file", "done last")):
            self.assertTrue(line.startswith(begin), (line, begin))
        self.assertIn("suite: 3 of 13 are good: done 3, failed 10", done.out)
        self.assertEqual(len(self.table()), 13)
        self.assertEqual(self.page().count('<article class="card">'), 13)

    # Names of any bytes, and how each is told.
    NAMES = {b".ssd": ".ssd", b"\xff.ssd": "\\xff.ssd", b"a\n.ssd": "a\\x0a.ssd", b"a\\x0a.ssd": "a\\\\x0a.ssd", b"a?.ssd": "a?.ssd", b"--.SSD": "--.SSD",
             "\u202e\xa0.ssd".encode(): "\\u202e\\u00a0.ssd", b"n" * 250 + b".ssd": "n" * 250 + ".ssd"}

    def test_names_of_any_bytes(self):
        self.discs()
        for at, name in enumerate(self.NAMES):
            put(os.fsencode(self.at("discs/")) + name, b"%d" % at)
        done = self.suite("--keep", "kept", "-j", "1")
        self.assertEqual(sorted(self.lines(done)), sorted("done " + told for told in self.NAMES.values()))
        self.assertEqual(sorted(os.listdir(os.fsencode(self.at("kept")))), sorted(self.NAMES))
        os.rename(self.at("results/results.csv"), self.at("stored.csv"))
        self.assertEqual({line.split()[0] for line in self.lines(self.suite("--against", "stored.csv"))}, {"same"})
        # A job of each does the same.
        os.rename(self.at("results"), self.at("alone"))
        for job in self.suite("--jobs").out.splitlines():
            done = call(["sh", "-c", job], "/")
            self.assertEqual(done.status, 0, done.err)
        self.suite("--gather", "--against", "stored.csv")

    def test_what_is_passed_over_is_told(self):
        self.discs("a.ssd")
        os.mkdir(self.at("discs/below"))
        put(self.at("discs/below/b.ssd"), b"b")
        for name in ("c.ADL", "d.hfe", "e.txt"):
            put(self.at("discs/" + name))
        with zipfile.ZipFile(self.at("discs/f.zip"), "w") as archive:
            archive.writestr("notes", b"x")
        done = self.suite()
        self.assertEqual(sorted(done.err.splitlines()), ["suite: below: a folder, which --recursive looks into", "suite: c.ADL: a file that beebtube does not read",
                                                         "suite: d.hfe: a file that beebtube does not read", "suite: f.zip: an archive without a disc"])
        for number in range(6):
            put(self.at("discs/%d.uef" % number))
        self.assertIn("suite: and 3 more: a file that beebtube does not read\n", self.suite().err)
        self.assertEqual(self.lines(self.suite("--recursive", "--keep", "kept")), ["done a.ssd", "done below/b.ssd"])
        self.assertTrue(os.path.exists(self.at("kept/below/b.ssd/out.manifest")))

    def test_discs_in_archives(self):
        self.discs("a.ssd")
        data = text_of(self.at("discs/a.ssd"))
        with zipfile.ZipFile(self.at("discs/b.zip"), "w", zipfile.ZIP_DEFLATED) as archive:
            for name, more in (("in/a.ssd", data), ("B.DSD", b"double"), ("../up.ssd", b"up"), ("bomb.ssd", bytes(3 << 20)), ("readme", b"x")):
                archive.writestr(name, more)
        put(self.at("discs/c.dsd.gz"), gzip.compress(b"double", mtime=0))
        put(self.at("discs/d.ssd.gz"), gzip.compress(b"cut")[:-4])
        put(self.at("discs/e.zip"), b"none")
        done = self.suite(status=1)
        self.assertEqual([line[:36] for line in self.lines(done)],
                         ["done a.ssd", *(line[:36] for line in (
                             "failed b.zip/../up.ssd: b.zip/../up.ssd: each", "done b.zip/B.DSD",
                             "failed b.zip/bomb.ssd: too long b.zip/bomb.ssd", "done b.zip/in/a.ssd",
                             "done c.dsd.gz", "failed d.ssd.gz: cannot unpack d.ssd.gz",
                             "failed e.zip: cannot unpack e.zip: File is not"))])
        table = self.table()
        self.assertEqual((table["b.zip/in/a.ssd"]["key"], table["c.dsd.gz"]["key"]), (table["a.ssd"]["key"], table["b.zip/B.DSD"]["key"]))
        self.assertIn("disc0.dsd=", table["c.dsd.gz"]["inputs"])

    def test_progress_on_a_terminal(self):
        self.discs("a.ssd", "b.ssd", "c.ssd")
        put(self.at("discs/b.ssd"), b"x" * 204801)
        leader, terminal = os.openpty()
        self.suite("-j", "1", status=1, stderr=terminal)
        os.close(terminal)
        said = b""
        while True:
            try:
                block = os.read(leader, 4096)
            except OSError:
                break
            said += block
            if not block:
                break
        os.close(leader)
        said = said.decode()
        self.assertIn("0 of 3; 1 run; no forecast yet", said)
        self.assertRegex(said, "2 of 3, failed 1; 1 run; about [0-9]+ s more")
        self.assertTrue(said.endswith("\r\x1b[K"))

    def test_a_run_that_is_ended_by_a_signal_is_no_result(self):
        self.discs("a.ssd", "b.ssd")
        put(self.at("discs/a.keys"), b"at 1 break\n")
        env = self.counting("case \"$*\" in *keys*) kill -9 $$ ;; esac")
        done = self.suite(status=1, env=env)
        self.assertEqual(self.lines(done), ["failed a.ssd: it was cut short: signal 9", "done b.ssd"])
        self.assertEqual(len(self.runs()), 1)
        self.suite(status=1, env=env)
        self.assertEqual(self.counted(), 3)

    def test_where_there_is_no_room(self):
        self.discs("a.ssd", "b.ssd")
        # No file may have more than 40,000 bytes: OUT.host fits, OUT.para does not.
        done = self.suite("--pages", "none", status=1, limit=40000)
        self.assertIn("failed a.ssd: it was cut short: cannot write out.para", done.out)
        self.assertIn("suite: run 0, there before 0; ", done.out)
        self.assertEqual(self.runs(), [])

    @unittest.skipUnless(SMALL_DISK, "no small disk is there")
    def test_a_full_disk_ends_the_suite(self):
        self.discs("a.ssd", "b.ssd", "c.ssd")
        self.suite(name="discs", ticks="1")
        env = {**self.counting(), "TMPDIR": SMALL_DISK}
        done = self.suite("-j", "1", status=1, env=env)
        self.assertEqual([line.split(":")[0] for line in self.lines(done)], ["failed a.ssd", "missing b.ssd", "missing c.ssd"])
        self.assertIn("suite: stopped, since a disk is full: it was cut short: ", done.err)
        self.assertIn("%s has no room\n" % SMALL_DISK, done.err)
        self.assertEqual(self.counted(), 1)
        self.assertEqual([row["state"] for row in self.table().values()], ["failed", "missing", "missing"])
        self.assertEqual([name for name in os.listdir(SMALL_DISK) if "beebtube" in name], [])

    @unittest.skipIf(IS_ROOT, "root may write everywhere")
    def test_a_folder_that_cannot_be_written(self):
        self.discs("a.ssd")
        os.mkdir(self.at("results"))
        os.chmod(self.at("results"), 0o555)
        try:
            self.assertIn("cannot write results", self.suite(status=1).err)
        finally:
            os.chmod(self.at("results"), 0o755)
        self.assertIn("TMPDIR", self.suite(status=1, env={"TMPDIR": self.at("nowhere")}).err)
        self.assertEqual(sorted(os.listdir(self.at("discs"))), ["a.ssd"])

    def test_nothing_is_written_over(self):
        self.discs("a.ssd")
        os.mkdir(self.at("results"))
        for name in ("results.csv", "index.html"):
            put(self.at("results/" + name), b"my own")
            self.assertIn("it is not overwritten", self.suite(status=1).err)
            self.assertEqual(text_of(self.at("results/" + name)), b"my own")
            os.unlink(self.at("results/" + name))
        self.suite()
        self.suite()

    def test_words_that_are_wrong(self):
        self.discs("a.ssd")
        for words in ((), ("discs",), ("discs", "results", "more"), ("-j", "0", "discs", "results"), ("-j", "x", "discs", "results"), ("--ticks", "x", "discs", "results"), ("--pages", "all", "discs", "results"),
                      ("--jobs", "--gather", "discs", "results"), ("--one", "results"), ("--one=results",), ("--nothing", "discs", "results")):
            self.tool("suite", *words, status=2)
        for words in (("check",), ("gen", "1"), ("runs",), ("--os",), ("--os", "os", "--os", "tube")):
            self.tool("suite", "discs", "results", "--", *words, status=1)
        self.assertIn("it needs TICKS", self.tool("suite", "discs", "results", *WORDS, status=1).out)
        os.mkdir(self.at("nothing"))
        self.assertIn("has no run", self.suite(name="nothing", status=1).err)
        self.assertIn("cannot read", self.suite(name="missing", status=1).err)


class Once(Suite):
    def test_the_same_words_and_files_are_run_once(self):
        self.discs("a.ssd", "b.ssd", "c.ssd")
        put(self.at("discs/b.ssd"), text_of(self.at("discs/a.ssd")))
        env = self.counting()
        done = self.suite("-j", "3", env=env)
        self.assertEqual((len(self.lines(done)), self.ran(done), self.counted()), (3, 2, 2))
        # Under other names they are the same, too.
        os.rename(self.at("discs"), self.at("moved"))
        os.rename(self.at("os"), self.at("other"))
        done = self.suite(name="moved", env=env, words=("--", "--tube", "tube", "--os", "other"))
        self.assertEqual((self.ran(done), self.counted()), (0, 2))
        # Another tick, another command, another program: another run.
        self.suite(name="moved", ticks="2001", env=env, words=("--", "--tube", "tube", "--os", "other"))
        self.assertEqual(self.counted(), 4)
        self.suite(name="moved", env=env, words=("--", "solo", "--tube", "tube", "--os", "other"))
        self.assertEqual(self.counted(), 6)
        put(self.at("counts"), text_of(self.at("counts")) + b"#\n")
        self.suite(name="moved", env=env, words=("--", "--tube", "tube", "--os", "other"))
        self.assertEqual(self.counted(), 8)

    def test_a_suite_that_is_stopped_goes_on(self):
        self.discs("a.ssd", "b.ssd", "c.ssd", "d.ssd")
        os.mkdir(self.at("own"))
        put(self.at("discs/c.keys"), b"at 1 break\n")
        env = {**self.counting("case \"$*\" in *keys*) [ -e %s ] || exec sleep 1000 ;; esac" % self.at("go-on")), "TMPDIR": self.at("own")}
        for number in (signal.SIGTERM, signal.SIGINT, signal.SIGHUP):
            words = [os.path.join(TOP, "tools", "suite"), "-j", "2", "--ticks", "2000", "discs", "results", *WORDS]
            done = subprocess.Popen(words, cwd=self.folder, env={**os.environ, **env}, stdout=subprocess.PIPE, stderr=subprocess.PIPE, start_new_session=True)
            self.assertTrue(wait_until(lambda: os.path.isdir(self.at("results/runs")) and len(self.runs()) == 3))
            self.assertTrue(wait_until(lambda: any(map(child_of, children_of(done.pid)))))
            workers = children_of(done.pid)
            program = next(filter(None, map(child_of, workers)))
            done.send_signal(number)
            err = done.communicate(timeout=300)[1]
            self.assertEqual(done.returncode, 128 + number, err)
            self.assertEqual(([it for it in workers + [program] if is_alive(it)], os.listdir(self.at("own"))), ([], []))
            self.assertEqual(err, b"")
        self.assertEqual(self.counted(), 6)
        put(self.at("go-on"))
        done = self.suite(env=env)
        self.assertEqual((len(self.lines(done)), self.ran(done), self.counted()), (4, 1, 7))

    def test_a_worker_that_is_killed(self):
        """The program that it called is ended, the run is no result, and the others go on."""
        self.discs("a.ssd", "b.ssd", "c.ssd")
        put(self.at("discs/b.keys"), b"at 1 break\n")
        os.mkdir(self.at("own"))
        env = {**self.counting("case \"$*\" in *keys*) exec sleep 1000 ;; esac"), "TMPDIR": self.at("own")}
        words = [os.path.join(TOP, "tools", "suite"), "-j", "2", "--ticks", "2000", "discs", "results", *WORDS]
        done = subprocess.Popen(words, cwd=self.folder, env={**os.environ, **env}, stdout=subprocess.PIPE, stderr=subprocess.PIPE)
        self.assertTrue(wait_until(lambda: os.path.isdir(self.at("results/runs")) and len(self.runs()) == 2))
        worker = wait_until(lambda: next(filter(child_of, children_of(done.pid)), None))
        program = child_of(worker)
        os.kill(worker, signal.SIGKILL)
        said = done.communicate(timeout=300)[0].decode()
        self.assertEqual(said.splitlines()[:3], ["done a.ssd", "failed b.ssd: its process was ended by signal 9", "done c.ssd"])
        self.assertTrue(wait_until(lambda: not is_alive(program)))
        # The next suite removes what the killed one left.
        os.unlink(self.at("discs/b.keys"))
        self.suite(env={"TMPDIR": self.at("own")})
        self.assertEqual(os.listdir(self.at("own")), [])

    def test_a_damaged_part_of_a_result_is_made_again(self):
        self.discs("a.ssd", "b.ssd")
        self.suite("--shot")
        good = {name: text_of(self.at("results/runs/" + name)) for name in self.runs("json") + self.runs("png") + self.runs("html")}
        one, two = self.runs()

        def same(name):
            """The file is as it was, but for times."""
            return [re.sub(rb'"(seconds|processor|sum)": [^,\n]*', b"", text) for text in (text_of(self.at("results/runs/" + name)), good[name])]
        for text in (b"", b"{}", b"[]", b"\xff", b"1" * 100, good[one][:-5], good[two], good[one].replace(b'"status": 0', b'"status": 1'), b"[" * 100000, None):
            os.unlink(self.at("results/runs/" + one))
            if text is not None:
                put(self.at("results/runs/" + one), text)
            self.assertEqual(len(self.tool("suite", "--jobs", "--ticks", "2000", "--shot", "discs", "results", *WORDS).out.splitlines()), 1)
            self.assertEqual(self.ran(self.suite("--shot")), 1)
            self.assertEqual(*same(one))
        for name in (one[:-4] + "png", one[:-4] + "html"):
            for text in (b"", good[name][:-1] + b"x", None):
                os.unlink(self.at("results/runs/" + name))
                if text is not None:
                    put(self.at("results/runs/" + name), text)
                self.assertEqual(self.ran(self.suite("--shot")), 1)
                self.assertEqual(*same(name))
        self.assertEqual(self.ran(self.suite("--shot")), 0)

    def test_a_run_that_gives_another_result_is_told(self):
        self.discs("a.ssd")
        self.suite()
        name = self.at("results/runs/" + self.runs()[0])
        told = json.loads(text_of(name))
        told["wrote"][0][1] = "0" * 64
        del told["sum"]
        told["sum"] = results._sum_of_told(told)
        put(name, json.dumps(told).encode())
        done = self.suite("--keep", "kept", status=1)
        self.assertIn("failed a.ssd: two runs of the same arguments and files differ: d0", done.out)
        self.assertEqual(os.listdir(self.at("kept")), [])

    def test_results_that_no_run_has_are_removed(self):
        self.discs("a.ssd", "b.ssd")
        self.suite("--shot")
        os.unlink(self.at("discs/b.ssd"))
        put(self.at("results/runs/notes.json"), b"mine")
        put(self.at("results/runs/%064d.json" % 0), b"no result")
        put(self.at("discs/broken.set"), b"--oss x\n")
        done = self.suite("--clear", "--shot", status=1)
        self.assertIn("suite: no result is removed, since a run of the list is wrong: ", done.err)
        self.assertEqual(len(self.runs("png")), 2)
        os.unlink(self.at("discs/broken.set"))
        self.assertEqual(self.suite("--clear", "--shot").out, "suite: removed 1 results, 3 files; 1 results are of runs of discs\n")
        self.assertEqual((len(self.runs("png")), len(self.runs("html")), len(self.runs())), (1, 1, 3))
        self.assertEqual(self.ran(self.suite("--shot")), 0)

    def test_seconds(self):
        self.discs("a.ssd")
        self.tool("suite", "--seconds", "0.0005", "discs", "results", *WORDS)
        self.assertEqual(self.table()["a.ssd"]["ticks"], "3000")
        self.tool("suite", "--seconds", "0.0005", "discs", "results", *WORDS, "--speed", "4")
        self.assertEqual(self.table()["a.ssd"]["ticks"], "6000")
        self.assertIn("at most", self.tool("suite", "--seconds", "180", "discs", "results", *WORDS, status=1).err)
        self.suite("--seconds", "1", status=2)

    def test_pages(self):
        self.discs("a.ssd")
        self.assertEqual((self.ran(self.suite("--pages", "none")), self.runs("html")), (1, []))
        self.assertNotIn("<a href=\"runs/", self.page())
        self.assertEqual(self.ran(self.suite()), 1)
        page = text_of(self.at("results/runs/" + self.runs("html")[0])).decode()
        self.assertIn("<h1>Run %s</h1>" % self.runs("html")[0][:16], page)
        self.assertIn("The trace was not read for this page.", page)
        self.assertEqual(page.count("the same here"), 8)
        self.assertEqual((self.ran(self.suite("--pages", "whole")), len(self.runs("whole.html"))), (1, 1))
        self.assertIn('href="runs/' + self.runs("whole.html")[0], self.page())
        self.assertIn("register 1", text_of(self.at("results/runs/" + self.runs("whole.html")[0])).decode())
        self.assertEqual(self.ran(self.suite("--pages", "plain")), 0)

    def test_a_page_that_cannot_be_made_is_no_success(self):
        self.discs("a.ssd")
        put(self.at("odd"), b"#!/bin/sh\necho nothing >out.report\n")
        os.chmod(self.at("odd"), 0o755)
        done = self.suite(status=1, env={"BEEBTUBE": self.at("odd")})
        self.assertEqual(self.lines(done), ["done a.ssd: no page: no report: the line 'nothing'"])
        self.assertIn("suite: 0 of 1 are good: done 1\n", done.out)
        self.assertEqual(call(["sh", "-c", self.suite("--jobs", env={"BEEBTUBE": self.at("odd")}).out], "/", env={"BEEBTUBE": self.at("odd")}).status, 1)
        self.suite("--pages", "none", env={"BEEBTUBE": self.at("odd")})

    def test_a_listing_has_no_page(self):
        self.pair()
        put(self.at("list.csv"), b"name,ticks,words\nlisted,2000,follow host %s --os os\n" % os.fsencode(os.path.join(EXAMPLES, "letters.trace")))
        for ran in (1, 0):
            done = self.suite(name="list.csv", words=())
            self.assertEqual((self.lines(done), self.ran(done)), (["done listed"], ran))


class Lists(Suite):
    def plan(self, entry):
        return plan_of(entry, "0", False, Sums())

    def test_columns_sets_and_common_words(self):
        self.pair()
        os.mkdir(self.at("below"))
        for name in ("os", "tube", "a.ssd", "b.DSD", "k.keys"):
            put(self.at("below/" + name), text_of(self.at(name)) if name in ("os", "tube") else b"")
        put(self.at("below/model.set"), b"--os os\n--tube tube\n--speed 4\n")
        put(self.at("below/list.csv"), "\ufeffname, ticks ,set,words,disc0,keys,wav,plugs,#year\n"
                                       "whole,9,model.set,solo --keep 5,a.ssd,k.keys,yes,2,1985\n\n"
                                       "own,,,--speed 3 --os os,b.DSD,,no,,\n"
                                       "alone,,model.set,replay host /dev/null,,,,,\n"
                                       "\"two\nlines\",1,,,,,,,\n"
                                       "spelled,,,run 7 out --wav x --save below/y,,,,,\n".encode())
        found = {entry.name: entry for entry in listing_of(self.at("below/list.csv"), order_of(["--tube", "tube", "--speed", "4"], "").over(Order("run", {"TICKS": "5"}))).entries}
        words = {name: " ".join(collection._named(entry.order)[0]) for name, entry in found.items() if entry.order.command}
        self.assertEqual(words["whole"], "solo 9 out --os os --tube tube --disc0 disc0.ssd --keys keys --plugs 2 --keep 5 --speed 4 --wav out.wav")
        self.assertEqual(words["own"], "run 5 out --os os --tube tube --disc0 disc0.dsd --speed 3")
        self.assertEqual(words["alone"], "replay host trace 5 out --os os --speed 4")
        self.assertEqual(words["spelled"], "run 7 out --tube tube --speed 4 --wav out.wav --save out.save")
        self.assertEqual([entry.fault for entry in found.values() if entry.fault], [])
        self.assertEqual({it.name: it.path for it in collection._named(found["whole"].order)[1]},
                         {"os": self.at("below/os"), "tube": self.at("below/tube"), "disc0.ssd": self.at("below/a.ssd"), "keys": self.at("below/k.keys")})

    def test_a_host_by_itself_and_an_option_that_the_table_has_not(self):
        """Any words are carried: those of `replay host`, and an option that the tools do not know yet, with a value or without one."""
        order = order_of(["replay", "host", "/dev/null", "9", "out", "--os", "os", "--no-tube", "--new", "4", "--other", "--rom15", "r"], "at")
        self.assertEqual(collection._named(order)[0], "replay host trace 9 out --os os --rom15 rom15 --no-tube --new 4 --other".split())
        self.assertEqual(collection.words_for_job(order)[:4], ["replay", "host", "/dev/null", "9"])
        self.assertEqual(collection._named(order_of(collection.words_for_job(order), ""))[0], collection._named(order)[0])
        self.assertRaises(beebtube.Fault, order_of, ["replay", "host", "t", "9", "out", "--new", "/etc/victim"], "")
        # The program is asked: it is the one that knows.
        self.pair()
        put(self.at("list.csv"), b"name,ticks,words\nalone,2000,replay host /dev/null --os os --no-tube\n")
        put(self.at("takes"), b"#!/bin/sh\ncase \"$*\" in 'replay host trace 2000 out --os os --no-tube') printf 'ticks 2000\\ntube 0\\nframes 0\\n' >out.report ;; *) exit 1 ;; esac\n")
        os.chmod(self.at("takes"), 0o755)
        done = self.suite(name="list.csv", words=(), env={"BEEBTUBE": self.at("takes")})
        self.assertEqual(self.lines(done), ["done alone"])

    def test_a_host_by_itself(self):
        put(self.at("os"), beebtube.asm("6502", os.path.join(EXAMPLES, "screen-os.asm")))
        put(self.at("list.csv"), b"name,ticks,os,words,keys\nscreen,3000000,os,replay host /dev/null,%s\n" % os.fsencode(os.path.join(EXAMPLES, "screen.keys")))
        self.suite(name="list.csv", words=())
        row = self.table()["screen"]
        self.assertIn("000.ppm=", row["outputs"])
        self.assertIn("trace=" + hashlib.sha256(b"").hexdigest(), row["inputs"])
        self.assertEqual(self.runs("png"), [row["key"] + ".png"])
        self.assertIn('<img src="runs/%s.png"' % row["key"], self.page())

    def test_a_folder_with_sets(self):
        self.discs("a.ssd", "A.DSD", "c.txt")
        put(self.at("discs/A.set"), b"--speed 4\n")
        put(self.at("discs/pair.set"), b"--plugs 1\n")
        put(self.at("discs/pair.keys"), b"at 5 shot\n")
        put(self.at("discs/broken.set"), b"--oss x\n")
        done = self.suite(status=1)
        self.assertEqual([line.split(":")[0] for line in self.lines(done)], ["done A.DSD", "done a.ssd", "failed broken.set", "done pair.set"])
        table = self.table()
        self.assertTrue(table["A.DSD"]["words"].startswith("run 2000 --os os --tube tube --speed 4 --disc0 discs/A.DSD"))
        self.assertIn("disc0.dsd=", table["A.DSD"]["inputs"])
        self.assertIn("plug0=", table["pair.set"]["outputs"])
        self.assertIn("000.ppm=", table["pair.set"]["outputs"])

    def test_a_model_b_alone_is_what_a_folder_has(self):
        self.discs("a.ssd", "b.ssd", "c.ssd")
        put(self.at("discs/b.set"), b"--tube tube\n--plugs 1\n")
        put(self.at("discs/tube"), text_of(self.at("tube")))
        put(self.at("discs/c.txt"), b"HI")
        done = self.suite("--text", words=("--", "--os", "os"), status=1)
        self.assertEqual(self.lines(done), ["done a.ssd", "done b.ssd", "failed c.ssd: c.txt types up to tick 13,200,000: the run is too short"])
        table = self.table()
        self.assertEqual(table["a.ssd"]["words"], "replay host /dev/null 2000 --os os --no-tube --disc0 discs/a.ssd")
        self.assertNotIn("para=", table["b.ssd"]["outputs"])
        self.assertIn("plug0=", table["b.ssd"]["outputs"])
        done = self.suite("--both", "--only", "done", words=("--", "--os", "os"), status=1)
        self.assertEqual(self.lines(done), ["done b.ssd"])
        self.assertIn("para=", self.table()["b.ssd"]["outputs"])
        # What is typed is what tools/type writes, as a job too.
        self.suite("--text", "--keep", "kept", ticks="14000000", words=("--", "--os", "os"))
        self.assertEqual(text_of(self.at("kept/c.ssd/keys")).decode(), self.tool("type", "HI").out)
        self.assertIn("--text discs/c.txt", self.table()["c.ssd"]["words"])
        os.rename(self.at("results"), self.at("alone"))
        for job in self.suite("--jobs", "--text", ticks="14000000", words=("--", "--os", "os")).out.splitlines():
            done = call(["sh", "-c", job], "/")
            self.assertEqual(done.status, 0, done.err)
        self.suite("--gather", "--text", ticks="14000000", words=("--", "--os", "os"))
        self.suite("--both", words=("--", "solo", "--os", "os"), status=2)

    def test_what_is_on_a_disc(self):
        self.discs("a.ssd")
        put(self.at("discs/b.dsd"), beebtube.asm("6502", os.path.join(EXAMPLES, "disc.asm")))
        self.suite()
        row = self.table()["b.dsd"]
        self.assertEqual((row["title"], row["files"]), ("SOURCE DISC", "$.NOTES $.!BOOT :2.A.BACK"))
        self.assertEqual((self.table()["a.ssd"]["title"], self.table()["a.ssd"]["files"]), ("", ""))
        self.assertIn("SOURCE DISC: files 3", self.page())

    def test_tables_that_are_none(self):
        self.pair()
        for text in (b"", b"\xff", b"a,b\n1,2\n", b"name\n", b"name,name\na,b\n", b"name,nothing\na,b\n", b"name,ticks\n\"a", b"name\n\0\n", b"name,os\r\n" + b"x" * 200000 + b"\n", b"name,words\na,\"" + b"'" * 9 + b"\"\n"):
            put(self.at("list.csv"), text)
            for more in ((), ("--jobs",), ("--gather",)):
                done = call([os.path.join(TOP, "tools", "suite"), *more, "list.csv", "results"], self.folder)
                self.assertEqual(done.status, 1, (text[:20], done.err))
                self.assertNotIn("a fault of this tool", done.err)
                self.assertTrue(done.err or done.out)

    def test_a_shot_at_the_end(self):
        self.discs("a.ssd", "b.ssd", "c.ssd", "d.ssd")
        put(self.at("discs/b.keys"), b"at 5 down 41\nat 1999 up 41\nat 3000 down 41\n")
        put(self.at("discs/c.keys"), b"at 5 shot\n")
        put(self.at("discs/d.keys"), b"at 5 SHOT\n")
        done = self.suite("--shot", "--keep", "kept", status=1)
        self.assertTrue(self.lines(done)[3].startswith("failed d.ssd: 4 bad script 1"))
        self.assertEqual([text_of(self.at("kept/%s.ssd/keys" % name)) for name in "abcd"],
                         [b"at 1999 shot\n", b"at 5 down 41\nat 1999 up 41\nat 1999 shot\nat 3000 down 41\n", b"at 5 shot\n", b"at 5 SHOT\n"])
        self.assertEqual([len([it for it in os.listdir(self.at("kept/%s.ssd" % name)) if it.endswith(".ppm")]) for name in "abc"], [1, 1, 1])

    def test_keys_do_not_depend_on_names_but_on_all_that_counts(self):
        self.pair()
        put(self.at("a.ssd"), b"a")
        put(self.at("a.dsd"), b"a")
        put(self.at("b.ssd"), b"b")

        def key(*words, program="0", shot=False):
            return plan_of(collection.Entry("x", order_of(["run", "9", "out", "--os", self.at("os"), "--tube", self.at("tube"), *words], "")), program, shot, Sums()).key
        keys = [key(), key("--disc0", self.at("a.ssd")), key("--disc0", self.at("a.dsd")), key("--disc0", self.at("b.ssd")), key("--disc1", self.at("a.ssd")),
                key("--wav", "x"), key("--speed", "4"), key("--keep", "5"), key(program="1"), key(shot=True)]
        self.assertEqual(len(set(keys)), len(keys))
        self.assertEqual(key("--wav", "x"), key("--wav", "y"))
        self.assertEqual(key("--speed", "4", "--keep", "5"), key("--keep", "5", "--speed", "4"))


class Against(Suite):
    def test_new_and_gone_and_others(self):
        self.discs("a.ssd", "b.ssd", "c.ssd", "d.ssd")
        self.suite()
        os.rename(self.at("results/results.csv"), self.at("stored.csv"))
        os.unlink(self.at("discs/a.ssd"))
        put(self.at("discs/z.ssd"), b"z")
        put(self.at("discs/c.ssd"), b"x" * 204801)
        done = self.suite("--against", "stored.csv", status=1)
        self.assertEqual([line.split(":")[0] for line in self.lines(done)], ["same b.ssd", "failed c.ssd", "same d.ssd", "new z.ssd", "gone a.ssd"])
        self.assertIn("suite: 2 of 5 are good: same 2, failed 1, new 1, gone 1\n", done.out)
        self.assertEqual([row["state"] for row in self.table().values()], ["same", "failed", "same", "new", "gone"])
        for part in ("failed", "new", "gone", "same"):
            self.assertIn('<section id="%s"' % part, self.page())
        # A row that is gone is no stored run.
        os.rename(self.at("results/results.csv"), self.at("stored.csv"))
        done = self.suite("--against", "stored.csv", "--ticks", "2001", status=1)
        self.assertEqual([line.split(":")[0] for line in self.lines(done)], ["differs b.ssd", "failing c.ssd", "differs d.ssd", "differs z.ssd"])
        self.assertEqual(self.table()["b.ssd"]["differs"].split()[-1], "words")

    def test_a_collection_may_move(self):
        """A run that failed before the program ran has the same fault in another folder."""
        self.discs("a.ssd")
        put(self.at("discs/bad.zip"), b"no archive")
        put(self.at("discs/b.set"), b"--oss x\n")
        put(self.at("list.csv"), b"name,words\nlost,solo --disc0 lost.ssd\n")
        moved = "moved" + "-and-long" * 8
        for name in ("discs", "list.csv"):
            self.suite(name=name, status=1)
            os.rename(self.at("results/results.csv"), self.at("stored.csv"))
            os.mkdir(self.at(moved))
            os.rename(self.at(name), self.at(moved + "/" + name))
            where = os.path.abspath(self.at(moved + "/" + name)) if name == "discs" else moved + "/" + name
            done = self.suite("--against", "stored.csv", name=where)
            self.assertEqual({line.split()[0] for line in self.lines(done)} - {"same"}, {"failing"}, done.out)
            shutil.rmtree(self.at(moved))

    def test_each_state_is_told_for_what_it_is(self):
        self.discs("bad.ssd", "breaks.ssd", "mends.ssd", "same.ssd", "moves.ssd", "twin.ssd")
        put(self.at("discs/twin.ssd"), text_of(self.at("discs/same.ssd")))
        for name in ("bad", "mends"):
            put(self.at("discs/%s.ssd" % name), b"x" * 204801)
        put(self.at("discs/lacks.set"), b"--font missing\n")
        put(self.at("discs/same.keys"), b"at 1999 down 41\n")
        self.suite(status=1)
        os.rename(self.at("results/results.csv"), self.at("stored.csv"))
        # Nothing was changed: a failure that is stored is no news, and the status is 0.
        good = ["failing bad.ssd", "same breaks.ssd", "failing lacks.set", "failing mends.ssd", "same moves.ssd", "same same.ssd", "same twin.ssd"]
        done = self.suite("--against", "stored.csv")
        self.assertEqual([line.split(":")[0] for line in self.lines(done)], good)
        put(self.at("discs/breaks.ssd"), b"x" * 204801)
        put(self.at("discs/mends.ssd"), b"x")
        put(self.at("discs/same.keys"), b"at 1999 down 42\n")
        os.rename(self.at("discs/moves.ssd"), self.at("discs/moved.ssd"))
        done = self.suite("--against", "stored.csv", status=1)
        self.assertEqual([line.split(":")[0] for line in self.lines(done)],
                         ["failing bad.ssd", "failed breaks.ssd", "failing lacks.set", "differs mends.ssd", "renamed moved.ssd", "equal same.ssd", "same twin.ssd"])
        self.assertIn("renamed moved.ssd: it was moves.ssd\nequal same.ssd: read:keys\n", done.out)
        self.assertEqual(self.table()["moved.ssd"]["was"], "moves.ssd")
        self.assertNotIn('id="gone"', self.page())
        # An input that changes no output, or another name, is no failure.
        put(self.at("discs/breaks.ssd"), b"breaks.ssd" * 20)
        put(self.at("discs/mends.ssd"), b"x" * 204801)
        done = self.suite("--against", "stored.csv", "--only", "renamed,equal")
        self.assertEqual([line.split()[0] for line in self.lines(done)], ["renamed", "equal"])
        self.assertEqual(self.page().count('<article class="card">'), 2)
        self.assertEqual(len(self.table()), 7)
        # Another failure than the stored one is told.
        put(self.at("discs/lacks.set"), b"--font elsewhere\n")
        done = self.suite("--against", "stored.csv", "--only", "failed", status=1)
        self.assertEqual(self.lines(done), ["failed lacks.set: cannot read elsewhere"])
        self.tool("suite", "--only", "fine", "discs", "results", status=2)

    def test_a_table_of_other_columns(self):
        """A stored table needs no more columns than those that are compared."""
        self.discs("a.ssd")
        self.suite()
        row = self.table()["a.ssd"]
        names = ("key", "outputs", "inputs", "words_sum", "status", "name")
        put(self.at("stored.csv"), ("%s\n%s\n" % (",".join(names), ",".join(row[name] for name in names))).encode())
        self.assertEqual(self.lines(self.suite("--against", "stored.csv")), ["same a.ssd"])

    def test_tables_that_are_none(self):
        self.discs("a.ssd")
        self.suite()
        good = text_of(self.at("results/results.csv"))
        for text in (b"", b"x\n", good[:100], b"\xff", good + b"a,b\n", good + b'"', good.replace(b"name,", b"nome,")):
            put(self.at("stored.csv"), text)
            self.suite("--against", "stored.csv", status=1)
        put(self.at("stored.csv"), good)
        self.suite("--against", "stored.csv")
        # The stored table is not written over.
        os.symlink("results/results.csv", self.at("link.csv"))
        good = text_of(self.at("results/results.csv"))
        for name in ("results/results.csv", "link.csv"):
            self.assertIn("is not overwritten", self.suite("--against", name, status=1).err)
        self.assertEqual(text_of(self.at("results/results.csv")), good)

    def test_cells_are_data_for_a_sheet(self):
        self.discs("=1+1.ssd", "-x.ssd", "@a.ssd", "'q.ssd", "a,\"b.ssd", "b;=1+1.ssd", "\uff1d1+1.ssd")
        self.suite()
        text = text_of(self.at("results/results.csv")).decode()
        self.assertEqual([line[0] for line in text.splitlines()], ["n", "'", "'", "'", "'", '"', "b", "'"])
        self.assertNotRegex(text, "(^|[,;\"\n])[=+@\uff1d-](?![0-9a-f]{64})")
        names = sorted(os.listdir(self.at("discs")))
        self.assertEqual(sorted(read_table(self.at("results/results.csv"))), [name.replace(";=", ";\\u003d") for name in names])
        os.rename(self.at("results/results.csv"), self.at("stored.csv"))
        self.assertEqual({line.split()[0] for line in self.lines(self.suite("--against", "stored.csv"))}, {"same"})


class Reports(Suite):
    def test_the_states_of_all_runs(self):
        self.discs("good.ssd", "a<&\">#\\.ssd", "changes.ssd", "\x01\n\u200b.ssd")
        put(self.at("discs/long.ssd"), bytes(204801))
        self.suite(status=1)
        os.rename(self.at("results/results.csv"), self.at("stored.csv"))
        put(self.at("discs/changes.ssd"), b"other bytes")
        put(self.at("discs/new.ssd"), b"new")
        self.suite("--against", "stored.csv", "--junit", "t.xml", "--tap", "t.tap", status=1)
        rows = self.table()
        good = {name for name, row in rows.items() if row["state"] in ("same", "equal", "failing")}
        self.assertEqual(set(rows) - good, {"changes.ssd", "new.ssd"})
        suite = xml.etree.ElementTree.parse(self.at("t.xml")).getroot()[0]
        self.assertEqual({name: suite.get(name) for name in ("name", "tests", "failures")},
                         {"name": "discs", "tests": "6", "failures": "2"})
        self.assertEqual([case.get("name") for case in suite], list(rows))
        self.assertEqual({case.get("name") for case in suite if not len(case)}, good)
        self.assertEqual([(it.get("type"), it.get("message")) for case in suite for it in case],
                         [("differs", "differs changes.ssd: d0 read:disc0.ssd"), ("new", "new new.ssd")])
        for case in suite:
            self.assertEqual("%.3f" % float(case.get("time")), rows[case.get("name")]["seconds"])
        lines = text_of(self.at("t.tap")).decode().splitlines()
        self.assertEqual(lines[:2], ["TAP version 13", "1..6"])
        named = [re.fullmatch("(ok|not ok) ([0-9]+) - (.*)", line) for line in lines]
        named = [match.groups() for match in named if match]
        told = [("ok" if name in good else "not ok", str(number), name.replace("\\", "\\\\").replace("#", "\\#"))
                for number, name in enumerate(rows, 1)]
        self.assertEqual(named, told)

    def test_a_file_that_is_read_stays(self):
        self.discs("good.ssd")
        put(self.at("list.csv"), b"name,disc0\na,discs/good.ssd\n")
        for option in ("--junit", "--tap"):
            done = self.suite(option, "list.csv", name="list.csv", status=1)
            self.assertIn("list.csv is read too, and is not overwritten", done.err)
            self.assertIn("results/results.csv is read too", self.suite(option, "results/results.csv", status=1).err)
        self.assertEqual(text_of(self.at("list.csv")), b"name,disc0\na,discs/good.ssd\n")
        self.assertEqual(len(self.table()), 1)

    @unittest.skipUnless(shutil.which("prove"), "prove is not there")
    def test_another_program_reads_it(self):
        self.discs("good.ssd", "skip # SKIP.ssd", "todo # TODO x.ssd")
        put(self.at("discs/long # SKIP.ssd"), bytes(204801))
        self.suite("--tap", "t.tap", status=1)
        done = call(["prove", "--exec", "cat", "t.tap"], self.folder)
        self.assertIn("Failed 1/4 subtests", done.out)


class Crates(Suite):
    def crate(self, folder):
        """The entities of a folder's metadata, by their ids; bench/crate.py finds that each rule holds."""
        done = call([os.path.join(TOP, "bench", "crate.py"), self.at(folder)], self.folder)
        self.assertEqual((done.status, done.err), (0, ""), done.out)
        text = json.loads(text_of(self.at(folder + "/ro-crate-metadata.json")).decode())
        return {entity["@id"]: entity for entity in text["@graph"]}

    def test_each_rule_of_the_standard_can_fail(self):
        self.discs("one.ssd")
        put(self.at("discs/long.ssd"), bytes(204801))
        self.suite("--keep", "kept", status=1)
        self.tool("manifest", "--crate", "kept")
        good = self.crate("kept")
        context = json.loads(text_of(self.at("kept/ro-crate-metadata.json")).decode())["@context"]
        program = next(name for name in good if name.startswith("#beebtube-"))
        # A changed entity, a term of it and its value (None: the term is removed), and a word of what is said.
        for name, term, value, word in (
            ("ro-crate-metadata.json", "about", {"@id": "kept"}, "is about ./"),
            ("ro-crate-metadata.json", "conformsTo", "1.1", "conforms to"),
            ("./", "datePublished", "2 December 2026", "of ISO 8601"),
            ("./", "license", None, "it has license"),
            ("./", "hasPart", [], "a part of the root"),
            ("./", "mentions", [], "the root mentions"),
            ("./", "mentions", [{"@id": "#nobody"}], "leads to an entity"),
            ("./", "sum", "1", "is a term"),
            ("#run-one.ssd", "instrument", None, "it has instrument"),
            ("#run-one.ssd", "instrument", {"@id": "one.ssd/os"}, "right type"),
            ("#run-one.ssd", "object", {"@id": program}, "right type"),
            ("#run-one.ssd", "result", None, "it has result"),
            ("#run-one.ssd", "agent", {"@id": program}, "right type"),
            ("#run-one.ssd", "actionStatus", "good", "its status is known"),
            ("#run-long.ssd", "error", None, "if and only if it failed"),
            (program, "name", {"@value": "beebtube"}, "text or a reference"),
            ("one.ssd/os", "@id", "/one.ssd/os", "relative path"),
            ("one.ssd/os", "@id", "one ssd/os", "a URI reference"),
            ("one.ssd/os", "@id", "one.ssd/nothing", "it is here"),
            ("one.ssd/os", "@id", "one.ssd/tube", "each entity is there once"),
            ("one.ssd/os", "@type", "Datei", "its type is known"),
            ("one.ssd/os", "contentSize", "1", "its length is right"),
            ("one.ssd/os", "sha256", "0" * 64, "its checksum is right"),
            ("one.ssd/os", "encodingFormat", "binary", "a media type"),
        ):
            bad = {**good[name], term: value}
            if value is None:
                del bad[term]
            put(self.at("kept/ro-crate-metadata.json"), json.dumps(
                {"@context": context, "@graph": [*(it for it in good.values() if it != good[name]), bad]}).encode())
            done = call([os.path.join(TOP, "bench", "crate.py"), self.at("kept")], self.folder)
            self.assertEqual((done.status, done.err), (1, ""), (name, term, value))
            self.assertIn(word, done.out, (name, term, value))

    def test_each_file_of_a_suite_with_its_checksum(self):
        self.discs("one.ssd", "a <b>\n#%41.ssd")
        put(os.fsencode(self.at("discs/")) + b"\xff.ssd", b"bytes")
        put(self.at("discs/long.ssd"), bytes(204801))
        self.suite("--keep", "kept", status=1)
        self.tool("manifest", "--crate", "kept", env={"SOURCE_DATE_EPOCH": "86400"})
        first = text_of(self.at("kept/ro-crate-metadata.json"))
        found = self.crate("kept")
        parts = {urllib.parse.unquote_to_bytes(it["@id"]): found[it["@id"]] for it in found["./"]["hasPart"]}
        top = os.fsencode(self.at("kept"))
        here = {os.path.relpath(os.path.join(at, name), top) for at, _, names in os.walk(top) for name in names}
        self.assertEqual(set(parts), here - {b"ro-crate-metadata.json"})
        for name, entity in parts.items():
            data = text_of(os.path.join(top, name))
            self.assertEqual((entity["sha256"], entity["contentSize"]), (hashlib.sha256(data).hexdigest(), str(len(data))))
        runs = {found[it["@id"]]["name"]: found[it["@id"]] for it in found["./"]["mentions"]}
        self.assertEqual(sorted(runs), ["\\xff.ssd", "a <b>\\x0a#%41.ssd", "long.ssd", "one.ssd"])
        ends = {name: run["actionStatus"].rpartition("/")[2] for name, run in runs.items()}
        self.assertEqual({name for name, end in ends.items() if end != "CompletedActionStatus"}, {"long.ssd"})
        self.assertEqual(runs["long.ssd"]["error"], "status 3\nbad image disc0 204801")
        one = runs["one.ssd"]
        self.assertEqual([it["@id"] for it in one["object"]], ["one.ssd/os", "one.ssd/tube", "one.ssd/disc0.ssd"])
        self.assertIn({"@id": "one.ssd/out.report"}, one["result"])
        self.assertEqual(one["description"], "beebtube run 2000 out --os os --tube tube --disc0 disc0.ssd")
        self.assertEqual(found["./"]["datePublished"], "1970-01-02")
        self.assertIn("Not stated", found["./"]["license"])
        self.tool("manifest", "--crate", "kept", env={"SOURCE_DATE_EPOCH": "86400"})
        self.assertEqual(text_of(self.at("kept/ro-crate-metadata.json")), first)
        url = "https://spdx.org/licenses/CC0-1.0"
        self.tool("manifest", "--crate", "kept", "--license", url)
        self.assertEqual(self.crate("kept")["./"]["license"], [{"@id": url}])
        self.tool("manifest", "--crate", "kept", "--license", "ask me")
        self.assertEqual(self.crate("kept")["./"]["license"], "ask me")
        self.tool("manifest", "--crate", "kept", "--licence", "ask me", status=2)

    def test_a_manifest_by_itself(self):
        self.pair()
        words = ("replay", "host", os.devnull, "2000", "x", "--os", "os", "--no-tube")
        put(self.at("m"), self.tool("manifest", *words).out.encode())
        self.tool("manifest", "--crate", "m")
        found = self.crate(".")
        self.assertEqual({it["@id"] for it in found["./"]["hasPart"]}, {"m", "os", "x.host", "x.report"})
        empty = hashlib.sha256(b"").hexdigest()
        self.assertEqual(found["#sha256-" + empty]["name"], os.devnull)
        self.assertIn({"@id": "#sha256-" + empty}, found["#run-m"]["object"])

    def test_what_is_not_here_is_refused(self):
        self.discs("one.ssd")
        self.suite("--keep", "kept")
        put(self.at("kept/one.ssd/out.host"), b"other bytes")
        self.assertIn("kept/one.ssd/out.manifest has another checksum", self.tool("manifest", "--crate", "kept", status=1).err)
        os.unlink(self.at("kept/one.ssd/out.host"))
        self.assertIn("one.ssd/out.host is not here", self.tool("manifest", "--crate", "kept", status=1).err)
        self.assertFalse(os.path.exists(self.at("kept/ro-crate-metadata.json")))
        self.assertIn("has no run", self.tool("manifest", "--crate", "discs", status=1).err)
        os.mkdir(self.at("own"))
        put(self.at("own/ro-crate-metadata.json"), b"{}")
        put(self.at("own/m"), self.tool("manifest", "gen", "1").out.encode())
        self.assertIn("is not overwritten", self.tool("manifest", "--crate", "own/m", status=1).err)


class Elsewhere(Suite):
    def jobs(self, *more, **how):
        return self.suite("--jobs", *more, **how).out.splitlines()

    def bare(self, name):
        return {row["name"]: {cell: row[cell] for cell in COLUMNS if cell not in ("seconds", "processor")} for row in self.table(name).values()}

    def test_jobs_in_any_order_and_folder_do_the_same(self):
        self.discs("a.ssd", "it's <b>&$(id)`id`.ssd", "c d.dsd", "-e.ssd")
        put(self.at("discs/long.ssd"), b"x" * 204801)
        self.suite("--shot", status=1)
        os.rename(self.at("results"), self.at("alone"))
        jobs = self.jobs("--shot")
        self.assertEqual(len(jobs), 5)
        self.assertFalse(os.path.exists(self.at("results")))
        for job in reversed(jobs):
            done = call(["sh", "-c", job], "/")
            self.assertEqual(done.status, 0, done.err)
        self.assertEqual(self.jobs("--shot"), [])
        done = self.suite("--gather", "--shot", status=1)
        self.assertIn("suite: 4 of 5 are good: done 4, failed 1", done.out)
        self.assertEqual(self.bare("results/results.csv"), self.bare("alone/results.csv"))
        page, other = (re.sub("[0-9.]+ s of a processor", "", self.page(folder + "/index.html")) for folder in ("results", "alone"))
        self.assertEqual(page, other)
        self.assertEqual(sorted(os.listdir(self.at("results/runs"))), sorted(os.listdir(self.at("alone/runs"))))

    def test_a_job_loads_what_it_needs_alone(self):
        self.discs("a.ssd")
        done = call(["python3", "-S", "-X", "importtime", *shlex.split(self.jobs()[0])], "/")
        self.assertEqual((done.status, done.out), (0, "done a.ssd\n"))
        loaded = {line.rpartition("|")[2].strip() for line in done.err.splitlines() if line.startswith("import time:")}
        self.assertIn("beebtube.jobs", loaded)
        self.assertEqual(loaded & {"argparse", "ast", "beebtube.suite", "difflib", "zipfile"}, set())

    def test_several_runs_in_a_job(self):
        self.discs("a.ssd", "++.ssd", "c.ssd", "d.ssd", "e.ssd")
        self.suite()
        os.rename(self.at("results"), self.at("alone"))
        jobs = self.jobs("--batch", "2")
        self.assertEqual(len(jobs), 3)
        put(self.at("discs/a.ssd"), b"another")
        said = [call(["sh", "-c", job], "/") for job in jobs]
        self.assertEqual([(it.status, it.out) for it in said], [(1, "done ++.ssd\n"), (0, "done c.ssd\ndone d.ssd\n"), (0, "done e.ssd\n")])
        self.assertIn("suite: a.ssd: a.ssd: the program, or a file", said[0].err)
        put(self.at("discs/a.ssd"), b"a.ssd" * 20)
        self.assertEqual([call(["sh", "-c", job], "/").out for job in self.jobs("--batch", "9")], ["done a.ssd\n"])
        self.suite("--gather")
        self.assertEqual(self.bare("results/results.csv"), self.bare("alone/results.csv"))

    def test_what_is_there_is_no_job(self):
        self.discs("a.ssd", "b.ssd")
        jobs = self.jobs()
        call(["sh", "-c", jobs[0]], "/")
        self.assertEqual(self.jobs(), jobs[1:])
        done = self.suite("--gather", status=1)
        self.assertEqual(self.lines(done), ["done a.ssd", "missing b.ssd"])
        # Done once more, nothing is run.
        name = self.at("results/runs/" + self.runs()[0])
        before = os.stat(name)
        self.assertEqual(call(["sh", "-c", jobs[0]], "/").status, 0)
        self.assertEqual(os.stat(name), before)

    def test_another_file_than_that_of_the_job_is_refused(self):
        self.discs("a.ssd")
        job = self.jobs()[0]
        put(self.at("discs/a.ssd"), b"another")
        done = call(["sh", "-c", job], "/")
        self.assertEqual((done.status, "differs from the one" in done.err), (1, True))
        put(self.at("discs/a.ssd"), b"a.ssd" * 20)
        done = call(["sh", "-c", job], "/", env=self.counting())
        self.assertEqual((done.status, "differs from the one" in done.err), (1, True))
        self.assertEqual(call(["sh", "-c", job], "/").status, 0)

    def test_a_job_has_its_program_with_it(self):
        self.discs("a.ssd")
        job = self.jobs()[0]
        for form, given, why in (("[0-9a-f]{64}(?=%22%5D)", "0" * 64, "the program was changed"),
                                 ("(?<=--program=)[^ ]*", "%5B%5D", "is no program")):
            done = call(["sh", "-c", re.sub(form, given, job)], "/")
            self.assertEqual((done.status, why in done.err), (1, True))
            self.assertFalse(os.path.exists(self.at("results/runs")) and self.runs())
        # The launcher, which needs bash and git, is not asked.
        os.mkdir(self.at("bin"))
        os.symlink(sys.executable, self.at("bin/python3"))
        done = call(["/bin/sh", "-c", job], "/", env={"PATH": self.at("bin")})
        self.assertEqual(done.out, "done a.ssd\n")

    def test_a_line_of_the_list_that_is_wrong_is_no_job(self):
        self.pair()
        put(self.at("list.csv"), b"name,ticks,disc0\na,2000,\nb,2000,missing\n\"c\nd\",2001,\n")
        done = self.suite("--jobs", name="list.csv", status=1)
        self.assertEqual([shlex.split(line)[3] for line in done.out.splitlines()], ["--name=a", "--name=c%0Ad"])
        self.assertIn("suite: b: cannot read missing\n", done.err)

    def test_words_that_a_shell_takes_for_others(self):
        self.pair()
        os.mkdir(self.at("a $(touch x) 'b"))
        for name in ("os", "tube"):
            put(self.at("a $(touch x) 'b/" + name), text_of(self.at(name)))
        put(self.at("list.csv"), b"name,ticks,os,tube\n\"$(touch y); `touch z`\",2000,a $(touch x) 'b/os,a $(touch x) 'b/tube\n")
        job, = self.jobs(name="list.csv", words=())
        self.assertEqual(shlex.split(job)[0], os.path.join(TOP, "tools", "suite"))
        done = call(["sh", "-c", job], self.folder)
        self.assertEqual((done.status, done.out), (0, "done $(touch y); `touch z`\n"))
        self.assertEqual([name for name in "xyz" if os.path.exists(self.at(name))], [])

    def test_no_name_of_a_file_is_a_line_of_its_own(self):
        """A job is one line, whatever the names: an engine that takes each line for a job finds no command in a name."""
        self.pair()
        bad = "a\n touch %s ;#.ssd" % self.at("x")
        put(self.at(bad.replace("/", "_")), b"disc")
        put(self.at("list.csv"), ('name,ticks,disc0\n"a\nb",1000,"%s"\n--,1001,\n' % bad.replace("/", "_")).encode())
        jobs = self.jobs(name="list.csv")
        self.assertEqual(len(jobs), 2)
        for job in jobs:
            done = call(["sh", "-c", job], "/")
            self.assertEqual(done.status, 0, done.err)
        self.assertFalse(os.path.exists(self.at("x")))
        self.assertEqual(self.lines(self.suite("--gather", name="list.csv")), ["done a\\x0ab", "done --"])


class Sheet(Suite):
    class Reader(html.parser.HTMLParser):
        def __init__(self, text):
            super().__init__()
            self.elements, self.styles = [], []
            self.feed(text)

        def handle_starttag(self, tag, attributes):
            self.elements.append((tag, dict(attributes)))

        def handle_data(self, data):
            if self.elements and self.elements[-1][0] == "style" and not self.styles:
                self.styles.append(data)

    def test_names_and_contents_are_data(self):
        bad = "<script>document.title=1<!-- \"'&.ssd"
        self.pair()
        os.mkdir(self.at("discs"))
        put(self.at("discs/" + bad), b"x")
        put(self.at("list.csv"), ('name,ticks,words,disc0\n"%s",2000,,"discs/%s"\n"<img src=x onerror=alert(1)>",2000,--<script>,\n' % (bad.replace('"', '""'), bad.replace('"', '""'))).encode())
        self.suite(name="list.csv", status=1)
        page = self.page()
        found = self.Reader(page)
        self.assertEqual([tag for tag, _ in found.elements if tag in ("script", "img", "iframe", "object", "form")], [])
        self.assertEqual([key for _, attributes in found.elements for key in attributes if key.startswith("on")], [])
        self.assertIn("&lt;script&gt;document.title=1&lt;!-- &quot;&#x27;&amp;.ssd", page)
        self.assertIn("&lt;img src=x onerror=alert(1)&gt;", page)
        policy, = [attributes["content"] for tag, attributes in found.elements if tag == "meta" and "http-equiv" in attributes]
        self.assertEqual(policy, "default-src 'none'; style-src 'sha256-%s'; img-src 'self' file:; base-uri 'none'; form-action 'none'"
                         % base64.b64encode(hashlib.sha256(found.styles[0].encode()).digest()).decode())
        for name in self.runs("html"):
            self.assertNotIn("document.title=1", text_of(self.at("results/runs/" + name)).decode())

    def test_the_stored_frame_is_beside_another_one(self):
        os.mkdir(self.at("discs"))
        put(self.at("os"), beebtube.asm("6502", os.path.join(EXAMPLES, "screen-os.asm")))
        for name in "ab":
            put(self.at("discs/%s.ssd" % name), name.encode())
        words = ("--", "--os", "os")
        self.suite("--shot", ticks="2000000", words=words)
        os.rename(self.at("results/results.csv"), self.at("stored.csv"))
        old = self.runs("png")
        put(self.at("discs/a.keys"), b"at 100000 down 30\n")
        self.suite("--shot", "--against", "stored.csv", ticks="2000000", words=words, status=1)
        pictures = [attributes for tag, attributes in self.Reader(self.page()).elements if tag == "img"]
        self.assertEqual([it["alt"] for it in pictures], ["The last frame of a.ssd", "The last frame of the stored run of a.ssd", "The last frame of b.ssd"])
        self.assertIn(pictures[1]["src"][5:], old)
        frames = [lines_in(text_of(self.at("results/" + it["src"])))[0] for it in pictures[:2]]
        places = [(x, y) for y in range(256) for x in range(640)
                  if (frames[0][642 * y + 1 + x // 2] ^ frames[1][642 * y + 1 + x // 2]) >> (0 if x % 2 else 4) & 15]
        box = "x %d to %d, y %d to %d" % (min(x for x, _ in places), max(x for x, _ in places), places[0][1], places[-1][1])
        self.assertIn("pixels differ in " + box, self.page())
        # The run's own page has both frames, and the pixels that differ.
        links = [attributes.get("href", "") for tag, attributes in self.Reader(self.page()).elements if tag == "a"]
        name, = {it for it in links if it.endswith(".against.html")}
        page = self.page("results/" + name)
        self.assertIn("Pixels differ in %s." % box, page)
        section = self.Reader(page.partition('<section id="against"')[2].partition("</section>")[0])
        shown = [attributes for tag, attributes in section.elements if tag == "img"]
        self.assertEqual([it["alt"] for it in shown], ["The last frame " + what for what in (
            "of this run", "of the stored run", "with the pixels that differ in white")])
        drawn = [beebtube.Frame.of_png(base64.b64decode(it["src"].partition(",")[2])) for it in shown]
        whole = [beebtube.Frame.of_png(text_of(self.at("results/" + it["src"]))) for it in pictures[:2]]
        self.assertEqual(drawn, [*whole, whole[0].difference(whole[1])])
        self.assertIn(("a", {"href": "#against"}), self.Reader(page).elements)
        self.assertEqual(page.replace(page[page.index('\n<section id="against"') : page.index("\n</main>")], "")
                         .replace('<li><a href="#against">Against the stored run</a></li>', ""),
                         self.page("results/" + name.replace(".against", "")))
        # Nothing of it is left once nothing differs, and once its result goes.
        self.suite("--shot", ticks="2000000", words=words)
        self.assertEqual(self.runs("against.html"), [])
        self.suite("--shot", "--against", "stored.csv", ticks="2000000", words=words, status=1)
        self.assertEqual(len(self.runs("against.html")), 1)
        os.unlink(self.at("discs/a.keys"))
        self.suite("--shot", "--clear", ticks="2000000", words=words)
        self.assertEqual(self.runs("against.html"), [])

    def test_all_can_be_reached_and_is_named(self):
        self.discs("a.ssd", "b.ssd")
        self.suite("--shot")
        found = self.Reader(self.page()).elements
        ids = [attributes["id"] for _, attributes in found if "id" in attributes]
        self.assertEqual(len(ids), len(set(ids)))
        links = [attributes for tag, attributes in found if tag == "a"]
        for attributes in links:
            target = attributes["href"]
            self.assertTrue(target[1:] in ids if target.startswith("#") else os.path.exists(self.at("results/" + target)), target)
        self.assertEqual(len([it for it in links if it["href"].startswith("runs/") and "tabindex" not in it]), 2)
        pictures = [attributes for tag, attributes in found if tag == "img"]
        self.assertEqual([it["alt"] for it in pictures], ["The last frame of a.ssd", "The last frame of b.ssd"])
        self.assertTrue(all(os.path.exists(self.at("results/" + it["src"])) for it in pictures))
        self.assertEqual([attributes.get("lang") for tag, attributes in found if tag == "html"], ["en"])
        self.assertEqual([tag for tag, _ in found if re.fullmatch("h[1-6]", tag)], ["h1", "h2", "h3", "h3"])


class Times(unittest.TestCase):
    def test_told(self):
        self.assertEqual([told_time(it) for it in (0, 1, 89, 120, 5000, 7200, 86400 * 3)], ["1 s", "1 s", "89 s", "2 min", "83 min", "2 h", "3.0 days"])

    def test_forecast(self):
        forecast = Forecast()
        for weight in (10, 10, 20, 40):
            forecast.plans(weight)
        self.assertEqual(forecast.told(), "no forecast yet")
        forecast.drops(40)
        forecast.began -= 100
        forecast.ends(10)
        self.assertAlmostEqual(forecast.rest(), 300, delta=1)
        self.assertEqual(forecast.told(), "about 5 min more")


if __name__ == "__main__":
    unittest.main()
