"""The debug adapter, driven by a client over a pipe and over a socket."""
import base64
import glob
import io
import json
import os
import queue
import shutil
import socket
import subprocess
import sys
import threading
import time
import unittest
from unittest import mock

from common import EXAMPLES, TOP, Case, call, put

import beebtube
from beebtube.adapter import Adapter
from beebtube.program import Program
from beebtube.shown import REQUESTS

DAP = [sys.executable, "-B", os.path.join(TOP, "tools", "dap")]
BUILT = os.path.join(EXAMPLES, "c", "built")
LIMIT_C = os.path.join(EXAMPLES, "c", "limit.c")
COUNTS = """        org &C000
start:  LDX #&FF
        TXS
loop:   JSR count
        JSR count
        JMP loop
count:  INC &70
        LDA &70
        AND #3
        STA &71
        RTS
        org &FFFA
        word start, start, start
"""


class Client:
    """A client of the adapter at the other end of two streams."""

    def __init__(self, source, target):
        self.source, self.target = source, target
        self.seq, self.events, self.raw = 0, [], []
        self.answers = {}
        self.arrived = queue.Queue()
        threading.Thread(target=self._read, daemon=True).start()

    def _read(self):
        while True:
            length = None
            for line in iter(self.source.readline, b"\r\n"):
                if not line:
                    self.arrived.put(None)
                    return
                if line.startswith(b"Content-Length: "):
                    length = int(line.split()[1])
            data = self.source.read(length)
            self.raw.append(data)
            self.arrived.put(json.loads(data))

    def send(self, command, **arguments):
        self.seq += 1
        data = json.dumps(
            {"seq": self.seq, "type": "request", "command": command, "arguments": arguments}
        ).encode()
        self.target.write(b"Content-Length: %d\r\n\r\n" % len(data) + data)
        self.target.flush()
        return self.seq

    def _next(self):
        message = self.arrived.get(timeout=300)
        if message is None:
            raise AssertionError("the adapter ended")
        if message["type"] == "event":
            self.events.append(message)
        else:
            self.answers[message["request_seq"]] = message
        return message

    def answer(self, seq):
        while seq not in self.answers:
            self._next()
        return self.answers[seq]

    def ask(self, command, **arguments):
        """The body of an answer that succeeds."""
        told = self.answer(self.send(command, **arguments))
        if not told["success"]:
            raise AssertionError("%s: %s" % (command, told["message"]))
        return told.get("body")

    def refused(self, command, **arguments):
        told = self.answer(self.send(command, **arguments))
        assert not told["success"], told
        return told["message"]

    def event(self, name):
        """The next event of a name, which is taken."""
        while True:
            for at, event in enumerate(self.events):
                if event["event"] == name:
                    return self.events.pop(at).get("body")
            self._next()

    def goes(self, command, **arguments):
        """A request that ends with a stop; the reason, and the frames there."""
        self.ask(command, threadId=self.thread, **arguments)
        return self.stop()

    def stop(self):
        stopped = self.event("stopped")
        self.thread = stopped["threadId"]
        self.frames = self.ask("stackTrace", threadId=self.thread)["stackFrames"]
        return stopped

    def at(self):
        return self.frames[0]["name"], self.frames[0]["line"]

    def variables(self, scope, frame=0):
        scopes = self.ask("scopes", frameId=self.frames[frame]["id"])["scopes"]
        number = next(it["variablesReference"] for it in scopes if it["name"] == scope)
        return {
            it["name"]: it["value"]
            for it in self.ask("variables", variablesReference=number)["variables"]
        }


class Adapters(Case):
    def client(self, **launch):
        child = subprocess.Popen(
            DAP, stdin=subprocess.PIPE, stdout=subprocess.PIPE, cwd=self.folder
        )
        self.addCleanup(child.stdout.close)
        self.addCleanup(child.wait, 300)
        self.addCleanup(child.stdin.close)
        client = Client(child.stdout, child.stdin)
        self.capabilities = client.ask("initialize", adapterID="beebtube")
        if launch:
            client.ask("launch", **launch)
            client.event("initialized")
        return client

    def begin(self, client):
        client.ask("configurationDone")
        return client.stop()

    def limit(self, **more):
        return self.client(
            program=os.path.join(BUILT, "limit"),
            paraLabels=[os.path.join(BUILT, "limit.labels")],
            paraDebug=[os.path.join(BUILT, "limit.dbg")],
            sourceFolder=TOP,
            **more
        )

    def counts(self, **more):
        put(self.at("os"), Program().asm("6502", COUNTS.encode()))
        put(self.at("counts.asm"), COUNTS.encode())
        return self.client(host=["60000", "x", "--os", "os"], hostSource=["counts.asm"], **more)


class Programs(Adapters):
    def test_a_program_in_c(self):
        """Lines, calls, variables, and back in time to the line that wrote a variable."""
        client = self.limit()
        self.assertEqual(client.event("output")["output"], "the limit is 25\n")
        self.assertTrue(self.capabilities["supportsStepBack"])
        told = client.ask(
            "setBreakpoints",
            source={"path": LIMIT_C},
            breakpoints=[{"line": 11}, {"line": 18}, {"line": 99}],
        )
        self.assertEqual([it["verified"] for it in told["breakpoints"]], [True, True, False])
        self.begin(client)
        self.assertEqual(client.at(), ("main", 16))
        self.assertEqual(client.goes("continue")["reason"], "breakpoint")
        self.assertEqual(client.at(), ("fill", 11))
        self.assertEqual([it["name"] for it in client.frames][:2], ["fill", "main"])
        self.assertEqual(
            [(it["line"], os.path.realpath(it["source"]["path"])) for it in client.frames[:2]],
            [(11, os.path.realpath(LIMIT_C)), (16, os.path.realpath(LIMIT_C))],
        )
        self.assertEqual(client.variables("Locals"), {"at": "1 (01)"})
        for _ in range(4):
            client.goes("continue")
        self.assertEqual(client.variables("Locals"), {"at": "5 (05)"})
        self.assertEqual(client.variables("Globals")["limit"], "100 (64 00)")
        client.goes("continue")
        self.assertEqual(client.at(), ("main", 18))
        self.assertEqual(client.variables("Globals")["limit"], "25 (19 00)")
        # Back to the line that changed it.
        info = client.ask("dataBreakpointInfo", name="limit")
        self.assertIn("write", info["accessTypes"])
        client.ask("setBreakpoints", source={"path": LIMIT_C}, breakpoints=[])
        client.ask(
            "setDataBreakpoints", breakpoints=[{"dataId": info["dataId"], "accessType": "write"}]
        )
        stopped = client.goes("reverseContinue")
        self.assertEqual(
            (stopped["reason"], stopped["text"]), ("data breakpoint", "0BB1: 64 to 19")
        )
        self.assertEqual(
            [(it["name"], it["line"]) for it in client.frames[1:3]], [("fill", 11), ("main", 16)]
        )
        stopped = client.goes("continue")
        self.assertEqual(stopped["text"], "0BB1: 64 to 19")

    def test_steps_by_lines(self):
        client = self.limit()
        self.begin(client)
        self.assertEqual(client.at(), ("main", 16))
        client.goes("next")
        self.assertEqual(client.at(), ("main", 17))
        client.goes("stepBack")
        self.assertEqual(client.at(), ("main", 16))
        client.goes("stepIn")
        self.assertEqual(client.frames[0]["name"], "fill")
        client.goes("next")
        self.assertEqual(client.at(), ("fill", 11))
        client.goes("next")
        self.assertEqual(client.at(), ("fill", 10))
        client.goes("stepBack")
        self.assertEqual(client.at(), ("fill", 11))
        client.goes("stepOut")
        self.assertEqual(client.frames[0]["name"], "main")
        client.goes("stepIn", granularity="instruction")
        targets = client.ask("gotoTargets", source={"path": LIMIT_C}, line=11)["targets"]
        self.assertIn("last before", targets[-1]["label"])
        client.goes("goto", targetId=targets[-1]["id"])
        self.assertEqual(client.at(), ("fill", 11))

    def test_sources_from_the_folder_of_the_launch(self):
        os.mkdir(self.at("project"))
        for ending in ("", ".dbg"):
            shutil.copy(os.path.join(BUILT, "limit" + ending), self.at("project/game" + ending))
        os.symlink(EXAMPLES, self.at("project/examples"))
        client = self.client(program="game", paraDebug=["game.dbg"], cwd="project")
        self.begin(client)
        self.assertEqual(client.at(), ("main", 16))
        self.assertEqual(
            os.path.realpath(client.frames[0]["source"]["path"]), os.path.realpath(LIMIT_C)
        )

    def test_commands_and_values(self):
        client = self.limit(at="end")
        self.begin(client)
        frame = client.frames[0]["id"]
        self.assertEqual(
            client.ask("evaluate", expression="_limit,2", context="hover", frameId=frame)["result"],
            "25 (19 00)",
        )
        self.assertEqual(
            client.ask("evaluate", expression="limit", context="watch")["result"], "25 (19 00)"
        )
        told = client.ask("evaluate", expression="who _limit", context="repl")["result"]
        self.assertIn("0BB1: 64 to 19", told)
        client.stop()
        self.assertEqual(client.frames[1]["name"], "fill")
        self.assertIn(
            "no label", client.refused("evaluate", expression="who nowhere", context="repl")
        )
        self.assertIn(
            "tube",
            [it["label"] for it in client.ask("completions", text="tu", column=3)["targets"]],
        )
        self.assertEqual(
            client.ask("evaluate", expression="a", context="watch")["result"],
            client.variables("Registers")["A"],
        )
        self.assertIn("flags", client.variables("Tube"))
        self.assertEqual(client.variables("Run")["boot ROM"], "out")
        png = base64.b64decode(client.ask("beebtube/screen")["data"])
        self.assertTrue(png.startswith(b"\x89PNG"))


class Hosts(Adapters):
    def test_breakpoints_of_all_kinds(self):
        client = self.counts()
        labels = beebtube.labels_of("6502", COUNTS.encode())
        path = self.at("counts.asm")
        told = client.ask(
            "setBreakpoints",
            source={"path": path},
            breakpoints=[{"line": 7, "condition": "(0070)=05"}],
        )
        self.assertEqual(told["breakpoints"][0]["line"], 7)
        self.begin(client)
        self.assertEqual(client.frames[0]["line"], 2)
        client.goes("continue")
        self.assertEqual(
            client.ask("evaluate", expression="0070", context="watch")["result"], "5 (05)"
        )
        self.assertEqual([it["line"] for it in client.frames], [7, 5])
        client.ask(
            "setBreakpoints", source={"path": path}, breakpoints=[{"line": 7, "hitCondition": "9"}]
        )
        client.goes("continue")
        self.assertEqual(
            client.ask("evaluate", expression="0070", context="watch")["result"], "8 (08)"
        )
        self.assertEqual(client.goes("continue")["text"], "the run's last tick")
        client.ask("setBreakpoints", source={"path": path}, breakpoints=[])
        told = client.ask(
            "setFunctionBreakpoints", breakpoints=[{"name": "count"}, {"name": "nowhere"}]
        )
        self.assertEqual([it["verified"] for it in told["breakpoints"]], [True, False])
        self.assertEqual(client.goes("reverseContinue")["reason"], "function breakpoint")
        client.ask("setFunctionBreakpoints", breakpoints=[])
        client.ask(
            "setInstructionBreakpoints",
            breakpoints=[
                {"instructionReference": "host:%04X" % labels["loop"], "hitCondition": "% 3"}
            ],
        )
        self.assertEqual(client.goes("reverseContinue")["reason"], "instruction breakpoint")
        last = int(client.ask("evaluate", expression="0070", context="watch")["result"].split()[0])
        client.goes("reverseContinue")
        before = int(
            client.ask("evaluate", expression="0070", context="watch")["result"].split()[0]
        )
        self.assertEqual((last - before) % 256, 6)
        client.ask("setInstructionBreakpoints", breakpoints=[])
        client.ask(
            "setDataBreakpoints", breakpoints=[{"dataId": "host:0071:0071", "accessType": "write"}]
        )
        before = client.goes("reverseContinue")["text"]
        self.assertEqual(client.goes("continue")["text"], before)
        client.ask(
            "setDataBreakpoints", breakpoints=[{"dataId": "host:0070:0070", "accessType": "read"}]
        )
        self.assertIn("is read", client.goes("continue")["text"])
        told = client.ask("setDataBreakpoints", breakpoints=[{"dataId": "nonsense"}])
        self.assertFalse(told["breakpoints"][0]["verified"])
        self.assertEqual(client.goes("reverseContinue")["text"], "the run's first tick")

    def test_memory_and_disassembly(self):
        client = self.counts()
        self.begin(client)
        labels = beebtube.labels_of("6502", COUNTS.encode())
        image = Program().asm("6502", COUNTS.encode())
        told = client.ask("readMemory", memoryReference="host:C000", offset=2, count=5)
        self.assertEqual((told["address"], base64.b64decode(told["data"])), ("0xC002", image[2:7]))
        told = client.ask("readMemory", memoryReference="host:FFF0", count=32)
        self.assertEqual((told["unreadableBytes"], len(base64.b64decode(told["data"]))), (16, 16))
        told = client.ask(
            "disassemble",
            memoryReference="host:%04X" % labels["count"],
            instructionOffset=-3,
            instructionCount=6,
        )["instructions"]
        self.assertEqual(
            [it["instruction"] for it in told],
            ["JSR count", "JSR count", "JMP loop", "INC &70", "LDA &70", "AND #&03"],
        )
        self.assertEqual(
            (told[3]["symbol"], told[3]["line"], told[3]["instructionBytes"]), ("count", 7, "E6 70")
        )
        told = client.ask(
            "disassemble", memoryReference="host:C000", instructionOffset=2, instructionCount=2
        )["instructions"]
        self.assertEqual([it["address"] for it in told], ["0xC003", "0xC006"])
        self.assertEqual(
            len(
                client.ask(
                    "disassemble",
                    memoryReference="host:0000",
                    instructionOffset=-20,
                    instructionCount=30,
                )["instructions"]
            ),
            30,
        )
        self.assertEqual(
            [os.path.basename(it["path"]) for it in client.ask("loadedSources")["sources"]],
            ["counts.asm"],
        )

    def test_without_sources_the_disassembly_is_one(self):
        put(self.at("os"), Program().asm("6502", COUNTS.encode()))
        client = self.client(host=["60000", "x", "--os", "os"], at=3000)
        self.begin(client)
        frame = client.frames[0]
        text = client.ask(
            "source", sourceReference=frame["source"]["sourceReference"], source=frame["source"]
        )["content"].splitlines()
        self.assertTrue(
            text[frame["line"] - 1].startswith(frame["instructionPointerReference"][5:])
        )
        client.goes("stepBack")
        client.goes("next")

    def test_both_machines_are_threads(self):
        self.pair()
        client = self.client(solo="2000 x --os os --tube tube", at="end", side="para")
        self.begin(client)
        self.assertEqual(
            [(it["id"], it["name"]) for it in client.ask("threads")["threads"]],
            [(1, "the host"), (2, "the second processor")],
        )
        self.assertEqual(client.thread, 2)
        client.ask("setExceptionBreakpoints", filters=["lost", "reset", "interrupt"])
        self.assertEqual(client.goes("reverseContinue")["text"], "the run's first tick")

    def test_a_byte_that_is_lost_stops_the_run(self):
        host = (
            "org &C000\nstart: STA &FEE1\nSTA &FEE1\nl: JMP l\n"
            "org &FFFA\nword start, start, start\n"
        )
        put(self.at("os"), Program().asm("6502", host.encode()))
        para = "org &F800\nstart: JMP start\norg &FFFA\nword start, start, start\n"
        put(self.at("tube"), Program().asm("65c02", para.encode()))
        client = self.client(solo="2000 x --os os --tube tube")
        self.begin(client)
        client.ask("setExceptionBreakpoints", filters=["lost"])
        self.assertEqual(client.goes("continue")["reason"], "exception")
        told = client.ask("exceptionInfo", threadId=client.thread)
        self.assertEqual(
            (told["exceptionId"], told["description"]), ("lost", "A byte is lost in the Tube")
        )
        self.assertEqual(client.frames[0]["name"], "C003")

    def test_what_is_wrong(self):
        client = self.client()
        self.assertIn("nothing is launched", client.refused("threads"))
        self.assertIn("no such request", client.refused("nonsense"))
        self.assertIn("launch needs", client.refused("launch"))
        self.assertIn("launch needs", client.refused("launch", program=""))
        self.assertIn("cannot read", client.refused("launch", session="missing"))
        self.assertIn("not a folder", client.refused("launch", session="x", cwd="missing"))
        self.assertTrue(client.refused("launch", program="missing"))
        self.assertTrue(client.refused("launch", run="1 x"))
        put(self.at("os"), Program().asm("6502", COUNTS.encode()))
        client.ask("launch", host=["600", "x", "--os", "os"])
        client.ask("configurationDone")
        self.assertIn("not an address", client.refused("readMemory", memoryReference="zz", count=1))
        client.ask("disconnect")
        client.event("terminated")

    def test_a_request_is_cancelled(self):
        """A search of a long run ends when the client wishes."""
        put(self.at("os"), Program().asm("6502", COUNTS.encode()))
        client = self.client(host=["12000000", "x", "--os", "os"], at=0)
        self.begin(client)
        seq = client.send("evaluate", expression="until if A=99 and X=88", context="repl")
        client.ask("cancel", requestId=seq)
        told = client.answer(seq)
        self.assertEqual((told["success"], told["message"]), (False, "cancelled"))
        self.assertEqual(client.ask("evaluate", expression="x", context="watch")["result"], "00")

    def test_requests_that_come_before_all_is_ready(self):
        """What arrives while the adapter is made ends it like a later request."""
        class Early:
            def __init__(self, source, target, urgent):
                urgent({"command": "disconnect"})

            def next(self):
                return None
        with mock.patch("beebtube.adapter.Wire", Early):
            Adapter(io.BytesIO(), io.BytesIO()).serve()

    def test_wrong_forms_of_cancel(self):
        """A request of another form than the protocol's is answered, and the next one too."""
        asked = [{"command": "cancel", "arguments": [1]}, {"command": "cancel", "arguments": {"requestId": []}},
                 {"command": "cancel", "seq": [1]}, {"command": "threads"}]
        texts = [json.dumps({"type": "request", **it}).encode() for it in asked]
        data = b"".join(b"Content-Length: %d\r\n\r\n" % len(text) + text for text in texts)
        done = subprocess.run(DAP, input=data, stdout=subprocess.PIPE, stderr=subprocess.PIPE, cwd=self.folder, timeout=300)
        self.assertEqual((done.returncode, done.stderr), (0, b""))
        self.assertEqual(done.stdout.count(b'"response"'), 4)

    def test_a_port(self):
        put(self.at("os"), Program().asm("6502", COUNTS.encode()))
        child = subprocess.Popen(
            DAP + ["--port", "0"], stdin=subprocess.DEVNULL, stdout=subprocess.PIPE, cwd=self.folder
        )
        self.addCleanup(child.stdout.close)
        self.addCleanup(child.wait, 300)
        self.addCleanup(child.terminate)
        port = int(child.stdout.readline())
        for _ in range(2):
            with socket.create_connection(("127.0.0.1", port), 300) as stream:
                with stream.makefile("rb") as source, stream.makefile("wb") as target:
                    client = Client(source, target)
                    client.ask("initialize")
                    client.ask("launch", host=["600", "x", "--os", "os"])
                    self.begin(client)
                    client.ask("disconnect")
                    client.event("terminated")
                    stream.shutdown(socket.SHUT_WR)
                    while client.arrived.get(timeout=300) is not None:
                        time.sleep(0)
        self.tool("dap", "--port", "x", status=2)
        self.tool("dap", "more", status=2)
        self.assertIn(
            "port 1", self.tool("dap", "--port", "1", status=1).err if os.getuid() else "port 1"
        )


EMACS = """
(setq user-emacs-directory (expand-file-name "emacs/")
      dap-breakpoints-file (expand-file-name "breakpoints")
      lsp-session-file (expand-file-name "session") load-prefer-newer t)
(require 'package)
(push "/usr/share/emacs/site-lisp/elpa" package-directory-list)
(package-initialize)
(load (expand-file-name "settings.el"))
(defvar at nil) (defvar ended nil)
(defun here (session)
  (let ((frame (dap--debug-session-active-frame session)))
    (when frame
      (setq at session)
      (princ (format "%s %s: %s\n" (gethash "name" frame) (gethash "line" frame)
                     (if (dap--get-path-for-frame frame)
                         (string-trim (thing-at-point 'line t)) "no source"))))))
(add-hook 'dap-stack-frame-changed-hook 'here)
(add-hook 'dap-terminated-hook (lambda (_) (setq ended t)))
(defun wait (how) (while (not (funcall how)) (accept-process-output nil 1)))
(defun asks (command arguments)
  (let ((answer nil))
    (dap--send-message (dap--make-request command arguments)
                       (lambda (it) (setq answer it)) at)
    (wait (lambda () answer))
    (princ (format "%s %s\n" command (gethash "success" answer)))
    (gethash "body" answer)))
(defun step (command)
  (let ((session at))
    (setq at nil)
    (princ (format "%s: " command))
    (dap--step command session)
    (wait (lambda () at))))
(dap-debug (cdr (assoc "beebtube game" dap-debug-template-configurations)))
(wait (lambda () at))
(step "next") (step "stepBack") (step "stepIn") (step "stepOut")
(let ((info (asks "dataBreakpointInfo" '(:name "limit"))))
  (asks "setDataBreakpoints"
        (list :breakpoints (vector (list :dataId (gethash "dataId" info) :accessType "write")))))
(step "reverseContinue")
(princ (format "%s\n" (mapcar (lambda (it) (list (gethash "name" it) (gethash "line" it)))
    (seq-take (gethash (dap--debug-session-thread-id at)
                       (dap--debug-session-thread-stack-frames at)) 3))))
(step "continue")
(asks "disconnect" nil)
(wait (lambda () ended))
"""


class Editors(Adapters):
    @unittest.skipUnless(
        shutil.which("emacs") and glob.glob("/usr/share/emacs/site-lisp/elpa/dap-mode-*"),
        "it needs emacs and elpa-dap-mode",
    )
    def test_emacs(self):
        """The settings of the page, in Emacs' dap-mode: it shows the lines to which each request
        leads. The test waits for what arrives, however long that takes."""
        with open(os.path.join(TOP, "docs", "EDITORS.md"), encoding="utf-8") as file:
            settings = file.read().split("```elisp\n")[1].split("```")[0]
        self.assertIn("/path/to/beebtube", settings)
        put(self.at("settings.el"), settings.replace("/path/to/beebtube", TOP).encode())
        put(self.at("steps.el"), EMACS.encode())
        for ending in ("", ".labels", ".dbg"):
            shutil.copy(os.path.join(BUILT, "limit" + ending), self.at("game" + ending))
        os.symlink(EXAMPLES, self.at("examples"))
        words = ["emacs", "-Q", "--batch", "-l", "steps.el"]
        done = call(words, self.folder, env={"HOME": self.folder, "LC_ALL": "C.UTF-8"})
        self.assertEqual(done.status, 0, done.out + done.err)
        self.assertEqual(
            done.out.splitlines(),
            [
                "main 16: fill();",
                'next: main 17: printf("the limit is %u\\n", limit);',
                "stepBack: main 16: fill();",
                "stepIn: fill 10: for (at = 1; at <= 5; ++at) {",
                'stepOut: main 17: printf("the limit is %u\\n", limit);',
                "dataBreakpointInfo t",
                "setDataBreakpoints t",
                "reverseContinue: staxspidx+22 15: no source",
                "((staxspidx+22 15) (fill 11) (main 16))",
                "continue: staxspidx+24 16: no source",
                "disconnect t",
            ],
        )


# What the types of go-dap 0.7 do not have: a request of this adapter alone, and a newer capability.
UNTYPED = ("beebtube/screen", "supportsDataBreakpointBytes")
GOCODE = "/usr/share/gocode"


class Types(Adapters):
    @unittest.skipUnless(
        shutil.which("go") and os.path.isdir(GOCODE + "/src/github.com/google/go-dap"),
        "it needs go and golang-github-google-go-dap-dev",
    )
    def test_messages_have_the_types_of_the_protocol(self):
        """An answer to each request, a refusal of each, and all events, by types of others."""
        client = self.limit(hostLabels=[], at="end")
        asked = set()

        def ask(name, /, **arguments):
            asked.add(name)
            return client.ask(name, **arguments)

        source = {"path": LIMIT_C}
        asked.update(("initialize", "launch"))
        ask("setBreakpoints", source=source, breakpoints=[{"line": 11}, {"line": 99}])
        ask("setFunctionBreakpoints", breakpoints=[{"name": "_fill"}, {"name": "nowhere"}])
        ask(
            "setInstructionBreakpoints",
            breakpoints=[{"instructionReference": "para:0200"}, {"instructionReference": "?"}],
        )
        ask("setExceptionBreakpoints", filters=["reset"])
        info = ask("dataBreakpointInfo", name="limit")
        ask("dataBreakpointInfo", name="nowhere")
        ask("setDataBreakpoints", breakpoints=[{"dataId": info["dataId"]}, {"dataId": "x"}])
        self.begin(client)
        asked.add("configurationDone")
        for name in ("reverseContinue", "continue", "stepBack", "next", "stepIn", "stepOut"):
            client.goes(name)
            asked.add(name)
        ask("threads")
        ask("exceptionInfo", threadId=client.thread)
        asked.update(("stackTrace", "scopes", "variables"))
        for frame in range(len(client.frames)):
            for scope in ask("scopes", frameId=client.frames[frame]["id"])["scopes"]:
                ask("variables", variablesReference=scope["variablesReference"])
        ask("loadedSources")
        ask("evaluate", expression="limit", context="hover")
        ask("evaluate", expression="who _limit; back 40", context="repl")
        client.stop()
        ask("completions", text="tu", column=3)
        ask("readMemory", memoryReference="para:FFF0", count=32)
        ask("disassemble", memoryReference="para:0200", instructionOffset=-4, instructionCount=9)
        targets = ask("gotoTargets", source=source, line=11)["targets"]
        ask("goto", targetId=targets[0]["id"], threadId=client.thread)
        client.stop()
        client.goes("reverseContinue")
        ask("evaluate", expression="go 300; host", context="repl")
        client.stop()
        number = client.frames[0]["source"]["sourceReference"]
        ask("source", sourceReference=number, source={"sourceReference": number})
        ask("beebtube/screen")
        for name in ("cancel", "pause", "nonsense"):
            client.answer(client.send(name))
            asked.add(name)
        client.refused("launch")
        client.refused("scopes")
        ask("terminate")
        client.event("terminated")
        other = self.client()
        other.ask("disconnect")
        other.event("terminated")
        self.assertEqual(asked | {"disconnect"}, set(REQUESTS) | {"nonsense"})
        env = {"GO111MODULE": "off", "GOPATH": GOCODE, "GOCACHE": self.at("cache")}
        words = ["go", "run", os.path.join(TOP, "bench", "dap_types.go"), *UNTYPED]
        messages = client.raw + other.raw
        done = call(words, self.folder, b"\n".join(messages), env=env)
        self.assertEqual((done.status, done.err), (0, ""), done.out + done.err)
        self.assertEqual(done.out, "%d messages, 0 differ\n" % len(messages))
        # It finds what differs.
        wrong = b"\n".join(
            (
                b'{"seq":1,"type":"event","event":"stopped","body":{"reason":"step","more":1}}',
                b'{"seq":1,"type":"event","event":"stopped","body":{"reason":5}}',
                b'{"seq":1,"type":"event","event":"stopped","body":{}}',
                b'{"seq":1,"type":"event","event":"nothing","body":{}}',
                b'{"seq":1,"type":"event","event":"stopped","body":{"reason":"step"}}',
            )
        )
        done = call(words, self.folder, wrong, env=env)
        self.assertEqual((done.status, done.out.splitlines()[-1]), (1, "5 messages, 4 differ"))


if __name__ == "__main__":
    unittest.main()
