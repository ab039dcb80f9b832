"""`bin/wb IMAGE [SCRIPT]`, `bin/wb log` and `bin/wb image`, from outside: replies, messages and statuses."""
from __future__ import annotations

import hashlib
import json
import lzma
import os
import pty
import select
import shutil
import signal
import subprocess
import tempfile
import time
import unittest
from pathlib import Path

from bezhakkom.cli import COMMANDS
from bezhakkom.version import VERSION
from front.tests.outside import WB, InFolder, run
from front.tests.support import ROOT, needs_erase, needs_kinds
from front.tests.test_elf import made

class Plain(InFolder):
    def test_examples(self) -> None:
        for folder in sorted((ROOT / "examples").iterdir()):
            if not (folder / "script").exists():
                continue
            log = ["--log", str(folder / "log")] if (folder / "log").exists() else []
            with self.subTest(folder.name):
                if log and (folder / "log").read_bytes().startswith(b"R3KLOG2"):
                    needs_kinds(self)
                for order in (lambda rest: [*log, *rest], lambda rest: [*rest, *log]):
                    done = run(order([str(folder / "boot.s"), str(folder / "script")]))
                    expected = (folder / "expected").read_bytes()
                    self.assertEqual((done.stdout, done.stderr, done.returncode), (expected, b"", 0))

    def test_statuses(self) -> None:
        """What goes wrong, each in one line."""
        rom, bad = self.put("x.rom", bytes(8)), self.put("x.img", b"R3KIMG1\n")
        source, script = self.put("x.s", b"foo\n"), self.put("script", b"pos\n")
        log = self.put("bad.log", b"R3KLOG1\n\1\0\0\0")
        usage = "usage: bin/wb [OPTIONS] IMAGE [SCRIPT]\n"
        missing = f"bin/wb: the following arguments are required: IMAGE; {usage}"
        cases: list[tuple[list[str], bytes, str, int]] = [
                ([rom, script], b"pos 0\n", "", 0),
                ([], b"", missing, 2), ([rom, script, script], b"", f"bin/wb: unrecognized arguments: script; {usage}", 2),
                ([rom, "-x"], b"", f"bin/wb: unrecognized arguments: -x; {usage}", 2),
                (["--log"], b"", f"bin/wb: argument --log: expected one argument; {usage}", 2),
                (["--foo"], b"", f"bin/wb: unrecognized arguments: --foo; {usage}", 2),
                (["--log", "none", "-x", "--json", "--foo=5"], b"", f"bin/wb: unrecognized arguments: -x --foo=5; {usage}", 2),
                (["--json", "--"], b"", missing, 2),
                (["none"], b"", "bin/wb: there is no file none\n", 2),
                ([rom, "none"], b"", "bin/wb: there is no file none\n", 2),
                (["sehll", rom], b"", "bin/wb: there is no file sehll, and no command of that name; is `shell` meant?\n", 2),
                (["--log", "none", rom], b"", "bin/wb: there is no file none\n", 2),
                (["."], b"", "bin/wb: . is no file that can be read\n", 2),
                ([bad], b"", "r3kwb: error 9 BadImage Short\nbin/wb: that is x.img, taken as kind image\n", 1),
                ([source], b"", "r3kwb: error 13 BadSource 1 Name\nbin/wb: that is x.s, taken as kind source\n", 1),
                (["--log", log, rom], b"",
                 "r3kwb: error 10 BadLog Short\nbin/wb: that is x.rom, taken as kind rom, with the log bad.log\n", 1)]
        for arguments, out, err, status in cases:
            self.check(arguments, b"", out, err, status)

    def test_what_to_do(self) -> None:
        """Files that are taken for what they are not."""
        rom, log = self.put("x.rom", bytes(8)), self.put("x.log", b"R3KLOG1\n\0\0\0\0")
        self.put("empty", b"")
        self.put("x.S", b"start: nop\n")
        self.put("gnu.s", b"\t.set noreorder\n\t.globl start\nstart:\tlui $t0, 1\n")
        self.put("x.img", b"R3KIMG1\n")
        self.put("text", b"5 0 'a'\n")
        for arguments, said, status in (
                ([log], "x.log is a log, no image: bin/wb --log x.log IMAGE", 2), (["empty"], "empty is empty; .* --kind rom", 2),
                (["x.S"], "C preprocessor and GNU as. .* mipsel-linux-gnu-gcc ", 2), (["gnu.s"], "looks like source for GNU as", 1),
                (["--log", "x.img", rom], "x.img is an image, no log", 1), (["--log", "text", rom], "bin/wb log make", 1),
                (["--what", rom], "unrecognized arguments: --what; usage: ", 2), (["--kind", "tape", rom], "tape is no kind of image; there are rom", 2),
                (["--json=5", rom], "argument --json: ignored explicit argument '5'", 2)):
            done = run(arguments, b"", self.folder)
            self.assertRegex(done.stderr.decode(), said)
            self.assertEqual((done.stdout, done.returncode), (b"", status), arguments)
        self.check(["--kind", "rom", "empty"], b"mem 0x1fc00000 1\n", b"0x1fc00000 0x00000000\n", "", 0)

    def test_elf(self) -> None:
        name = self.put("boot", made([(0xBFC0_0000, 0xBFC0_0000, b"\1\2\3\4", 4), (0x8000_0100, 0x8000_0100, b"\5\0\0\0", 4)]))
        script = b"mem 0x1fc00000 1\nmem 0x100 1\nwriter 0x104\n"
        replies = b"0x1fc00000 0x04030201\n0x00000100 0x00000005\nwriter never\n"
        self.check([name], script, replies, "", 0)
        self.check(["--kind=elf", name], script, replies, "", 0)
        self.check(["image", name, "boot.img"], b"", b"", "", 0)
        self.check(["boot.img"], script, replies, "", 0)
        self.assertEqual(run(["image", name, "boot.rom"], b"", self.folder).returncode, 2)
        self.check(["image", name, name + ".img"], b"", b"", "", 0)
        self.check(["image", name, name + ".img"], b"", b"", "", 0)
        (self.folder / "elf.img").write_bytes((self.folder / name).read_bytes())
        self.check(["image", name, "elf.img"], b"", b"", "bin/wb: elf.img is there and is no image. `--force` overwrites it\n", 2)
        self.check(["image", "--force", name, "elf.img"], b"", b"", "", 0)
        self.check(["elf.img"], script, replies, "", 0)
        self.put("cut", (self.folder / name).read_bytes()[:70])
        self.check(["cut"], b"", b"", "bin/wb: cut ends before the end of program header 0\n", 1)
        self.check(["image", str(ROOT / "examples/echo/boot.s"), "echo.rom"], b"", b"", "", 0)
        self.check(["echo.rom"], b"mem 0x1fc01034 1\n", b"0x1fc01034 0x00000000\n", "", 0)

    def test_version(self) -> None:
        """The version is that of the package, the checksums are those of the files, and another program than the shipped one is named."""
        self.assertIn(f'\nversion = "{VERSION}"\n', (ROOT / "pyproject.toml").read_text())
        shipped = (ROOT / "bin/r3kwb.txt").read_text()
        program = lzma.decompress((ROOT / "bin/r3kwb.xz").read_bytes())
        self.check(["--version"], b"", f"Bezhakkom {VERSION}\n{shipped}".encode(), "", 0)
        self.assertIn(f"program {hashlib.sha256(program).hexdigest()}\n", shipped)
        other = self.folder / "other"
        other.write_bytes(b"another")
        done = subprocess.run([WB, "--version"], capture_output=True, text=True, env={**os.environ, "WB_PROGRAM": str(other)})
        self.assertEqual(done.stdout.splitlines()[-1], f"started {hashlib.sha256(b'another').hexdigest()} {other}")

    def test_reply_by_reply(self) -> None:
        rom, script = self.put("x.rom", bytes(8)), b"# begin\ngoto 3\n\ngoto 1099511627776\nreg 0\nquit\npos\n"
        self.check(["--strict", rom], script, b"pos 3\nerror 7 TooFar\n", "bin/wb: line 4: goto 1099511627776: error 7 TooFar\n", 5)
        self.check([rom, "--echo"], script,
                   b"> # begin\n> goto 3\npos 3\n> goto 1099511627776\nerror 7 TooFar\n> reg 0\nr0 0x00000000\n", "", 0)
        self.check(["--echo", rom], b"\xff\n", b"> \xff\nerror 2 Syntax\n", "", 0)
        objects = [json.loads(it) for it in run(["--json", rom], script, self.folder).stdout.splitlines()]
        self.assertEqual(objects, [
            {"command": "goto 3", "value": 3, "reply": ["pos 3"]},
            {"command": "goto 1099511627776", "error": {"number": 7, "name": "TooFar"}, "reply": ["error 7 TooFar"]},
            {"command": "reg 0", "value": 0, "reply": ["r0 0x00000000"]}])

    def test_json_values(self) -> None:
        script = ["goto 256", "regs", "cp0", "tlb 63", "where 0x80000010", "where 0", "mem 0 2", "dis 0x1fc00000 1", "console 0 0 4",
                  "writer 0x100", "writer 0x1fc00000", "find 0 1", "log 0 9", "add 5 0 1", "del 0", "patch 0 0"]
        done = run(["--json", "--log", "examples/echo/log", "examples/echo/boot.s"], "\n".join(script).encode())
        values = [json.loads(it).get("value") for it in done.stdout.splitlines()][1:]
        self.assertEqual(values[0]["pc"] & ~0x3F, 0xBFC0_1000)
        self.assertEqual((len(values[0]["general"]), values[1]["prid"]), (32, 0x220))
        self.assertEqual(values[2:], [
            {"hi": 0, "lo": 0}, {"kind": "cached", "physical": 16}, {"kind": "tlbl", "physical": None},
            [{"address": 0, "word": 0}, {"address": 4, "word": 0}],
            [{"address": 0x1FC0_0000, "word": 0x3C01_BFE0, "text": "lui r1, 0xbfe0"}],
            {"count": 2, "bytes": [0x41, 0x42]}, {"kind": "step", "step": 253}, {"kind": "image", "step": None}, 215,
            {"count": 2, "events": [{"event": 0, "time": 70, "line": 0, "byte": 0x41, "kind": "byte"},
                                    {"event": 1, "time": 200, "line": 0, "byte": 0x42, "kind": "byte"}]},
            0, 2, "ok"])

    def test_json_of_other_kinds(self) -> None:
        needs_kinds(self)
        done = run(["--json", "examples/echo/boot.s"], b"ferr 70 0 0x41\nwire 60 2 1\nlog 0 9\nwire 5 3 1\n")
        objects = [json.loads(it) for it in done.stdout.splitlines()]
        self.assertEqual([it.get("value") for it in objects], [
            0, 0, {"count": 2, "events": [{"event": 0, "time": 60, "line": 2, "byte": 1, "kind": "wire"},
                                          {"event": 1, "time": 70, "line": 0, "byte": 0x41, "kind": "framing"}]}, None])
        self.assertEqual(objects[3]["error"], {"number": 3, "name": "Range"})

    def test_json_of_an_erased_range(self) -> None:
        needs_erase(self)
        script = b"erase 70 200\nerase 9 8\ngoto 1099511627775\nstep 1\n"
        done = run(["--json", "--log", "examples/echo/log", "examples/echo/boot.s"], script)
        objects = [json.loads(it) for it in done.stdout.splitlines()]
        self.assertEqual([it.get("value") for it in objects], [1, None, 1_099_511_627_775, None])
        self.assertEqual([objects[at]["error"]["name"] for at in (1, 3)], ["Range", "TooFar"])

    def test_help(self) -> None:
        for arguments in (["--help"], *([it, "--help"] for it in COMMANDS)):
            done = run(arguments)
            self.assertEqual((done.stderr, done.returncode), (b"", 0))
            self.assertIn(b"Example", done.stdout)

    def test_logs(self) -> None:
        text = run(["log", "show", str(ROOT / "examples/driver/log")]).stdout
        self.check(["log", "make", "-", "made"], text, b"", "", 0)
        self.assertEqual((self.folder / "made").read_bytes(), (ROOT / "examples/driver/log").read_bytes())
        self.put("text", text)
        self.check(["log", "show", "text"], b"", text, "", 0)
        self.check(["log", "show", "-"], (self.folder / "made").read_bytes(), text, "", 0)
        self.check(["log", "make", "-", "made"], b"oh\n", b"",
                   "bin/wb: standard input:1: 'oh' is not of the form TIME LINE 'BYTES' [GAP] [framing] or TIME LINE LEVEL wire\n", 2)
        self.assertEqual((self.folder / "made").read_bytes(), (ROOT / "examples/driver/log").read_bytes())
        self.put("letter", b"Dear Sir")
        self.check(["log", "make", "-", "letter"], text, b"", "bin/wb: letter is there and is no log. `--force` overwrites it\n", 2)
        self.assertEqual((self.folder / "letter").read_bytes(), b"Dear Sir")
        self.check(["log", "make", "-", "letter", "--force"], text, b"", "", 0)
        self.check(["log", "make", "-", "/dev/full"], text, b"", "bin/wb: /dev/full can't be written: No space left on device\n", 2)
        usage = "usage: bin/wb log {show LOG | make [--force] TEXT LOG}\n"
        for words, why in ((["log"], "the following arguments are required: show | make, FILE"),
                           (["log", "make", "text"], "`show` takes one file, and `make` two"),
                           (["log", "show", "text", "made"], "`show` takes one file, and `make` two")):
            self.check(words, b"", b"", f"bin/wb: {why}; {usage}", 2)


class Typed(unittest.TestCase):
    """Each typed line is answered at once, on a pipe and on a terminal; and the end of the program ends all."""

    def test_pipe(self) -> None:
        process = subprocess.Popen([WB, "examples/echo/boot.s"], stdin=subprocess.PIPE, stdout=subprocess.PIPE, cwd=ROOT)
        assert process.stdin and process.stdout
        for line, reply in ((b"goto 5\n", b"pos 5\n"), (b"step 2\n", b"pos 7\n"), (b"?\n", b"error 2 Syntax\n")):
            process.stdin.write(line)
            process.stdin.flush()
            self.assertEqual(process.stdout.readline(), reply)
        process.stdin.write(b"quit\n")
        process.stdin.flush()
        self.assertEqual((process.stdout.read(), process.wait(5)), (b"", 0))
        process.stdin.close()
        process.stdout.close()

    def test_terminal(self) -> None:
        process, terminal = pty.fork()
        if not process:
            os.chdir(ROOT)
            os.execv(WB, [WB, "examples/echo/boot.s"])
        self.assertEqual(self.said(terminal, b"goto 5\r"), b"goto 5\r\npos 5\r\n")
        os.write(terminal, b"\x03")
        _, status = os.waitpid(process, 0)
        self.assertEqual(os.WTERMSIG(status), signal.SIGINT)
        os.close(terminal)

    def said(self, terminal: int, typed: bytes) -> bytes:
        """What a terminal shows after something was typed, up to a reply."""
        os.write(terminal, typed)
        content, end = b"", time.monotonic() + 20
        while b"pos" not in content and time.monotonic() < end:
            if select.select([terminal], [], [], 0.1)[0]:
                content += os.read(terminal, 1024)
        return content

    def test_killed(self) -> None:
        """A program that dies ends the front end too, with the status of a killed process."""
        with tempfile.TemporaryDirectory() as folder:
            program = os.path.join(folder, "dies")
            Path(program).write_text("#!/bin/sh\nkill -9 $$\n")
            os.chmod(program, 0o755)
            done = subprocess.run([WB, "examples/echo/boot.s"], input=b"pos\n", capture_output=True, cwd=ROOT,
                                  env={**os.environ, "WB_PROGRAM": program})
            self.assertEqual((done.stdout, done.returncode), (b"", 137))
            done = subprocess.run([WB, "--echo", "examples/echo/boot.s"], input=b"pos\n", capture_output=True, cwd=ROOT,
                                  env={**os.environ, "WB_PROGRAM": program})
            self.assertRegex(done.stderr.decode(), "ended by SIGKILL")

    def test_closed(self) -> None:
        """Nothing is read from where nothing can be read, and a program that isn't there is named."""
        done = subprocess.run(f"{WB} examples/echo/boot.s <&-", shell=True, capture_output=True, cwd=ROOT)
        self.assertEqual((done.stdout, done.returncode), (b"", 3))
        self.assertRegex(done.stderr.decode(), "^bin/wb: .*: Bad file descriptor$")
        done = subprocess.run([WB, "examples/echo/boot.s"], capture_output=True, cwd=ROOT,
                              env={**os.environ, "WB_PROGRAM": "/nowhere"})
        self.assertEqual(done.stderr.decode(), "bin/wb: /nowhere: No such file or directory\n")

    def test_garbage(self) -> None:
        """The shell answers whatever comes."""
        for content in (bytes(range(256)), b"\n'\n\"\n\\\n" + b"x" * 100_000 + b"\n\xff\xfe \x00\n", b"goto 3"):
            done = subprocess.run([WB, "shell", "examples/echo/boot.s"], input=content, capture_output=True, cwd=ROOT)
            self.assertEqual((done.stderr, done.returncode), (b"", 0))

    def test_a_reader_that_ends(self) -> None:
        done = subprocess.run(f"yes pos | head -100000 | {WB} examples/echo/boot.s | head -1", shell=True,
                              capture_output=True, cwd=ROOT)
        self.assertEqual((done.stdout, done.stderr), (b"pos 0\n", b"r3kwb: error 12 WriteFault\n"))


class Sources(unittest.TestCase):
    def started(self, *words: str) -> subprocess.CompletedProcess[str]:
        """Starts a shipped program, a script, in a folder whose sources are not those that it was built from, without `rt`."""
        script = b"#!/bin/sh\necho started\n"
        with tempfile.TemporaryDirectory() as folder:
            root = Path(folder)
            about = f"sources 0\nprogram {hashlib.sha256(script).hexdigest()}\n"
            for name, content in (("bin/r3kwb.xz", lzma.compress(script)), ("bin/r3kwb.txt", about.encode()), ("crates.txt", b"r3kwb:\n"),
                                  ("crates/r3kwb/src/main.rt", b"")):
                (root / name).parent.mkdir(parents=True, exist_ok=True)
                (root / name).write_bytes(content)
            shutil.copy(ROOT / "bin/r3kwb", root / "bin")
            done = [subprocess.run(["bin/r3kwb", *words], cwd=root, env={"PATH": "/usr/bin:/bin"}, stdin=subprocess.DEVNULL, capture_output=True,
                                   text=True) for _ in range(2)]
        self.assertEqual(*((it.returncode, it.stdout, it.stderr) for it in done))
        return done[0]

    def test_changed_sources_start_the_shipped_program_and_say_so(self) -> None:
        done = self.started()
        self.assertEqual((done.returncode, done.stdout), (0, "started\n"))
        self.assertRegex(done.stderr, "^bin/r3kwb: the sources differ from those of the shipped program, .*bin/r3kwb --prove\n$")

    def test_changed_sources_fail_where_the_program_must_be_theirs(self) -> None:
        done = self.started("--exact")
        self.assertEqual((done.returncode, done.stdout), (70, ""))
        self.assertRegex(done.stderr, "^bin/r3kwb: the sources differ from those of the shipped program; .*bin/r3kwb --prove\n$")

    def test_changed_sources_are_proved_only_when_asked(self) -> None:
        done = self.started("--prove")
        self.assertEqual((done.returncode, done.stdout), (70, ""))
        self.assertIn("'rt' is not on the PATH", done.stderr)


if __name__ == "__main__":
    unittest.main()
