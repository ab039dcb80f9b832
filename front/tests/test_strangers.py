"""Files of a stranger, in all front ends: their names reach a terminal as printable text, no name or file ends a session, and nothing that
was edited is lost."""
from __future__ import annotations

import base64
import hashlib
import os
import signal
import subprocess
import sys
import tempfile
import time
import unittest
import zlib
from contextlib import redirect_stdout
from pathlib import Path
from typing import Callable, Iterator, Sequence
from unittest import mock

from bezhakkom import cli, loading, log, reading, saved, saving
from bezhakkom.errors import Problem
from bezhakkom.loading import Opening
from bezhakkom.log import Event
from bezhakkom.printable import printable
from bezhakkom.session import Session
from bezhakkom.shell import Shell
from bezhakkom.symbols import symbols_of
from front.tests import debugger, outside
from front.tests.scripts import shell
from front.tests.support import ROOT
from front.tests.test_elf import made
from front.tests.test_lines import END, begin, elf_with, part
from front.tests.wire import COUNTER, Wire

LOGIN = str(ROOT / "examples/login/login.elf")
LOG = str(ROOT / "examples/login/log")
TITLE, LINES, TURNED = "\x1b]0;owned\x07", "one\ntwo\r\x85\u2028", "abc\u202egnp.exe\u2066"
EVIL = (TITLE, LINES, TURNED)
TOO_LONG = "x" * 5000


def program() -> bytes:
    """The counter, in three functions with names of a stranger, of which two have one name."""
    words = b"".join(it.to_bytes(4, "little") for it in COUNTER)
    places = [0xBFC0_0000, 0xBFC0_0004, 0xBFC0_000C]
    symbols = [(name, place, 4, 2) for name, place in zip(EVIL, places)] + [(TITLE, 0xBFC0_0010, 4, 2)]
    return made([(0xBFC0_0000, 0xBFC0_0000, words, len(words))], symbols=symbols)


def lines_file() -> bytes:
    """Line tables in which the counter is of sources with such names."""
    return elf_with(b"".join(
        part(4, begin(0xBFC0_0000 + 8 * at) + b"\x03\x09\x01\x02\x02" + END, (f"{name}.c".encode(),)) for at, name in enumerate(EVIL)))


class InFolder(unittest.TestCase):
    def setUp(self) -> None:
        folder = tempfile.TemporaryDirectory()
        self.addCleanup(folder.cleanup)
        self.folder = Path(folder.name)
        self.said: list[str] = []

    def put(self, name: str, content: bytes) -> str:
        path = self.folder / name
        path.parent.mkdir(exist_ok=True)
        path.write_bytes(content)
        return str(path)

    def opened(self, name: str, *, log: bool = False, symbols: Sequence[str] = (), sources: Sequence[str] = ()) -> Shell:
        """A shell on an image or a session."""
        stack = saved.opened(Opening((name,), LOG if log else None, symbols=tuple(symbols), sources=tuple(sources)), self.said.append)
        found = stack.__enter__()
        self.addCleanup(stack.__exit__, None, None, None)
        driver = loading.start(loading.booted(found.opening, self.said.append), found.opening.log)
        self.addCleanup(driver.close)
        self.session = Session(driver, symbols_of(driver.image), tell=self.said.append, origin=found.origin)
        made_ = Shell(self.session)
        made_.open(found.commands)
        return made_

    def do(self, shell_: Shell, *lines: str) -> list[str]:
        """What the shell shows for lines."""
        self.said.clear()
        for line in lines:
            shell_.do(line)
        return list(self.said)


class Names(InFolder):
    """Each character that is shown is printable, or ends a line that the front end ended."""

    def check(self, shown: str, least: int) -> None:
        self.assertEqual(printable(shown, "\n\t"), shown)
        self.assertFalse({*shown} & {"\r", "\x1b", "\x85", "\u2028", "\u202e", "\u2066"})
        self.assertNotIn("\ntwo", shown)
        self.assertGreaterEqual(shown.count(r"\x1b]0;owned\x07"), least)

    def test_printable_escapes_controls_directions_and_bytes(self) -> None:
        self.assertEqual(printable("plain é 漢"), "plain é 漢")
        self.assertEqual(printable("\x1b\n\x7f\x9b\u202e\u2028\udcff\U000e0001"), r"\x1b\x0a\x7f\x9b\u202e\u2028\xff\U000e0001")
        self.assertEqual(printable("a\tb\n", "\t"), "a\tb\\x0a")

    def test_shell_shows_names_of_symbols_and_files_as_printable_text(self) -> None:
        image, lines_ = self.put("i.elf", program()), self.put("lines.elf", lines_file())
        lines = ("symbols", "pos", "dis 0xbfc00000 5", "step 9", "break 0xbfc00000", "stops", "list 0xbfc00000", "list 0xbfc00008", "backtrace",
                 "trace 9", "writer 0xa0000100", "why 0xa0000100", "hits 0xbfc00004", "when 0xa0000100 == 2", "regs", f"break nothing\x1b[2J", "undo",
                 "continue 9", "trace 3 --json", f"print {TITLE}")
        done = shell("--symbols", lines_, "--echo", image, lines=lines)
        self.check(done.stdout + done.stderr, 10)
        self.assertIn(r"abc\u202egnp.exe\u2066", done.stdout)
        self.assertIn(r"one\x0atwo\x0d\x85\u2028.c:10", done.stdout)

    def test_errors_of_all_front_ends_name_files_as_printable_text(self) -> None:
        name = f"{TITLE}{LINES}"
        for words in [name], ["shell", name], ["console", name], ["log", "show", name], ["image", name, "out"], ["plot", "--to", "9", name], ["view", name]:
            done = outside.run(words, folder=self.folder)
            self.assertEqual(done.stderr.count(b"\n"), 1, done.stderr)
            self.check(done.stderr.decode(), done.returncode == 2 and words[0] != "console")
        self.put(name, b"\x7fELF")
        self.check(outside.run(["shell", name], folder=self.folder).stderr.decode(), 1)

    def test_gdb_and_stub_show_names_as_printable_text(self) -> None:
        debugger.needed()
        image = self.put("i.elf", program())
        words = [debugger.WB, "gdb", image, *debugger.PLAIN, "-batch"]
        lines = ("symbols", "dis 0xbfc00000", "writer 0xa0000100", "why 0xa0000100", f"load {self.folder}/no{TURNED}")
        shown = debugger.run([*words, *(word for line in lines for word in ("-ex", f"echo <begin>\\n", "-ex", f"wb {line}"))])
        said = shown.encode("latin-1").decode().split("<begin>\n", 1)[1].replace("<begin>\n", "")
        self.check(said, 3)
        self.assertIn(r"there is no file", said)

    def test_session_of_a_stranger_shows_its_names_as_printable_text(self) -> None:
        text = f"bezhakkom session 1\nimage no{TITLE}\nsha256 00 no{TITLE}\n\n"
        for content in text, text.replace("image no", f"image {TURNED}no"), f"bezhakkom session 1\nimage x\n{TITLE}\n\n", f"bezhakkom session 1\nimage x\n\n{TITLE}\n":
            done = shell(self.put("s", content.encode()))
            self.assertEqual((done.stdout, done.returncode), ("", 2))
            self.check(done.stderr, 1)


class Loops(InFolder):
    """What can't be read is named, and the session goes on with its edits. As root permissions stop nothing, so links that lead in a circle
    stand for a folder that may not be read."""

    def names(self) -> Iterator[tuple[str, str]]:
        os.symlink("circle", self.folder / "circle")
        os.mkfifo(self.folder / "pipe")
        yield TOO_LONG, "is no file that can be read: File name too long"
        yield f"{self.folder}/circle/x", "is no file that can be read: Too many levels of symbolic links"
        yield str(self.folder), "is no file that can be read"
        yield f"{self.folder}/pipe", "is no file that can be read"
        yield "/dev/zero", "is no file that can be read"
        yield f"{LOGIN}/x", "there is no file"
        yield "a\0b", "can't be the name of a file"

    def test_shell_loads_and_compares_what_can_not_be_read_and_keeps_its_edits(self) -> None:
        talk = self.opened(LOGIN, log=True)
        self.do(talk, "del 2")
        for name, why in self.names():
            for command in "load", "compare":
                self.assertEqual([it.partition(name.replace("\0", "\\x00"))[2].strip().startswith(why) or why in it
                                  for it in self.do(talk, f"{command} {name}")], [True], (command, name[:80], self.said))
        for name in TOO_LONG, f"{self.folder}/circle/x", "a\0b", f"{self.folder}/none/x":
            for command in "save", "save-log", "save-image", "trace 2 to":
                self.assertRegex(self.do(talk, f"{command} {name}")[0], "can't be (written: |the name of a file)", command)
        self.assertEqual((len(self.session.driver.log), len(self.session.edits)), (9, 1))

    def test_shell_goes_on_after_an_error_of_the_system_and_ends_where_its_output_fails(self) -> None:
        talk = self.opened(LOGIN, log=True)
        with mock.patch("bezhakkom.reloading.load", side_effect=PermissionError(13, "Permission denied", "x.elf")):
            self.assertFalse(talk.do("load x.elf"))
        self.assertIn("Permission denied", self.said[-1])
        self.assertTrue(talk.do("pos"))
        with mock.patch.object(self.session, "tell", side_effect=BrokenPipeError):
            self.assertRaises(BrokenPipeError, talk.do, "pos")

    def test_stub_answers_what_can_not_be_read_and_keeps_its_edits(self) -> None:
        opening = Opening((LOGIN,), LOG)
        driver = loading.start(loading.booted(opening), LOG)
        self.addCleanup(driver.close)
        wire = Wire(driver)
        self.addCleanup(wire.close)

        def asked(line: str) -> str:
            return wire.ask("qRcmd," + line.encode().hex())

        self.assertEqual(asked("del 2"), "OK")
        for name, why in self.names():
            for command in "load", "compare":
                wire.console = b""
                self.assertEqual(asked(f"{command} {name}"), "OK")
                self.assertIn(why, wire.console.decode())
        with mock.patch("bezhakkom.monitor.run", side_effect=PermissionError(13, "Permission denied", "x.elf")):
            self.assertEqual(asked("load x.elf"), "E01")
        self.assertEqual(wire.ask("?"), "T05")
        self.assertEqual(len(driver.log), 9)

    def test_gdb_goes_on_after_files_that_can_not_be_read(self) -> None:
        debugger.needed()
        words = [debugger.WB, "gdb", "--log", LOG, LOGIN, *debugger.PLAIN, "-batch"]
        lines = ("del 2", f"load {TOO_LONG}", f"compare {self.folder}", "compare /dev/zero", "log 0 1")
        shown = debugger.run([*words, *(word for line in lines for word in ("-ex", f"wb {line}"))])
        self.assertIn("File name too long", shown)
        self.assertIn("\n9 events, ", shown)


class RoundTrips(InFolder):
    """Whatever is typed or named, a session that is saved and opened is the same."""

    def same(self, talk: Shell, how: str, opened: Callable[[], Shell]) -> None:
        """Saves, opens, and compares."""
        first = self.session
        self.assertTrue(talk.do(f"save {self.folder}/s {how} force"), self.said)
        self.said.clear()
        opened()
        second = self.session
        self.assertEqual(self.said, [])
        self.assertEqual((second.driver.log, second.driver.patches, second.driver.position), (first.driver.log, first.driver.patches, first.driver.position))
        self.assertEqual([it.text for it in second.marks], [it.text for it in first.marks])
        self.assertEqual(second.stops_of_gdb, first.stops_of_gdb)
        self.assertEqual([*second.origin.files.values()], [*first.origin.files.values()])  # type: ignore[union-attr]
        self.session = first

    def test_all_characters_that_can_be_typed(self) -> None:
        """All to U+2100, and some above, 512 in a line. The line that is saved is a comment."""
        talk = self.opened(LOGIN)
        points = [*range(0x2101), *range(0xFE00, 0x10000, 3), *range(0x1F600, 0x1F680), *range(0xDC80, 0xDD00), 0xE0001, 0x10FFFF]
        characters = [chr(it) for it in points if not 0xD800 <= it < 0xDC80 and not 0xDD00 <= it < 0xE000 and chr(it) not in "'\\"]
        for at in range(0, len(characters), 512):
            self.assertTrue(talk.do(f"type '{''.join(characters[at:at + 512])}'"), self.said)
        talk.do("break main"), talk.do("gdb break *0x80000000 if $a0 == 'a\r\n\x0c\u2028b'"), talk.do("goto 7")
        self.same(talk, "", lambda: self.opened(f"{self.folder}/s"))

    def test_all_characters_that_a_name_can_have(self) -> None:
        """Names of an image, an ELF with symbols, and a folder of sources; with blanks and line ends, and at both ends."""
        characters = [chr(it) for it in (*range(1, 0x2101), *range(0xDC80, 0xDD00), 0x1F600, 0xE0001) if it not in (ord("/"), *range(0x80, 0x100))]
        names = ["".join(characters[at:at + 60]) for at in range(0, len(characters), 60)]
        names += [" ", " x ", "\n", "x\r", "\nx\n", "\\n", "a\\\n\\\\n", "x@5", "-x", "'x'", '"x"', "contents", "~", "file x"]
        for at, name in enumerate(names):
            image, symbols = self.put(f"{at}/{name}", b"image"), self.put(f"s{at}/{name}", b"symbols")
            sources = str(self.folder / f"d{at}" / name)
            os.makedirs(sources)
            with saved.opened(Opening((image,), symbols=(f"{symbols}@0x1000", symbols), sources=(sources,))) as first:
                for is_whole in False, True:
                    text = saved.text_of(first.origin, str(self.folder), [], ["goto 7"], is_whole)
                    file = self.put("s", text.encode("utf-8", "surrogateescape"))
                    with saved.opened(Opening((file,)), self.said.append) as second:
                        self.assertEqual([*second.origin.files.values()], [*first.origin.files.values()])
                        self.assertEqual((second.opening.sources, second.edits(), self.said), ((sources,), ["goto 7"], []))
                        self.assertEqual([it.partition("@0x")[2] for it in second.opening.symbols], ["1000", ""])
                        if not is_whole:
                            self.assertEqual((second.opening.files, second.opening.symbols), ((image,), (f"{symbols}@0x1000", symbols)))

    def test_two_packed_files_of_one_name_stay_apart(self) -> None:
        """One of another name is called as a packed one would be, and a session that was written by hand has them by their folders."""
        contents = [Path(LOGIN).read_bytes(), made([(0xBFC0_0000, 0xBFC0_0000, bytes(4), 4)], symbols=[("b", 0xBFC0_0000, 4, 2)]),
                    made([(0xBFC0_0000, 0xBFC0_0000, bytes(8), 8)], symbols=[("c", 0xBFC0_0004, 4, 2)])]
        names = [self.put(name, content) for name, content in zip(("a/x.elf", "b/x.elf", "c/1-x.elf"), contents)]
        talk = self.opened(names[0], symbols=names[1:])
        self.same(talk, "whole", lambda: self.opened(f"{self.folder}/s"))
        packed = [base64.b64encode(zlib.compress(it)).decode() for it in contents[:2]]
        sums = [hashlib.sha256(it).hexdigest() for it in contents[:2]]
        text = (f"bezhakkom session 1\nimage a/x.elf\noption --symbols b/x.elf\nsha256 {sums[0]} a/x.elf\nsha256 {sums[1]} b/x.elf\n\n"
                f"contents\nfile a/x.elf\n{packed[0]}\nfile b/x.elf\n{packed[1]}\n")
        self.opened(self.put("hand", text.encode()))
        self.assertEqual([*self.session.origin.files.values()], contents[:2])  # type: ignore[union-attr]
        self.assertEqual(self.said, [])

    def test_session_of_an_earlier_version_opens(self) -> None:
        """Names were written as they are, and the folders of sources were left out."""
        self.put("a\\n.elf", Path(LOGIN).read_bytes())
        digest = hashlib.sha256(Path(LOGIN).read_bytes()).hexdigest()
        self.opened(self.put("s", f"bezhakkom session 1\r\nimage a\\n.elf\r\nsha256 {digest} a\\n.elf\r\n\r\n# x\r\nadd 5 0 7\r\ngoto 9\r\n".encode()))
        self.assertEqual((self.session.driver.log, self.session.driver.position, self.said), ([Event(5, 0, 7)], 9, []))

    def test_folder_of_sources_that_is_gone_is_a_note(self) -> None:
        sources = self.folder / "src"
        sources.mkdir()
        talk = self.opened(LOGIN, sources=[str(sources)])
        self.do(talk, f"save {self.folder}/s")
        self.assertIn("\noption --sources src\n", (self.folder / "s").read_text())
        sources.rmdir()
        self.said.clear()
        self.opened(f"{self.folder}/s")
        self.assertEqual(self.said, [f"{self.folder}/s has sources in {sources}, where no folder is: they are not looked for there"])

    def test_name_that_begins_with_a_dash_opens_as_the_message_shows(self) -> None:
        done = shell(LOGIN, lines=("del 0", "goto 9", "save -x"), folder=self.folder)
        self.assertEqual(done.stdout.splitlines()[-1], "the session is saved in -x; `bin/wb shell ./-x` opens it")
        self.assertEqual(shell("./-x", lines=("pos",), folder=self.folder).stdout.partition(",")[0], "step 9")


class DeletedFolder(InFolder):
    """The present folder is deleted after the start."""

    def setUp(self) -> None:
        super().setUp()
        here = os.getcwd()
        self.addCleanup(os.chdir, here)
        self.gone = self.folder / "gone"
        self.gone.mkdir()
        os.chdir(self.gone)

    def test_shell_saves_elsewhere_and_goes_on(self) -> None:
        talk = self.opened(os.path.relpath(LOGIN), log=True)
        self.do(talk, "del 2")
        self.gone.rmdir()
        self.assertEqual(self.do(talk, "save x"), ["x can't be written: No such file or directory"])
        self.assertRegex(self.do(talk, "save-log x", "save x/y", "compare x", "load x", "load")[0], "can't be written")
        self.assertEqual(self.do(talk, f"save {self.folder}/s")[0][:24], "the session is saved in ")
        self.assertEqual(len(self.session.driver.log), 9)
        self.assertIsNotNone(Shell(self.session)._session.text(None, True))
        self.opened(f"{self.folder}/s")
        self.assertEqual(len(self.session.driver.log), 9)

    def test_sigterm_keeps_the_edits_of_the_stub(self) -> None:
        with subprocess.Popen([debugger.WB, "stub", "--log", LOG, LOGIN], stdin=subprocess.PIPE, stdout=subprocess.PIPE,
                              stderr=subprocess.PIPE, env={**os.environ, "XDG_STATE_HOME": str(self.folder)}) as stub:
            assert stub.stdin and stub.stdout and stub.stderr
            line = b"qRcmd," + b"del 2".hex().encode()
            stub.stdin.write(b"$%s#%02x" % (line, sum(line) % 256))
            stub.stdin.flush()
            self.assertEqual(stub.stdout.read(1), b"+")
            while b"$OK#9a" not in (shown := stub.stdout.read1(1000)):
                pass
            self.gone.rmdir()
            stub.send_signal(signal.SIGTERM)
            self.assertIn(b"what was not saved is in", stub.stderr.read())
        session, = (self.folder / "bezhakkom").glob("*.session")
        with saved.running(Opening((str(session),))) as driver:
            self.assertEqual(len(driver.log), 9)


class Overwriting(InFolder):
    def test_write_protected_file_is_kept_unless_forced(self) -> None:
        """Its mode decides, which root may ignore."""
        talk = self.opened(LOGIN, log=True)
        self.do(talk, "goto 9")
        for line, name in ("save", "s"), ("save-log", "log"), ("save-image", "i.img"), ("trace 3 to", "t"):
            path = self.folder / name
            self.do(talk, f"{line} {path}")
            before = path.read_bytes()
            path.chmod(0o444)
            self.do(talk, "add 9 0 9", f"patch 0xbfc00000 {self.session.driver.position}", "step")
            self.assertEqual(self.do(talk, f"{line} {path}"),
                             [f"{path} is write-protected. Save under another name to keep it; `{line} {path} force` overwrites it"])
            self.assertEqual(path.read_bytes(), before)
            self.assertNotIn("overwrites", self.do(talk, f"{line} {path} force")[0])
            self.assertNotEqual(path.read_bytes(), before)
            self.assertEqual(path.stat().st_mode & 0o777, 0o444)

    def test_halves_of_killed_saves_are_removed_after_an_hour(self) -> None:
        with mock.patch("os.replace", side_effect=KeyboardInterrupt), mock.patch("os.unlink"):
            self.assertRaises(KeyboardInterrupt, saving.save, str(self.folder / "s"), b"half", log.LOG)
        half, = self.folder.iterdir()
        others = [self.folder / name for name in (".s.abcd1234", ".bezhakkom-save", "x")]
        for it in others:
            it.touch()
            os.utime(it, (0, 0))
        os.symlink(others[0], self.folder / f"{half.name}x")
        saving.save(str(self.folder / "t"), b"", log.LOG)
        self.assertTrue(half.exists())
        os.utime(half, (time.time() - 3601,) * 2)
        saving.save(str(self.folder / "t"), b"", log.LOG)
        self.assertEqual({it.name for it in self.folder.iterdir()}, {*(it.name for it in others), f"{half.name}x", "t"})

    def test_name_with_as_many_bytes_as_the_system_takes_is_saved(self) -> None:
        saving.save(str(self.folder / ("n" * 255)), b"x", log.LOG)
        self.assertEqual((self.folder / ("n" * 255)).read_bytes(), b"x")


class Limits(InFolder):
    def peak(self, *words: str, given: int = subprocess.DEVNULL) -> tuple[int, str, int]:
        """The status of a command, what it wrote, and the greatest memory that it took, in MB."""
        code = ("import resource, sys; sys.path.insert(0, 'front'); from bezhakkom import cli; status = cli.main(sys.argv[1:]); "
                "print(resource.getrusage(resource.RUSAGE_SELF).ru_maxrss // 1024, file=sys.stderr); sys.exit(status)")
        done = subprocess.run([sys.executable, "-c", code, *words], cwd=ROOT, stdin=given, stdout=subprocess.PIPE, stderr=subprocess.PIPE, text=True)
        *said, peak = done.stderr.splitlines()
        return done.returncode, "\n".join(said), int(peak)

    def test_packed_file_is_inflated_to_the_limit_and_no_further(self) -> None:
        """2 MB of it would be 2 GB."""
        deflater = zlib.compressobj(9)
        head = deflater.compress(b"") + deflater.flush(zlib.Z_FULL_FLUSH)
        block = deflater.compress(bytes(1 << 24)) + deflater.flush(zlib.Z_FULL_FLUSH)
        content = base64.b64encode(head + 128 * block).decode()
        name = self.put("s", f"bezhakkom session 1\nimage x\nsha256 00 x\n\ncontents\nfile x\n{content}\n".encode())
        self.assertLess(len(content), 3 << 20)
        status, said, peak = self.peak("shell", name)
        self.assertEqual((status, said), (2, f"bin/wb: {name}: x has more than 67,108,864 bytes"))
        self.assertLess(peak, 200)

    def test_packed_lines_are_joined_in_linear_time(self) -> None:
        name = self.put("s", b"bezhakkom session 1\nimage x\nsha256 00 x\n\ncontents\nfile x\n" + b"A" * 31 + b"\n" + b"AAAA\n" * 500_000)
        begun = time.monotonic()
        self.assertEqual(shell(name).stderr, f"bin/wb: {name}: the content of x is damaged\n")
        self.assertLess(time.monotonic() - begun, 10)

    def test_packed_text_and_names_that_are_none_are_one_line(self) -> None:
        head = "bezhakkom session 1\nimage {0}\nsha256 00 {0}\n\ncontents\nfile {0}\n"
        empty = base64.b64encode(zlib.compress(b"")).decode()
        for name, content, why in (("x", "é漢", "the content of x is damaged"), ("x", "\udcff", "the content of x is damaged"),
                                   ("x", "eN\0", "the content of x is damaged"), ("x", empty[:-8], "the content of x is damaged"),
                                   ("a\0b", empty, r"a\x00b can't be the name of a file"), ("..", empty, ".. can't be the name of a file"),
                                   ("n" * 300, empty, "n" * 300 + " can't be the name of a file")):
            session = self.put("s", (head.format(name) + content + "\n").encode("utf-8", "surrogateescape"))
            done = shell(session)
            self.assertEqual((done.stderr, done.returncode), (f"bin/wb: {session}: {why}\n", 2))
        done = shell(self.put("s", b"bezhakkom session 1\nimage a\0b\nsha256 00 a\0b\n\n"))
        self.assertEqual(done.stderr, f"bin/wb: {self.folder}/a\\x00b can't be the name of a file\n")

    def test_log_show_reads_standard_input_to_its_limit(self) -> None:
        with open("/dev/zero") as zero:
            status, said, peak = self.peak("log", "show", "-", given=zero.fileno())
        self.assertEqual((status, said), (2, "bin/wb: standard input has more than 67,108,864 bytes"))
        self.assertLess(peak, 200)

    def test_text_of_a_log_with_too_many_events_or_digits_is_one_line(self) -> None:
        for text, why in (("0 0 '" + "a" * 5_000_000 + "'", "at most 1,048,576"), ("9" * 5000 + " 0 'a'", "is no number"),
                          ("0x" + "f" * 5000 + " 0 'a'", "is no number"), ("0 0 'ab' 0x" + "f" * 5000, "is no number")):
            with self.assertRaisesRegex(Problem, why) as caught:
                log.make([text], "x")
            self.assertLess(len(str(caught.exception)), 400)
        with mock.patch.object(log, "MOST_EVENTS", 1000), self.assertRaisesRegex(Problem, "at most 1,000"):
            log.make(iter(["0 0 'aaaaaaaaaa'"] * 101 + ["not reached"]), "x")

    def test_image_with_more_runs_than_it_has_bytes_is_refused_by_load(self) -> None:
        name = self.put("i.img", b"R3KIMG1\n" + (16).to_bytes(4, "little") + (1).to_bytes(4, "little") + bytes([0, 0, 0, 0, 0, 0, 1, 1, 1, 0, 0x20, 6]) + b"\xff" * 4)
        talk = self.opened(LOGIN, log=True)
        self.do(talk, "del 2")
        begun = time.process_time()
        self.assertRegex(self.do(talk, f"load {name}")[0], "^r3kwb: error 9 BadImage ")
        self.assertLess(time.process_time() - begun, 5)
        self.assertEqual(len(self.session.driver.log), 9)

    def test_pipe_or_device_as_an_image_is_refused_by_every_front_end(self) -> None:
        os.mkfifo(self.folder / "pipe")
        for name in str(self.folder / "pipe"), "/dev/zero", str(self.folder):
            for words in ([name], ["shell", name], ["stub", "--listen", "0", name], ["view", name], ["plot", "--to", "9", name], ["gdb", name],
                          ["image", name, str(self.folder / "out")], ["log", "show", name], ["shell", "--log", name, LOGIN],
                          ["shell", "--symbols", name, LOGIN], ["shell", LOGIN, name]):
                done = outside.run(words)
                self.assertEqual((done.stderr.decode(), done.returncode), (f"bin/wb: {name} is no file that can be read\n", 2), words)


if __name__ == "__main__":
    unittest.main()
