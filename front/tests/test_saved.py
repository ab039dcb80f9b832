"""Sessions in a file: what is saved is opened again, in each front end."""
from __future__ import annotations

import os
import re
import shutil
import subprocess
import tempfile
import unittest
from contextlib import contextmanager
from pathlib import Path
from typing import Callable, Iterator
from unittest import mock

from bezhakkom import gdb_stops, loading, saved
from bezhakkom.commands import run
from bezhakkom.errors import Problem
from bezhakkom.loading import Opening
from bezhakkom.log import Event
from bezhakkom.session import Session
from bezhakkom.shell import Shell
from bezhakkom.symbols import symbols_of
from front.tests import debugger
from front.tests.scripts import shell
from front.tests.support import ROOT
from front.tests.terminal import Terminal

LOGIN = "examples/login/login.elf"
LINES = ("goto 90,000", "type 'ab' 700", "del 2", "move 0 19,000", "patch main+4 0x24040001", "add pos+5 1 'z'", "undo",
         "ferr 99,000 0 1", "wire 50 1 1", "break read_line", "watch session+8 1", "delete 1", "watch session+0x20", "break 0xbfc00200", "idle 7,000,000",
         "goto 55,555")
# What tells one session from another.
SHOWN = ("log 0 99", "stops", "pos", "idle", "mem 0xbfc00350 4", "console", "regs", "writer session+8")


class Saved(unittest.TestCase):
    def setUp(self) -> None:
        folder = tempfile.TemporaryDirectory()
        self.addCleanup(folder.cleanup)
        self.folder = Path(folder.name)
        self.file = str(self.folder / "walk.session")

    def save(self, *words: str, image: str = LOGIN, options: tuple[str, ...] = ("--log", "examples/login/log")) -> list[str]:
        """Saves a session, and gives what it shows."""
        line = " ".join(["save", self.file, *words])
        done = shell(*options, image, lines=(*LINES, line, "unsaved", *SHOWN))
        said = done.stdout.splitlines()
        at = said.index(f"the session is saved in {self.file}; `bin/wb shell {self.file}` opens it")
        return said[at + 1:]

    @staticmethod
    def plain(said: list[str]) -> list[str]:
        """Without the numbers of stops, which are given anew."""
        return [re.sub(r"^\d: (?=watch|break)", "", it) for it in said]

    def test_what_is_saved_is_opened(self) -> None:
        before = self.save()
        done = shell(self.file, lines=("unsaved", *SHOWN))
        self.assertEqual((self.plain(done.stdout.splitlines()), done.stderr), (self.plain(before), ""))
        self.assertIn("   100: "[:2], before[1])
        # All edits can be taken back, down to the log and the image that were there.
        done = shell(self.file, lines=(*["undo"] * 6, "undo", "wb log 0 3", "mem main+4 1"))
        said = done.stdout.splitlines()
        self.assertEqual([it.partition(":")[0] for it in said[:6]], ["taken back"] * 6)
        self.assertEqual(said[6:11], ["there is no edit to take back", "log 10", "0 20000 0 0x78", "1 30000 0 0x08", "2 40000 0 0x08"])
        self.assertNotIn("0x24040001", said[-1])

    def test_it_can_be_read(self) -> None:
        self.save()
        text = Path(self.file).read_text()
        self.assertTrue(text.startswith("bezhakkom session 1\n"))
        for line in ("log 20000 0 'x\\b\\bsesame\\r' 10000", "# type 'ab' 700", "arrive 90000 0 'ab' 700", "del 2", "move 0 19000",
                     "wb patch 0x1fc00358 0x24040001", "goto 55,555", "watch session+0x8 1", "break receive", "idle 7,000,000"):
            self.assertIn(f"\n{line}\n", text)
        self.assertNotIn("'z'", text)

    @contextmanager
    def on(self, name: str) -> Iterator[Callable[[str], str]]:
        """A shell on an image or a session: what it shows for a line."""
        with saved.opened(Opening((name,))) as found, loading.running(found.opening) as driver:
            session = Session(driver, symbols_of(driver.image), origin=found.origin)
            Shell(session).open(found.commands)

            def shown(line: str) -> str:
                lines: list[str] = []
                session.tell = lines.append
                Shell(session).do(line)
                return "\n".join(lines)

            yield shown

    def test_save_after_another_shell_saved_is_refused(self) -> None:
        self.save()
        with self.on(self.file) as first, self.on(self.file) as second:
            first("add 60,000 0 'a'")
            self.assertIn("is saved", first(f"save {self.file}"))
            self.assertIn("is saved", first(f"save {self.file}"))
            kept = Path(self.file).read_bytes()
            second("add 60,000 0 'b'")
            self.assertEqual(second(f"save {self.file} whole"),
                             f"{self.file} was changed by another program since it was read or saved here. Save under another name to keep "
                             f"both; `save {self.file} whole force` overwrites it")
            self.assertEqual(Path(self.file).read_bytes(), kept)
            self.assertIn("is saved", second(f"save {self.folder}/other.session"))
            self.assertIn("is saved", second(f"save {self.file} whole force"))
            self.assertIn("was changed by another program", first(f"save {self.file}"))
            # The content that would be written, or no content, is nobody's work.
            os.truncate(self.file, 0)
            self.assertIn("is saved", first(f"save {self.file}"))
            shutil.copy(self.file, self.folder / "copy")
            os.replace(self.folder / "copy", self.file)
            self.assertIn("is saved", first(f"save {self.file}"))
            os.remove(self.file)
            self.assertIn("is saved", first(f"save {self.file}"))

    def test_save_over_a_file_that_is_newer_than_the_session_is_refused(self) -> None:
        """Two shells on one image save under one name, which neither of them had read."""
        image = str(self.folder / "i.img")
        shell(LOGIN, lines=(f"save-image {image}",))
        lines = [f"save {self.folder}/session", f"save-log {self.folder}/log", f"save-image {self.folder}/x.img", f"trace 9 to {self.folder}/trace"]
        with self.on(image) as first, self.on(image) as second:
            second("patch 0xbfc00000 7"), second("add 5 0 1"), second("step")
            for line in lines:
                self.assertNotIn("changed by another program", first(line))
                self.assertIn("was changed by another program after this session began. Save under another name to keep both; "
                              f"`{line} force` overwrites it", second(line))
                self.assertNotIn("overwrites", second(f"{line} force"))
        with self.on(image) as third:  # a script that is run again writes its files again
            self.assertNotIn("overwrites", third(lines[0]))

    def test_save_log_over_a_changed_log_is_refused(self) -> None:
        log = self.folder / "log"
        shutil.copy(ROOT / "examples/login/log", log)
        stamp = os.stat(log)
        with saved.opened(Opening((LOGIN,), str(log))) as found, loading.running(found.opening, None) as driver:
            session = Session(driver, symbols_of(driver.image), origin=found.origin)
            log.write_bytes(log.read_bytes()[:8] + bytes(4))
            os.utime(log, ns=(stamp.st_atime_ns, stamp.st_mtime_ns))
            with self.assertRaisesRegex(Problem, "was changed by another program since it was read or saved here"):
                run(session, f"save-log {log}")

    def test_gdb_save_after_another_program_changed_the_file_is_refused(self) -> None:
        debugger.needed()
        self.save()
        shown = self.gdb(self.file, commands=(f"wb save {self.file}", f"shell echo '# mine' >> {self.file}", f"wb save {self.file}",
                                              f"shell tail -n 1 {self.file}", f"wb save {self.file} force"))
        self.assertEqual(sum("is saved in" in it for it in shown), 2, shown)
        self.assertIn(f"{self.file} was changed by another program since it was read or saved here. Save under another name to keep both; "
                      f"`save {self.file} force` overwrites it", shown)
        self.assertIn("# mine", shown)

    def test_names_with_blanks(self) -> None:
        """Such a name is quoted, and `~` begins the user's folder."""
        there = self.folder / "a b"
        there.mkdir()
        lines = (f"save '{there}/c d'", f'save-log "{there}/e f"', f"compare '{there}/e f'", f"trace 2 to '{there}/g h'",
                 f"save-image '{there}/i j.img'", f"load '{there}/i j.img'", "save ~/k")
        with mock.patch.dict(os.environ, HOME=str(there)):
            said = shell(LOGIN, lines=lines).stdout.splitlines()
        self.assertEqual(said[0], f"the session is saved in {there}/c d; `bin/wb shell '{there}/c d'` opens it")
        self.assertIn(f"0 words of the image changed by {there}/i j.img", said)
        self.assertEqual(sorted(it.name for it in there.iterdir()), ["c d", "e f", "g h", "i j.img", "k"])
        self.assertEqual(shell(f"{there}/c d", lines=("pos",)).stdout, "step 0, start (start.S:7): lui r29, 0x8001\n")

    def test_one_whole_is_opened_elsewhere(self) -> None:
        before = self.save("whole")
        elsewhere = self.folder / "elsewhere"
        elsewhere.mkdir()
        moved = shutil.move(self.file, elsewhere)
        done = shell(moved, lines=("unsaved", *SHOWN), folder=elsewhere)
        self.assertEqual((self.plain(done.stdout.splitlines()), done.stderr), (self.plain(before), ""))
        # One that is saved again has all it needs too.
        done = shell(moved, lines=(f"save {self.file}",), folder=elsewhere)
        done = shell(self.file, lines=SHOWN, folder=elsewhere)
        self.assertEqual(self.plain(done.stdout.splitlines()), self.plain(before))
        Path(self.file).write_text(Path(self.file).read_text().replace("\neN", "\n!N"))
        done = shell(self.file)
        self.assertEqual((done.returncode, done.stderr), (2, f"bin/wb: {self.file}: the content of login.elf is damaged\n"))

    def test_an_image_that_changed(self) -> None:
        image = self.folder / "a b.elf"
        shutil.copy(ROOT / LOGIN, image)
        self.save(image=str(image), options=())
        self.assertIn("\nimage a b.elf\n", Path(self.file).read_text())
        content = image.read_bytes()
        image.write_bytes(content.replace(b"Welcome", b"Goodbye"))
        done = shell(self.file, lines=("pos",))
        self.assertEqual(done.stderr, f"bin/wb: {image} is not as it was when {self.file} was saved: what it shows may differ\n")
        self.assertRegex(done.stdout, "step 55,555, ")
        image.unlink()
        self.assertEqual(shell(self.file).stderr, f"bin/wb: there is no file {image}\n")

    def test_options_and_other_files(self) -> None:
        self.save(image="examples/login/login.rom", options=("--symbols", LOGIN, "--unit", "3", "--byte-time", "20"))
        text = Path(self.file).read_text()
        self.assertRegex(text, "\noption --symbols .*login.elf\n")
        self.assertIn("\noption --unit 3\n", text)
        done = shell(self.file, lines=("print main", "type 'x' ", "save-image " + str(self.folder / "i.img")))
        self.assertIn("<main>", done.stdout)
        content = (self.folder / "i.img").read_bytes()
        self.assertEqual((content[8:12], content[12:16]), (bytes([20, 0, 0, 0]), bytes([3, 0, 0, 0])))

    def test_files_that_are_no_sessions(self) -> None:
        other = self.folder / "kernel.elf"
        other.write_bytes(b"\x7fELF")
        done = shell(LOGIN, lines=(f"save {other}", f"save {other} force", "save", "save a b c d", "save /no/such/folder/x"))
        said = done.stdout.splitlines()
        self.assertIn(f"`save {other} force` overwrites it", said[0])
        self.assertRegex(said[1], "is saved")
        self.assertRegex(said[2], "usage")
        self.assertRegex(said[-1], "can't be written")
        for text, wanted in (("bezhakkom session 1\n\n", "names no image"), ("bezhakkom session 2\n", "of a later version"),
                             ("bezhakkom session 1\nbreak 7\n", ":2: there is no line `break` in the head"),
                             ("bezhakkom session 1\nimage x\nlog what\n\n", "is not of the form TIME LINE")):
            Path(self.file).write_text(text)
            done = shell(self.file)
            self.assertEqual((done.returncode, done.stderr.count("\n")), (2, 1), done.stderr)
            self.assertIn(wanted, done.stderr)
        self.save()
        done = shell("--log", "examples/login/log", self.file)
        self.assertIn("is a session, which has its own log", done.stderr)
        plain = subprocess.run([str(ROOT / "bin/wb"), self.file], cwd=ROOT, capture_output=True, text=True)
        self.assertEqual((plain.returncode, plain.stderr), (2, f"bin/wb: {self.file} is a session: bin/wb shell {self.file}\n"))

    def test_one_that_is_cut(self) -> None:
        """Wherever it is cut, that is one line. Where it ends within a line, or before the empty one, that line is named."""
        self.save("whole")
        content = Path(self.file).read_bytes()
        head = content.index(b"\n\n") + 2
        contents = content.index(b"\ncontents\n")
        for end in (*range(len("bezhakkom session 1"), head), *range(head + 1, contents, 7), *range(contents + 1, len(content), 501)):
            Path(self.file).write_bytes(content[:end])
            done = shell(self.file)
            lines = content[:end].count(b"\n")
            if content[end - 1:end] != b"\n":
                said = f"{self.file} is cut within line {lines + 1}, its last one, which has no line end"
            elif end < head:
                said = f"{self.file} is cut after line {lines}: an empty line and the lines of the shell are missing"
            else:
                continue
            self.assertEqual((done.stderr, done.returncode), (f"bin/wb: {said}\n", 2))

    def test_a_session_writes_no_file(self) -> None:
        self.save()
        file = self.folder / "made"
        whole = Path(self.file).read_text()
        for name in f"save-log {file}", f"save-i {file}", f"monitor save {file}", f"load {file}", "quit":
            Path(self.file).write_text(f"{whole}{name}\n")
            done = shell(self.file)
            self.assertRegex(done.stderr, f":{whole.count(chr(10)) + 1}: `{name.split()[0]}` is no line of a session, which has add, ")
            self.assertEqual((done.returncode, file.exists()), (2, False))

    def test_a_line_that_fails(self) -> None:
        self.save()
        Path(self.file).write_text(Path(self.file).read_text() + "break nowhere\nadd 7 0 'q'\n")
        said = shell(self.file, lines=("wb log 0 1",)).stdout.splitlines()
        self.assertEqual(said[:2], ["the session's line `break nowhere` fails:", "there is no symbol and no register nowhere"])
        self.assertEqual(said[-1], "0 7 0 0x71")

    def test_gdb_opens_and_saves_sessions(self) -> None:
        debugger.needed()
        self.save()
        again = str(self.folder / "again.session")
        shown = debugger.run([debugger.WB, "gdb", self.file, *debugger.PLAIN, "-batch", "-ex", "print $position", "-ex", "print main",
                              "-ex", f"wb save {again}"])
        self.assertIn("$1 = 55555\n", shown)
        self.assertIn("<main>", shown)
        first, second = (Path(it).read_text().splitlines() for it in (self.file, again))
        # What was typed is shown as it was read.
        self.assertEqual([it for it in second if not it.startswith("#")], [it for it in first if not it.startswith("#")])

    def gdb(self, *words: str, commands: tuple[str, ...]) -> list[str]:
        line = [debugger.WB, "gdb", *words, *debugger.PLAIN, "-batch", *(word for it in commands for word in ("-ex", it))]
        return debugger.run(line).splitlines()

    def confirmed(self, *commands: str) -> list[str]:
        """What gdb shows for commands on a terminal, after a `y` for the stops of the session that it evaluates."""
        words = [word for it in (*commands, "echo <end>\\n") for word in ("-ex", it)]
        terminal = Terminal("gdb", self.file, *debugger.PLAIN, "-iex", "set height 0", *words)
        terminal.until(b"Make them? (y or n) ")
        terminal.type(b"y\n")
        shown = terminal.until(b"<end>\r\n").decode().splitlines()
        self.assertEqual(terminal.leave(b"quit\n"), 0)
        return shown

    def test_stops_of_gdb(self) -> None:
        """They stop where the same ones stop that are typed. What can't be kept is named."""
        debugger.needed()
        typed = ("break 48 if session.length == 3", "tbreak print", "break read_line", "disable 3", "watch -l session.user[8]",
                 "watch session.length if session.length < 0", "hbreak *0xbfc002ec", "break send if c == 10", "rwatch session.line",
                 'break print if $_streq("a", "b")', "break 53", "commands", "silent", "end", "ignore 10 2")
        script = self.folder / "typed"
        script.write_text("\n".join(typed) + "\n")
        runs = ("delete 8-10", *['printf "at %d\\n", $position', "continue"] * 8)
        options = ("--log", "examples/login/log", LOGIN)
        wanted = self.gdb(*options, commands=("starti 120", f"source {script}", f"wb save {self.file}", *runs))
        self.assertEqual([it for it in wanted if it.startswith("not saved")],
                         [f"not saved: stop {it}: a session keeps breakpoints, and watches of stores, without `$_` in them"
                          for it in (8, 9)] + ["not saved: the commands of stop 10", "not saved: the count for `ignore` of stop 10"])
        kept = ["break login.c:48 if session.length == 3", "tbreak print", "disabled break read_line", "watch -location session.user[8]",
                "watch session.length if session.length < 0", "hbreak *0xbfc002ec", "break send if c == 10", "break login.c:53"]
        self.assertEqual([it[4:] for it in Path(self.file).read_text().splitlines() if it.startswith("gdb ")], kept)
        shown = self.confirmed("info breakpoints", *runs)
        stops = [it for it in shown if it.startswith("at ")]
        self.assertEqual(stops, [it for it in wanted if it.startswith("at ")])
        self.assertGreater(len(set(stops)), 5)
        self.assertTrue(any(it.startswith("3 ") and " keep n " in it for it in shown), shown)
        # The shell keeps them.
        again = str(self.folder / "again.session")
        said = shell(self.file, lines=("stops", "gdb", f"save {again}", "delete", "stops", "gdb")).stdout.splitlines()
        self.assertEqual(said[:len(kept)], [f"kept for gdb: {it}" for it in kept])
        self.assertEqual((said[len(kept):-2], said[-1]), (kept, "there are none; `break A`, `watch A` and `catch exception` make one"))
        self.assertEqual(Path(again).read_text(), Path(self.file).read_text())

    def test_a_session_runs_nothing_in_gdb(self) -> None:
        debugger.needed()
        self.save()
        file = self.folder / "made"
        lines = (f"gdb shell touch {file}", f"gdb watch $_shell(\"touch {file}\")", f"gdb break main if $_shell(\"touch {file}\")",
                 f"gdb disabled python open('{file}', 'w')", "gdb tbreak main")
        with open(self.file, "a") as opened:
            opened.writelines(f"{it}\n" for it in lines)
        shown = self.gdb(self.file, commands=("starti", "continue"))
        self.assertIn("they are not made, because without a terminal nobody can be asked: type those that you trust", shown)
        self.assertIn("Temporary breakpoint", "\n".join(shown))
        shown = self.confirmed("starti", "continue")
        self.assertEqual(sum("can't be made: it is no breakpoint or watch that a session can have" in it for it in shown), 4, shown)
        self.assertFalse(file.exists())

    def test_stops_that_both_have(self) -> None:
        for address, size, line in ((0xBFC00200, None, "break *0xbfc00200"), (0x80001009, 1, "watch *(char *) 0x80001009"),
                                    (0x500, 2, "watch *(short *) 0x00000500"), (0x80001020, 4, "watch *(int *) 0x80001020"),
                                    (0x80001000, 33, "watch *(char (*)[33]) 0x80001000")):
            self.assertEqual((list(gdb_stops.lines(address, size)), gdb_stops.parts(line)), ([line], (address, size)))
        # A watch of the shell's goes over pages, and has up to 1,024 bytes.
        self.assertEqual(list(gdb_stops.lines(0x8000_1F00, 1021)), [
            "watch *(char (*)[256]) 0x80001f00", "watch *(char (*)[256]) 0x80002000", "watch *(char (*)[256]) 0x80002100",
            "watch *(char (*)[253]) 0x80002200"])
        for line in "break main", "break *0xbfc00200 if c == 3", "tbreak *0xbfc00200", "watch *(long *) 0x500", "watch session":
            self.assertIsNone(gdb_stops.parts(line))

    def test_a_long_watch_of_the_shell_is_several_of_gdb(self) -> None:
        """They stop where it does."""
        debugger.needed()
        lines = ("watch session+8-244 300", f"save {self.file}", *["continue"] * 3)
        said = shell("--log", "examples/login/log", LOGIN, lines=lines).stdout
        steps = [it.replace(",", "") for it in re.findall(r"in step ([\d,]+), ", said)]
        self.assertEqual(len(steps), 3)
        shown = self.gdb(self.file, commands=("starti", "info breakpoints", *['continue', 'printf "at %d\\n", $position'] * 3))
        self.assertEqual(sum("hw watchpoint" in it for it in shown), 2)
        self.assertEqual([it[3:] for it in shown if it.startswith("at ")], [str(int(it) + 1) for it in steps])

    def test_the_page(self) -> None:
        """The session on the page is what its walk saves."""
        shutil.copytree(ROOT / "examples/login", self.folder / "examples/login")
        lines = ("del 2", "break read_line", "watch session+0x20", "goto 40,024", f"save {self.file}")
        shell("--log", "examples/login/log", LOGIN, lines=lines, folder=self.folder)
        page = (ROOT / "docs/USING.md").read_text()
        shown = "".join(f"    {line}".rstrip() + "\n" for line in Path(self.file).read_text().splitlines())
        self.assertIn(f"\n\n{shown}\n", page)

    def test_the_plot_takes_sessions(self) -> None:
        self.save()
        picture = str(self.folder / "x.svg")
        subprocess.run([str(ROOT / "bin/wb"), "plot", "--to", "60000", self.file, picture], cwd=ROOT, check=True)
        self.assertIn("<svg", Path(picture).read_text())

    def test_edits_as_lines(self) -> None:
        for made, lines in ((["add 5 0 65", "add 9 0 0x42", "add 13 0 67"], ["arrive 5 0 'ABC' 4"]),
                            (["ferr 5 1 0"], ["arrive 5 1 '\\x00' framing"]),
                            (["wire 5 1 0"], ["wire 5 1 0"]), (["add 5 0 65", "add 5 1 65"], ["add 5 0 65", "add 5 1 65"]),
                            (["add 5 0 65", "add 5 0 66"], ["arrive 5 0 'AB'"]), (["add 5 0 65", "del 3"], ["add 5 0 65", "del 3"]),
                            (["erase 5 9"], ["erase 5 9"]), (["patch 256 1"], ["wb patch 0x00000100 0x00000001"])):
            self.assertEqual(saved.lines_of_edit("typed", made), ["# typed", *lines])
        lines = ["# x", "arrive 5 0 'AB' 4", "goto 1,000", "wb patch 0x100 1", "break main"]
        opened = saved.Opened(None, None, lines)  # type: ignore[arg-type]
        self.assertEqual(opened.edits(), [Event(5, 0, 65).command, Event(9, 0, 66).command, "goto 1000", "patch 0x100 1"])


if __name__ == "__main__":
    unittest.main()
