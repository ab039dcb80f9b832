"""The shell, line by line. Steps are those of the worked examples, or counted by hand in the sources."""
from __future__ import annotations

import os
import random
import shutil
import subprocess
import tempfile
import time
import unittest
from pathlib import Path

from bezhakkom import expressions, loading
from bezhakkom import log as logs
from bezhakkom.command_examples import EXAMPLES
from bezhakkom.commands import COMMANDS
from bezhakkom.driver import Driver
from bezhakkom.errors import Problem
from bezhakkom.habits import translated
from bezhakkom.log import Event, Kind
from bezhakkom.session import Session, distance
from bezhakkom.shell import Shell
from bezhakkom.symbols import symbols_of
from front.tests.scripts import Done, shell
from front.tests.support import ROOT, needs_erase, needs_kinds
from front.tests.terminal import Terminal


class Talk:
    """A shell on an example, and what it says to lines."""

    def __init__(self, example: str, image: str = "boot.s", log: bool = True) -> None:
        folder = ROOT / "examples" / example
        made = loading.image(str(folder / image))
        self.driver: Driver = loading.start(made, str(folder / "log") if log else None)
        self.said: list[str] = []
        self.session = Session(self.driver, symbols_of(made), tell=self.said.append, saved_log=list(self.driver.log))
        self.shell = Shell(self.session)

    def __call__(self, *lines: str) -> list[str]:
        self.said.clear()
        for line in lines:
            self.shell.do(line)
        return list(self.said)


class Echo(unittest.TestCase):
    """The echo program: a turn of its loop takes 11 steps, the first begins at step 9; it stores at 0x100 and 0x104."""

    def setUp(self) -> None:
        self.talk = Talk("echo")
        self.addCleanup(self.talk.driver.close)

    def test_moves(self) -> None:
        talk = self.talk
        self.assertEqual(talk("step"), ["step 1, 0xbfc00004: lui r8, 0xa000"])
        self.assertEqual(talk("visit loop"), ["step 9, loop: lw r6, 8(r1)"])
        self.assertEqual(talk("back 2"), ["step 7, 0xbfc0001c: j 0xbfc01000 <loop>"])
        self.assertEqual(talk("step"), ["step 8, 0xbfc00020: sw r5, 0(r1)   (delay slot)"])
        self.assertEqual(talk("goto 1,000"), ["step 1,000, loop+0x4: sll r0, r0, 0"])
        self.assertEqual(talk("goto 1,099,511,627,776"), ["refused: a position is 0 to 1,099,511,627,775"])
        self.assertEqual(talk("visit 0x80000000 100"), ["the run does not come to 0x80000000 in the next 100 steps"])
        self.assertRegex(talk("visit 0x80000000")[0], "does not come to 0x80000000: from step .* waits for a byte")
        self.assertEqual(talk("pos"), ["step 1,000, loop+0x4: sll r0, r0, 0"])

    def test_stops(self) -> None:
        """Byte 0x41 arrives in step 70, and the turn of step 75 takes it; 0x42 arrives in step 200, and the turn of step 207."""
        talk = self.talk
        self.assertEqual(talk("break loop+0x18", "watch 0xa0000100"),
                         ["1: breakpoint at 0xbfc01018 <loop+0x18>", "2: watch of 4 bytes at 0xa0000100"])
        self.assertEqual(talk("continue"), [
            "2: 0xa0000100: 0x00000000 became 0x00008041", "   in step 77, loop+0x8, 1 step ago: sw r6, 256(r8)",
            "step 78, loop+0xc: sll r7, r6, 16"])
        self.assertEqual(talk("c"), ["1: breakpoint at 0xbfc01018 <loop+0x18>", "step 81, loop+0x18: sw r0, 260(r8)"])
        self.assertEqual(talk("reverse-continue")[-1], "step 77, loop+0x8: sw r6, 256(r8)")
        self.assertEqual(talk("rc"), ["that is the beginning of the run", "step 0, 0xbfc00000: lui r1, 0xbfe0"])
        self.assertEqual(talk("delete 2", "stops"), ["1: breakpoint at 0xbfc01018 <loop+0x18>"])
        self.assertEqual(talk("delete 2"), ["there is no stop 2; `stops` lists them"])
        self.assertEqual(talk("c", "c")[1::2], ["step 81, loop+0x18: sw r0, 260(r8)", "step 213, loop+0x18: sw r0, 260(r8)"])
        self.assertRegex(talk("c")[0], "waits for a byte, and the log has no more")

    def test_text_without_quotes_is_shown_with_them(self) -> None:
        for line, meant in (("type hello", 'type "hello"'), ("type 1 hello you", 'type 1 "hello you"'), ("expect password:", 'expect "password:"'),
                            ("assert-console 0 x", 'assert-console 0 "x"')):
            self.assertEqual(self.talk(line), [f"put the text in quotes: {meant}"])
        self.assertRegex(self.talk("type 0 5")[0], "^usage: type .*; put the text in quotes")
        self.assertEqual(self.talk.driver.log, self.talk.session.saved_log)

    def test_the_past(self) -> None:
        talk = self.talk
        self.assertEqual(talk("goto 256", "writer 0xa0000104")[1], "step 213, loop+0x18, 43 steps ago: sw r0, 260(r8)")
        self.assertEqual(talk("del 1", "writer 0xa0000104"),
                         ["1 event left", "step 81, loop+0x18, 175 steps ago: sw r0, 260(r8)"])
        self.assertEqual(talk("undo", "writer 0xa0000104")[0], "taken back: del 1")
        self.assertRegex(talk("writer 0xa0000104")[0], "step 213")
        self.assertEqual(talk("console"), ["line 0 sent 2 bytes:", "AB"])
        self.assertEqual(talk("find 0 1"), ["step 215, loop+0x20, 41 steps ago: sw r6, 24(r1)"])
        self.assertEqual(talk("writer loop"),
                         ["0xbfc01000 <loop> holds what the image sets; no step before this position stored there"])
        self.assertEqual(talk("writer 0x80000200"),
                         ["no step before this position stored at 0x80000200, and the image does not set it"])

    def test_a_range_is_erased(self) -> None:
        needs_erase(self)
        talk = self.talk
        before = list(talk.driver.log)
        self.assertEqual(talk("goto 256", "add 130 0 'C'", "console 0")[-1], "ACB")
        self.assertEqual(talk("erase 70 131", "console 0"), ["1 event left", "B"])
        self.assertEqual(talk("erase pos 70"), [
            "refused: both steps are 0 to 1,099,511,627,775, and the first is not above the second"])
        self.assertEqual(talk("erase pos-56 pos", "log")[0], "0 events left")
        self.assertEqual(talk("undo", "undo", "undo")[-1], "taken back: add 130 0 'C'")
        self.assertEqual((talk.driver.log, talk("console 0")[-1]), (before, "AB"))

    def test_framing_errors_and_external_lines(self) -> None:
        needs_kinds(self)
        talk = self.talk
        before = list(talk.driver.log)
        self.assertEqual(talk("del 0", "ferr 70 0 'A'", "wire 80 2 1"), ["1 event left", "event 0", "event 1"])
        self.assertEqual(talk("log 0"), [
            "3 events, 0 before this position", "     0: step 70, line 0, 0x41 'A' with a framing error, 70 steps ahead",
            "     1: step 80, external line 2 gets 1, 80 steps ahead", "     2: step 200, line 0, 0x42 'B', 200 steps ahead"])
        self.assertEqual(talk("set 1 2"), ["refused: a byte is 0 to 255, and the level of an external line 0 or 1"])
        self.assertRegex(talk("wire 5 3 1")[0], "refused: a step is 0 to .*, an external line is 0 to 2, a level is 0 or 1; ")
        self.assertRegex(talk("ferr 5 4 1")[0], "refused: a step is 0 to .*, a line is 0 to 3, a byte is 0 to 255; ")
        self.assertEqual(talk("goto 256", "console 0")[-1], "AB")
        self.assertEqual(talk("set 1 0", "move 1 90", "undo", "undo", "undo", "undo", "undo")[-1], "taken back: del 0")
        self.assertEqual(talk.driver.log, before)
        with tempfile.TemporaryDirectory() as folder:
            talk("wire 80 2 1", f"save-log {folder}/log")
            saved = logs.read(Path(folder, "log").read_bytes(), "log")
        self.assertEqual(saved, [before[0], Event(80, 2, 1, Kind.WIRE), before[1]])

    def test_undo(self) -> None:
        talk = self.talk
        before = list(talk.driver.log)
        talk("goto 256", "add 80 0 'x'", "patch loop+0x14 0x24c60001", "set 0 'Q'", "move 0 90", "wb del 0")
        self.assertEqual((len(talk.session.edits), len(talk.driver.patches)), (5, 1))
        talk("undo", "undo", "undo", "undo", "undo")
        self.assertEqual((talk.driver.log, talk.driver.patches), (before, []))
        self.assertEqual(talk("undo"), ["there is no edit to take back"])
        self.assertEqual(talk("console 0"), ["AB"])

    def test_typing(self) -> None:
        """What is typed is sent back, all of it: a byte a thousand steps, the first one in the step that comes next."""
        talk = self.talk
        self.assertEqual(talk("goto 300", "type 'hi\\r'")[1],
                         "3 bytes for line 0, from step 300 to step 2,300, 1,000 steps apart")
        self.assertEqual(talk.driver.log[2:], [Event(300, 0, 0x68), Event(1300, 0, 0x69), Event(2300, 0, 0x0D)])
        self.assertEqual(talk("expect 'hi'"), [f"step {9 + 11 * 118 + 9:,}, next: j 0xbfc01000 <loop>"])
        self.assertEqual(talk("undo"), ["taken back: type 'hi\\r'"])
        self.assertRegex(talk('type 0 "it\'s \\"x\\"" 50')[0], "8 bytes for line 0, .* 50 steps apart")
        self.assertRegex(talk("type 'on' 50")[0], "from step 1,716 to step 1,766")
        talk("undo", "undo")
        self.assertRegex(talk("expect 'zz'")[0], "did not send 'zz': at step .* waits for a byte, .*It sent nothing")
        self.assertRegex(talk("goto 10", "expect 'zz' 30")[1], "up to step 40. It sent nothing")

    def test_going_on_up_to_a_position(self) -> None:
        """The second byte arrives in step 200, and its turn is at the breakpoint in step 213."""
        talk = self.talk
        self.assertEqual(talk("continue 100"), ["reached step 100", "step 100, loop+0xc: sll r7, r6, 16"])
        self.assertEqual(talk("break loop+0x18", "until last+5")[1:],
                         ["reached step 205", "step 205, next: j 0xbfc01000 <loop>"])
        self.assertEqual(talk("until last+1,000")[-1], "step 213, loop+0x18: sw r0, 260(r8)")
        self.assertRegex(talk("until 213")[0], "position 213 is not ahead: this is 213")
        self.assertRegex(talk("continue 0")[0], "not ahead")

    def test_refusals(self) -> None:
        for line, said in (
                ("mem 0x100", "0x00000100 leads nowhere at this position: .* missing or not valid. .* at 0x80000100"),
                ("watch 0x100", "0x00000100 leads nowhere at this position"),
                ("mem 0xbfe00000", "physical address 0x1fe00000, where no memory is"),
                ("mem 0xa0000101", "multiple of 4; .* 0xa0000100"),
                ("patch loop 0x100000000", "no word"), ("del 7", "refused: there is no event 7: they are 0 to 1"),
                ("find 0 0", "line 0 sent no byte of place 0"),
                ("add 5 9 9", "refused: a step is 0 to 1,099,511,627,774, a line is 0 to 3"), ("reg 32", "there is no register 32"),
                ("step nowhere", "no symbol and no register nowhere"), ("frob", "no command frob"), ("goto", "usage: goto N"),
                ("r", "pc"), ("s 1 2", "usage: step"), ("delete x", "no symbol"), ("type hi", "in quotes"),
                ("type 7 'x'", "there is no line 7"), ("type '\\q'", "no escape"), ("break 2", "multiple of 4"),
                ("watch 0xbfe00000", "no memory"), ("watch loop 0", "1 to 1,024 bytes"), ("watch loop 2000", "not 2,000"),
                ("watch 0x807ffffc 8", "0x80800003 leads to the physical address 0x00800003, where no memory"),
                ("save-log /no/such", "can't be written"), ("st", "may be step, stops"),
                ("goto 5+", "no number"), ("goto 5 5", "usage"), ("print 'ab'", "not one character"), ("goto -1", "a position is 0 to"),
                ("wb foo", "error 2 Syntax"), ("undo", "no edit"), ("back", "refused: a position")):
            self.assertRegex("\n".join(self.talk(line)), said, line)

    def test_saving(self) -> None:
        with tempfile.TemporaryDirectory() as folder:
            log, image, raw = (os.path.join(folder, it) for it in ("new.log", "new.img", "new.rom"))
            self.talk("add 300 0 'C'", "patch loop+0x14 0x24c60001", f"save-log {log}", f"save-image {image}", f"save-image {raw}")
            self.assertEqual(self.talk.session.unsaved(), [])
            self.assertEqual(logs.read(Path(log).read_bytes(), log)[2:], [Event(300, 0, 0x43)])
            self.assertEqual(len(Path(raw).read_bytes()), 0x1038)
            for name in (image, raw):
                driver = loading.start(loading.image(name), log)
                driver.goto(400)
                self.assertEqual(driver.console(0), b"BCD")
                driver.close()
            self.talk("set 0 1")
            self.assertRegex(self.talk.session.unsaved()[0], "the log")
            for name, command in ((image, "save-log"), (log, "save-image"), (raw, "save-image")):
                before = Path(name).read_bytes()
                self.talk("patch loop+0x14 0x24c60002")
                self.assertRegex(self.talk(f"{command} {name}")[0], f"{name} is there.* `{command} {name} force` overwrites it")
                self.assertRegex(self.talk(f"{command} {name} x")[0], "only `force` may follow")
                self.assertEqual(Path(name).read_bytes(), before)
                self.assertRegex(self.talk(f"{command} {name} force")[0], "saved in")
                self.assertNotEqual(Path(name).read_bytes(), before)
            self.assertRegex(self.talk("save-log /dev/full")[0], "No space left on device")


class Pauses(unittest.TestCase):
    def test_a_run_that_does_nothing(self) -> None:
        """The greeting has 10 bytes, which are sent some 30 steps apart, so that an `expect` pauses before most of them."""
        talk = Talk("login", "login.elf", log=False)
        self.addCleanup(talk.driver.close)
        self.assertEqual(talk("idle 12"), ["long runs pause after 12 steps in which nothing is sent and no event is to come"])
        count = 0
        while not talk("expect 'password'")[0].startswith("step"):
            count += 1
            self.assertRegex(talk.said[0], "line 0 did not send 'password': the run pauses at step .*, as nothing was sent in the last 12 "
                             "steps, and the log has no more events. The same line goes on, and `idle N` changes that number, 0 for "
                             "never. It sent ")
        self.assertGreater(count, 10)
        self.assertEqual(talk.driver.console(0), b"password")
        self.assertRegex(talk("continue")[0], "^the run pauses: nothing was sent in the last 12 steps, .*. `continue` goes on, ")
        self.assertRegex(talk("visit 0x80000000")[0], "does not come to 0x80000000 up to step .*; the run pauses: .*. `visit` goes on, ")
        here = talk.driver.position
        self.assertRegex(talk("expect 'x' 9")[0], f"was looked for up to step {here + 9:,}. It sent nothing")
        self.assertEqual((talk("idle 0"), talk.driver.position), (["long runs don't pause"], here))
        self.assertRegex(talk("continue")[0], "waits for a byte")


class Scripts(unittest.TestCase):
    def run_script(self, *lines: str, strict: bool = True) -> Done:
        return shell(*(["--strict"] if strict else []), "examples/login/login.elf", lines=lines)

    def test_the_example_passes(self) -> None:
        script = (ROOT / "examples/login/check.wb").read_text().splitlines()
        self.assertEqual(self.run_script(*script).returncode, 0)
        # With a backspace before, the name runs on into the line: that is the program's fault.
        at = script.index("type 'sesame\\r'")
        done = self.run_script(*script[:at], "type '\\bsesame\\r'", *script[at + 1:])
        self.assertEqual((done.returncode, done.stderr), (5, f"bin/wb: {done.script}:{at + 2}: expect 'Welcome, operator.\\r\\n'\n"))

    def test_a_strict_script_ends_where_it_fails(self) -> None:
        for line, said in (("frob", "there is no command frob"), ("expect 'zz'", "did not send 'zz'"), ("expect 'password' 100", "up to"),
                           ("assert pc == 0", "it does not hold that pc == 0: pc is 0xbfc00000 (3,217,031,168)"),
                           ("assert v0", "it does not hold that v0: v0 is 0"), ("assert [sp", "a ] is missing"), ("assert", "usage"),
                           ("assert 1 < 2 < 3", "is no condition"), ("assert-console 'w'", "line 0 did not send 'w'"),
                           ("assert [0] == 1", "leads nowhere"), ("del 0", "refused"), ("wb frob", "error 2 Syntax"),
                           ("step 9,,9,x", "a comma stands before three digits")):
            done = self.run_script(line, "step")
            self.assertEqual((done.returncode, done.stderr), (5, f"bin/wb: {done.script}:1: {line}\n"), line)
            self.assertIn(said, done.stdout)
            self.assertNotIn("step 1, start", done.stdout)
        done = self.run_script("frob", "assert v0", "step", strict=False)
        self.assertEqual((done.returncode, done.stdout.splitlines()[-1]), (0, "step 1, start+0x4 (start.S:7): addiu r29, r29, 4096"))

    def test_conditions(self) -> None:
        """Memory of the image: its first word is 0x3c1d8001, lui r29, 0x8001."""
        holds = ("pc == start", "[pc] == 0x3c1d8001", "half[pc+2]==0x3c1d", "byte[pc] <= 1", "pc != 0", "1 >= 1", "2>1", "pos < 1",
                 "[0xbfc00000+4-4] - 1 != [pc]", "'a' == 97", "pc")
        done = self.run_script(*(f"assert {it}" for it in holds))
        self.assertEqual((done.returncode, done.stdout), (0, "that holds\n" * len(holds)))

    def test_a_closed_input(self) -> None:
        for front in ("shell", "console"):
            done = subprocess.run(f"bin/wb {front} examples/login/login.elf <&-", shell=True, cwd=ROOT, capture_output=True, text=True)
            self.assertNotIn("Traceback", done.stderr)
            self.assertEqual((done.returncode, done.stderr.count("\n")), (3 if front == "shell" else 2, 1))

    def test_numbers_of_many_digits(self) -> None:
        long = "9" * 5000
        done = self.run_script(f"goto {long}", f"print 0x{'f' * 5000}", f"wb goto {long}", f"goto {long}+1", f"add {long} 0 0",
                               "goto 0xffffffffffffffff", "x" * 5000, "goto 3", strict=False)
        self.assertEqual((done.returncode, done.stderr, done.stdout.splitlines()[-1][:7]), (0, "", "step 3,"))
        self.assertEqual(done.stdout.count("is too large: numbers are below 2^64"), 4)
        self.assertEqual(self.run_script("goto 0x10000000000000000", strict=False).stdout,
                         "0x10000000000000000 is too large: numbers are below 2^64\n")


class Habits(unittest.TestCase):
    """What somebody types who comes from gdb. Addresses are those of `nm`, and words those of `objdump`."""

    def test_lines_that_have_others(self) -> None:
        for line, wanted in (
                ("b main", "b main"), ("break *0xbfc00228", "break 0xbfc00228"), ("b *main+4", "b main+4"), ("hbreak main", "break main"),
                ("watch *0x80001000", "watch 0x80001000 4"), ("watch *(char *)0x80001008", "watch 0x80001008 1"),
                ("watch -l *(unsigned short*)session", "watch session 2"), ("watch session+8 1", "watch session+8 1"),
                ("info registers", "regs"), ("i r pc", "reg pc"), ("info b", "stops"), ("info symbol pc", "print pc"),
                ("x/4wx 0x80001000", "mem 0x80001000 4"), ("x /2g sp", "mem sp 4"), ("x/9xb sp", "mem sp 3"), ("x/3h sp", "mem sp 2"),
                ("x/8i $pc", "dis $pc 8"), ("x/s session", "mem session 4"), ("x sp 2", "x sp 2"), ("p $pc", "p $pc"),
                ("p/x $pc", "print $pc"), ("p *main", "p [main]"), ("print *(char*)main", "print byte[main]"),
                ("stepi 2", "step 2"), ("monitor goto 5", "goto 5"), ("disassemble main", "dis main"), ("disas main", "dis main"), ("set 0 'x'", "set 0 'x'")):
            self.assertEqual(translated(line), wanted, line)

    def test_a_small_number_is_no_address_of_a_kernel(self) -> None:
        """`done` stands six words after 0x80010000."""
        talk = Talk("user-mode", log=False)
        self.addCleanup(talk.driver.close)
        self.assertEqual(talk("print done", "print 0xa001001c", "print 0x10018"), [
            "done = 0x80010018  2,147,549,208  <done>", "0xa001001c = 0xa001001c  2,684,420,124  <done+0x4>", "0x10018 = 0x00010018  65,560"])

    def test_registers_as_assembler_has_them(self) -> None:
        talk = Talk("login", "login.elf", log=False)
        self.addCleanup(talk.driver.close)
        # `la $sp, stack_top` is the first two instructions.
        self.assertEqual(talk("goto 2", "print $29", "reg $29", "print r29-$29+$0", "writer $29", "print $32", "why $29")[:7], [
            "step 2, start+0x8 (start.S:8): lui r8, 0xbfc0", "$29 = 0x80011000  2,147,553,280  <stack_top>", "sp = 0x80011000  2,147,553,280  <stack_top>",
            "r29-$29+$0 = 0x00000000  0", "step 1, start+0x4 (start.S:7), 1 step ago: addiu r29, r29, 4096", "there is no register 32", "sp at step 2: 0x80011000 <stack_top>   from 1"])

    def test_lines_that_have_none(self) -> None:
        talk = Talk("login", "login.elf", log=False)
        self.addCleanup(talk.driver.close)
        for line, said in (
                ("watch session.length", "is C, whose types the shell does not know. session is at 0x80001000 of 36 bytes: .* print "
                 "&session.length"),
                ("watch session->user", "session\\+4, and for `watch` its size"), ("p session[3]", "session is at 0x80001000"),
                ("up", "`backtrace` shows the calls"), ("ptype session", "the shell knows no types"), ("next", "`visit pc\\+8` at a call"), ("finish", "`visit ra`"), ("run", "`goto 0`"),
                ("info locals", "`info` of registers"), ("break login.c:999", "no code in line 999"),
                ("break main if v0 == 1", "no conditions"), ("set var x = 1", "`patch A W`"), ("tbreak main", "`bin/wb gdb` has them")):
            self.assertRegex(talk(line)[0], said, line)

    def test_in_the_shell(self) -> None:
        talk = Talk("login", "login.elf", log=False)
        self.addCleanup(talk.driver.close)
        self.assertEqual(talk("b *main+4", "c", "x/2i $pc", "p *start", "info b", "rc", "si"), [
            "1: breakpoint at 0xbfc00358 <main+0x4> (login.c:64)", "1: breakpoint at 0xbfc00358 <main+0x4> (login.c:64)", "step 113, main+0x4 (login.c:64): sw r31, 20(r29)",
            "=> 0xbfc00358 <main+0x4>: 0xafbf0014  sw r31, 20(r29)", "   0xbfc0035c <main+0x8>: 0x3c02bfe0  lui r2, 0xbfe0",
            "[start] = 0x3c1d8001  1,008,566,273", "1: breakpoint at 0xbfc00358 <main+0x4> (login.c:64)", "that is the beginning of the run",
            "step 0, start (start.S:7): lui r29, 0x8001", "step 1, start+0x4 (start.S:7): addiu r29, r29, 4096"])


class Damage(unittest.TestCase):
    """Random lines, of words that the shell has and of others: each is answered, and the session goes on."""

    def test_random_lines(self) -> None:
        source = random.Random(5)
        talk = Talk("login", "login.elf")
        self.addCleanup(talk.driver.close)
        places = ["0", "7", "70,000", "0x80001000", "0xbfc00000", "start", "session+8", "pc", "$sp", "last", "'x'", "[pc]", "byte[sp-1]",
                  "9" * 4400, "0x" + "f" * 70, "-1", "pos-9", "1099511627776", "[[[", "]", "+", "''", "'\\q'", "\0", "\udc80", "é", ",", "=="]
        commands = [it for it in COMMANDS if it not in ("save-log", "save-image", "save", "quit")]
        talk("idle 5,000", "limit 5,000")
        for _ in range(400):
            line = " ".join([source.choice(commands) if source.random() < 0.9 else source.choice(places),
                             *(source.choice(places) for _ in range(source.randrange(4)))])
            if source.random() < 0.2:
                at = source.randrange(len(line) + 1)
                line = line[:at] + chr(source.randrange(1, 256)) + line[at + 1:]
            if not line.split()[:1] or line.split()[0] in ("idle", "limit", "i", "l", "q"):
                continue
            end = time.monotonic() + 0.02  # then comes Ctrl-C
            talk.driver.wants_stop = lambda: time.monotonic() > end
            self.assertNotIn("fault of bin/wb", "\n".join(talk(line.strip())), line)
            talk.driver.wants_stop = lambda: False
            if talk.driver.position > 200_000:
                talk("goto 100")
        self.assertRegex(talk("goto 10")[-1], "step 10, ")


class Views(unittest.TestCase):
    def test_memory(self) -> None:
        talk = Talk("exceptions", log=False)
        self.assertEqual(talk("goto 89", "mem 0x80001000 5")[1:], [
            "0x80001000: 0x00000020 0xbfc0003c 0x00000000 0x00000030  | ...<.......0...|", "0x80001010: 0xbfc00048  |H...|"])
        self.assertEqual(talk("goto 34", "cp0")[-2:], [
            "kernel mode, interrupts off", "the last exception: system call, at 0xbfc0003c <copy+0x28>"])
        talk.driver.close()

    def test_processor(self) -> None:
        talk = Talk("load-slot", log=False)
        said = talk("goto 2", "regs")
        self.assertEqual(said[1], "pc 0xbfc00008  next 0xbfc0000c  hi 0x00000000  lo 0x00000000  r2 will be 0x00000005")
        self.assertEqual(said[2], " r0 zero 0x00000000   r1 at   0xa0000000   r2 v0   0x00000000   r3 v1   0x00000000")
        self.assertEqual(talk("reg at", "reg 1", "reg r1", "print $at"), [
            *["at = 0xa0000000  2,684,354,560"] * 3, "$at = 0xa0000000  2,684,354,560"])
        self.assertEqual(talk("dis 0xbfc00000 2", "dis pc 1"), [
            "   0xbfc00000: 0x3c01a000  lui r1, 0xa000", "   0xbfc00004: 0x8c220100  lw r2, 256(r1)",
            "=> 0xbfc00008: 0x00401821  addu r3, r2, r0"])
        self.assertEqual(talk("where 0x80000010"), ["0x80000010: physical 0x00000010, cached"])
        self.assertEqual(talk("where 0xc0000000"), ["0xc0000000: its translation entry is missing or not valid"])
        talk.driver.close()

    def test_pages(self) -> None:
        """Memory of a user program, whose pages are mapped as it touches them."""
        talk = Talk("user-mode", log=False)
        self.assertEqual(talk("visit 0x00400000"), ["step 8, 0x00400000: no instruction can be fetched here"])
        self.assertRegex(talk("dis")[0], "0x00400000 leads nowhere at this position: no translation entry has its page")
        said = talk("goto 1000", "dis 0x00400ffc 1", "mem 0x00400ff8 4", "writer 0x00500000")
        self.assertEqual(said[1:3], ["   0x00400ffc: 0x00000000  sll r0, r0, 0", "0x00400ff8: 0x00000000 0x00000000  |........|"])
        self.assertRegex(said[3], "0x00401000 leads nowhere")
        self.assertRegex(said[4], r"0x00400008, 970 steps ago: sw r9, 0\(r8\)")
        self.assertRegex(talk("dis 0xbfc3fff8 3")[-1], "0xbfc40000 leads to the physical address 0x1fc40000, where no memory is")
        talk.driver.close()

    def test_numbers(self) -> None:
        talk = Talk("echo")
        for text, wanted in (("4,096", 4096), ("0x10+2-1", 17), ("'a'", 97), ("'\\r'", 13), ("loop+0x4", 0xBFC0_1004),
                             ("&loop", 0xBFC0_1000), ("pc", 0xBFC0_0000), ("$pc+pos", 0xBFC0_0000), ("prid", 0x220),
                             ("$status", 0x40_0000)):
            self.assertEqual(expressions.number(text, talk.driver, talk.session.symbols), wanted, text)
        for text in ("", "+", "loop+", "$loop", "&pc", "0x", "1 2", "12ab", "'"):
            with self.assertRaises(Problem):
                expressions.number(text, talk.driver, talk.session.symbols)
        self.assertEqual([distance(it, 5) for it in (3, 4, 5, 6, 1005)],
                         ["2 steps ago", "1 step ago", "now", "1 step ahead", "1,000 steps ahead"])
        talk.driver.close()


class Help(unittest.TestCase):
    def test_help(self) -> None:
        """Each command of the workbench is there, and each command has its line."""
        talk = Talk("echo")
        said = "\n".join(talk("help"))
        for name in ("pos goto step back visit regs reg cp0 tlb where mem dis console find writer log add del set move patch quit "
                     "break watch continue reverse-continue type expect save-log save-image undo").split():
            self.assertRegex(said, rf"(?m)^  {name}( |$)")
        self.assertEqual(talk("help continue"), ["continue [N]: goes on to the next breakpoint or watch, at most N steps (short: c)",
                                                 "example: continue 1,000"])
        self.assertRegex(talk("help numbers")[0], "Wherever a number may stand")
        self.assertEqual(talk("", "# a comment"), [])
        talk.driver.close()

    def test_help_of_each_command_has_an_example_that_runs(self) -> None:
        """Each is run at a position where all that it names is there, with a stop and, for `undo` and `compare`, an edit before it."""
        self.assertEqual([line.split()[0] for line in EXAMPLES.values()], list(EXAMPLES))
        self.assertEqual(set(EXAMPLES), set(COMMANDS))
        positions = {"visit": 0, "continue": 0, "until": 0, "expect": 0, "type": 0, "assert": 5_000, "shrink": 130_000}
        lines: list[str] = []
        for name, line in EXAMPLES.items():
            is_edited = name in ("undo", "compare")
            lines += [*(["add 50 1 0"] if is_edited else []), "delete", "break send", f"goto {positions.get(name, 112_000)}", line]
            if name == "compare" or COMMANDS[name].edits and name not in ("load", "wb"):
                lines.append("undo")
        with tempfile.TemporaryDirectory() as folder:
            shutil.copytree(ROOT / "examples/login", folder, dirs_exist_ok=True)
            done = shell("--strict", "--echo", "--log", str(ROOT / "examples/login/log"), "login.elf", lines=tuple(lines), folder=Path(folder))
        self.assertEqual((done.returncode, done.stderr), (0, ""), done.stdout[-1000:])


class Repeats(unittest.TestCase):
    def test_empty_line_repeats_moves_and_nothing_else(self) -> None:
        """On a terminal, as in gdb: step 10 twice, back once and again, and after `pos` nothing."""
        terminal = Terminal("shell", str(ROOT / "examples/login/login.elf"))
        self.addCleanup(terminal.leave, b"quit\n")
        terminal.until(b"wb 0> ")
        for line, position in ((b"step 10", 10), (b"", 20), (b"si", 21), (b"", 22), (b"back 2", 20), (b"", 18), (b"pos", 18), (b"", 18),
                               (b"break send", 18), (b"", 18), (b"c", 140), (b"", 157), (b"rc", 140), (b"", 0)):
            terminal.type(line + b"\n")
            shown = terminal.until(b"> ")
            while b"wb " not in shown:  # a name ends with > too
                shown = terminal.until(b"> ")
            self.assertTrue(shown.endswith(f"wb {position}> ".encode()), (line, shown))


if __name__ == "__main__":
    unittest.main()
