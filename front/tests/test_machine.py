"""The library: what `until` finds is compared with a look at each position, and another past with a machine that is booted with it."""
from __future__ import annotations

import copy
import os
import random
import signal
import subprocess
import sys
import tempfile
import threading
import unittest
from contextlib import nullcontext
from dataclasses import replace
from pathlib import Path
from typing import Callable, Iterable, Optional
from unittest import mock

import bezhakkom
from bezhakkom import Ended, Event, Kind, Machine, NotReached, Problem, Refused
from front.tests.support import DATA, ROOT, random_rom

LOGIN = ROOT / "examples/login/login.elf"
TYPED = ROOT / "examples/login/log"
ECHO = ROOT / "examples/echo/boot.s"

STEPS = 400  # of a random program that are looked at


class Until(unittest.TestCase):
    """On random programs, against all positions one by one."""

    def setUp(self) -> None:
        self.source = random.Random(7)
        folder = tempfile.TemporaryDirectory()
        self.addCleanup(folder.cleanup)
        self.folder = folder.name

    def machines(self, count: int) -> Iterable[Machine]:
        for number in range(count):
            file = Path(self.folder, f"{number}.rom")
            file.write_bytes(b"".join(word.to_bytes(4, "little") for word in random_rom(self.source)))
            with bezhakkom.boot(file) as machine:
                yield machine

    def look(self, machine: Machine, first: int, holds: Callable[[], bool]) -> Optional[int]:
        """The least position from one on, up to STEPS, at which something holds."""
        for position in range(first, STEPS + 1):
            machine.goto(position)
            if holds():
                return position
        return None

    def check(self, machine: Machine, here: int, wanted: Optional[int], until: Callable[[], int]) -> None:
        machine.goto(here)
        if wanted is None:
            self.assertRaises(NotReached, until)
            self.assertEqual(machine.position, here)
        else:
            self.assertEqual((until(), machine.position), (wanted, wanted))

    def test_pc(self) -> None:
        for machine in self.machines(6):
            here, pc = self.source.randrange(STEPS), 0xBFC0_0000 + 4 * self.source.randrange(40)
            wanted = self.look(machine, here + 1, lambda: machine.registers["pc"] == pc)
            self.check(machine, here, wanted, lambda: machine.until(pc=pc, steps=STEPS - here))

    def test_word(self) -> None:
        place = 0xA000_0000 + DATA
        for machine in self.machines(6):
            here = self.source.randrange(STEPS // 2)
            machine.goto(here)
            before = machine.memory[place]
            for value, holds in ((None, lambda word: word != before), (3, lambda word: word == 3), (before, lambda word: True),
                                 (lambda word: word & 1 == 1, lambda word: word & 1 == 1)):
                wanted = self.look(machine, here, lambda: holds(machine.memory[place]))
                self.check(machine, here, wanted, lambda: machine.until(word=place, value=value, steps=STEPS - here))

    def test_console(self) -> None:
        """The greeting, sent byte by byte: right after its last one the line has sent it."""
        with bezhakkom.boot(LOGIN) as machine:
            for here, text in ((0, "pass"), (0, "password: "), (60, "word"), (350, "d: ")):
                machine.goto(here)
                sent = len(machine.console())
                wanted = self.look(machine, here, lambda: text in machine.console()[sent:])
                self.check(machine, here, wanted, lambda: machine.until(console=text, steps=STEPS - here))

    def test_a_run_that_ends_elsewhere(self) -> None:
        """Without a number of steps, it is seen that nothing can come."""
        with bezhakkom.boot(LOGIN) as machine:
            for until, why in ((lambda: machine.until(console="Welcome"), "line 0 did not send 'Welcome': at step "),
                               (lambda: machine.until(pc=0x8000_0000), "the run does not come to 0x80000000: from step "),
                               (lambda: machine.until(word="session", value=1), "does not become 0x1: from step ")):
                with self.assertRaises(AssertionError) as caught:
                    until()
                self.assertIn(why, str(caught.exception))
                self.assertIn("waits for a byte, and the log has no more", str(caught.exception))
                self.assertEqual(machine.position, 0)


class Holds(unittest.TestCase):
    def test_a_machine(self) -> None:
        """C says where the parts of `session` stand: 9 bytes, 23 and a word."""
        with bezhakkom.boot(str(LOGIN), log=TYPED) as machine:
            machine.until(console="Sorry")
            memory = machine.memory
            self.assertEqual(memory.text("session"), "operatorsesame")  # up to the next 0
            self.assertEqual((memory["session":"session+4"], memory.read("session", 4), memory.text("session", 4)),
                             (b"oper", b"oper", "oper"))
            self.assertEqual(memory["session"], int.from_bytes(b"oper", "little"))
            self.assertEqual(memory.words("session", 2), [int.from_bytes(it, "little") for it in (b"oper", b"ator")])
            self.assertEqual(memory["session+0x20"], machine.value("[session+0x20]"))
            self.assertEqual(memory[machine.address("session")], memory["session"])
            registers = machine.registers
            for name in ("sp", "r29", "s8", "fp", "next", "hi", "lo", "epc", "status"):
                self.assertEqual(registers[name], machine.value(name), name)
            self.assertEqual(registers["pc"], machine.next_step().pc)
            step = machine.writer("session+0x20")
            assert step
            self.assertEqual(step.place.partition("+")[0], "read_line")
            self.assertRegex(step.source, r"^login\.c:\d+$")
            machine.goto(step.number)
            self.assertEqual(machine.next_step(), step)
            before = memory["session+0x20"]
            machine.step()
            self.assertNotEqual(memory["session+0x20"], before)
            self.assertIsNone(machine.writer(0xBFC0_0000))

    def test_what_is_wrong_is_told(self) -> None:
        with bezhakkom.boot(LOGIN) as machine:
            machine.until(console="password: ")
            here, log = machine.position, machine.log
            for wrong, why in (
                    (lambda: machine.delete(3), "there is no event 3: the log is empty"),
                    (lambda: machine.goto(-1), "`position` is 0 to 1,099,511,627,775, and not -1"),
                    (lambda: machine.step(-1000), "a position is 0 to"),
                    (lambda: machine.memory["nothing"], "there is no symbol and no register nothing"),
                    (lambda: machine.memory[0x8000_0001], "0x80000001 is no multiple of 4"),
                    (lambda: machine.memory["session":], "memory[first:end]"),
                    (lambda: machine.memory.read(0x807F_FFFE, 4), "0x80800000 leads to the physical address 0x00800000, where no memory"),
                    (lambda: machine.send(""), "there is nothing to send"),
                    (lambda: machine.send("\ud800"), r"`text` has '\ud800', which is no character of UTF-8"),
                    (lambda: machine.send("a", line=4), "there is no line 4"),
                    (lambda: machine.console(-1), "there is no line -1"),
                    (lambda: machine.arrive(5, "ab"), "`value` is one byte, and 'ab' is 2 bytes"),
                    (lambda: machine.arrive(5, "\u00e4"), "`value` is one byte, and '\u00e4' is 2 bytes in UTF-8"),
                    (lambda: machine.arrive(5, 256), "a byte is 0 to 255"),
                    (lambda: machine.patch("session", 1 << 32), "0x100000000 is no word"),
                    (lambda: machine.until(), "takes one of console, pc, word, position"),
                    (lambda: machine.until(pc=0, word=0), "takes one of"),
                    (lambda: machine.until(position=3), "position 3 is not ahead: this is 355"),
                    (lambda: machine.until(position=900, steps=9), "position 900 is more than 9 steps ahead"),
                    (lambda: setattr(machine, "log", [Event(5, 0, 1), Event(4, 0, 1)]), "event 1 is at step 4, after one at 5"),
                    (lambda: machine.what_if(without=[0]).__enter__(), "there is no event 0: the log has 0 events"),
                    (lambda: bezhakkom.boot([]), "there is no file to boot"),
                    (lambda: bezhakkom.boot("/none"), "there is no file /none"),
                    (lambda: bezhakkom.boot(TYPED), "is a log, no image"),
                    (lambda: bezhakkom.boot(LOGIN, unit=0), "--unit wants a number from 1 to 65,535"),
                    (lambda: bezhakkom.events("5 0 x"), "the log:1: '5 0 x' is not of the form")):
                with self.assertRaises(Problem) as caught:
                    wrong()
                self.assertIn(why, str(caught.exception))
                self.assertEqual((machine.position, machine.log), (here, log))

    def test_results_set_by_a_program_are_refused(self) -> None:
        with bezhakkom.boot(LOGIN) as machine:
            registers, devices = machine.registers, machine.devices
            for wrong in (lambda: registers.__setitem__("t0", 7), lambda: registers.__delitem__("t0"), lambda: registers.update(t0=7),
                          lambda: registers.setdefault("t99", 7), lambda: devices.__setitem__("board", 7),
                          lambda: devices["board"].__setitem__("csr", 7), lambda: machine.memory.__setitem__("session", 7)):
                with self.assertRaisesRegex(Problem, "is a result of its run and can't be set.*`patch` sets a word of the image") as caught:
                    wrong()
                self.assertIsInstance(caught.exception, TypeError)
            self.assertEqual(machine.registers["t0"], copy.deepcopy(registers)["t0"])
            self.assertIs(type(copy.copy(registers)), dict)
            with self.assertRaises(AttributeError):
                registers.t0 = 7

    def test_text_sent_is_utf8_as_in_the_shell_and_bytes_stay(self) -> None:
        """The bytes of the characters are those of the Unicode standard's table of UTF-8."""
        said = subprocess.run([ROOT / "bin/wb", "shell", ECHO], input="type '\u00e4\u00f6\u20ac'\nwb log 0 9\n", capture_output=True,
                              encoding="utf-8").stdout
        of_shell = [int(it.split()[3], 16) for it in said.splitlines()[2:]]
        with bezhakkom.boot(ECHO) as machine:
            machine.send("\u00e4\u00f6\u20ac")
            self.assertEqual([it.byte for it in machine.log], [0xC3, 0xA4, 0xC3, 0xB6, 0xE2, 0x82, 0xAC])
            self.assertEqual([it.byte for it in machine.log], of_shell)
            machine.log = ()
            machine.send(b"\xe4\xff")
            self.assertEqual([it.byte for it in machine.log], [0xE4, 0xFF])

    def test_console_shows_utf8_and_has_bytes(self) -> None:
        """The echo program sends back what it receives."""
        with bezhakkom.boot(ECHO, log=bezhakkom.events("100 0 '\\xc3\\xa4\\xff' 1000")) as machine:
            machine.until(console="\u00e4")
            self.assertEqual(machine.sent()[-2:], b"\xc3\xa4")
            machine.until(console=b"\xff")
            self.assertEqual((machine.console(), machine.sent()), ("\u00e4\\xff", b"\xc3\xa4\xff"))

    def test_a_call_after_close_is_refused(self) -> None:
        machine = bezhakkom.boot(LOGIN, log=TYPED)
        machine.goto(9)
        machine.close()
        machine.close()
        arguments = {"goto": (5,), "value": ("pc",), "address": ("pc",), "writer": ("sp",), "stores": ("sp",), "hits": ("main",),
                     "send": ("a",), "arrive": (5, 1), "delete": (0,), "change": (0, 1), "move": (0, 1), "erase": (0, 9),
                     "patch": (0xBFC0_0000, 0), "causes": ("pc",), "futures": (0,), "shrink": ("pc main",), "fuzz": (0, "pc main"),
                     "compare": ((),), "when": ("session == 0",), "why": ("pc",), "save_log": ("/none/x",), "words": (0, 1),
                     "read": (0, 1), "text": (0,), "until": ()}

        def call(holder: object, name: str) -> None:
            found = getattr(holder, name)
            found = found(*arguments.get(name, ()), **({"pc": 0} if name == "until" else {}))
            if hasattr(found, "__enter__"):
                found.__enter__()

        public = [(holder, name) for holder in (machine, machine.memory) for name in dir(type(holder))
                  if not name.startswith("_") and name != "close"]
        self.assertGreater(len(public), 35)
        for holder, name in public:
            with self.subTest(name), self.assertRaisesRegex(Problem, "the machine is closed: `boot` starts another one"):
                call(holder, name)
        for other in (lambda: setattr(machine, "log", ()), lambda: machine.memory[0]):
            with self.assertRaisesRegex(Problem, "the machine is closed"):
                other()
        self.assertIsNone(machine._session.driver._program)
        self.assertEqual(repr(machine), f"<Machine {LOGIN} that is closed>")

    def test_arguments_of_another_type_or_range_name_the_parameter(self) -> None:
        with bezhakkom.boot(LOGIN, log=TYPED) as machine:
            before = machine.position, machine.log
            for call, name in ((lambda: machine.goto("ticks"), "position"), (lambda: machine.goto(1.5), "position"),
                    (lambda: machine.goto(None), "position"), (lambda: machine.step("1"), "steps"),
                    (lambda: machine.memory.words("session", -1), "count"),
                    (lambda: machine.memory.read("session", 1.5), "count"),
                    (lambda: machine.memory.text("session", "9"), "most"), (lambda: machine.memory[1.5], "place"),
                    (lambda: machine.memory[None], "place"), (lambda: machine.memory["":"9"], "first"),
                    (lambda: machine.arrive(5, 1, kind=7), "kind"), (lambda: machine.arrive("5", 1), "step"),
                    (lambda: machine.arrive(5, None), "value"), (lambda: machine.arrive(5, 1, line="x"), "line"),
                    (lambda: machine.causes(""), "what"), (lambda: machine.causes(5), "what"),
                    (lambda: machine.causes("pc", by="set"), "by"), (lambda: machine.causes("pc", by=["x"]), "by"),
                    (lambda: machine.causes("pc", values=-1), "values"), (lambda: machine.why(""), "what"),
                    (lambda: machine.why(None), "what"), (lambda: machine.shrink(" "), "until"),
                    (lambda: machine.shrink("pc main", at="x"), "at"), (lambda: machine.when(""), "condition"),
                    (lambda: machine.until(word="session", value="six"), "value"),
                    (lambda: machine.until(pc="main", value=6), "value"), (lambda: machine.until(pc=1.5), "pc"),
                    (lambda: machine.until(console=5), "console"), (lambda: machine.until(pc="main", steps=-5), "steps"),
                    (lambda: machine.until(position="5"), "position"), (lambda: machine.send(1.5), "text"),
                    (lambda: machine.send("a", gap=-5), "gap"), (lambda: machine.send("a", line="0"), "line"),
                    (lambda: machine.console("0"), "line"), (lambda: machine.sent(1.5), "line"),
                    (lambda: machine.stores("session", None), "most"), (lambda: machine.trace("5"), "steps"),
                    (lambda: machine.trace(10 ** 9), "steps"), (lambda: machine.hits(1.5), "place"), (lambda: machine.exceptions(7), "kind"),
                    (lambda: machine.hits(None), "place"), (lambda: machine.value(5), "text"),
                    (lambda: machine.delete("x"), "event"), (lambda: machine.change(0, 1.5), "value"),
                    (lambda: machine.move(0, "x"), "step"), (lambda: machine.erase(None, 5), "first"),
                    (lambda: machine.patch("session", "x"), "word"),
                    (lambda: machine.what_if(without=0).__enter__(), "without"),
                    (lambda: machine.what_if(without=["0"]).__enter__(), "without"),
                    (lambda: machine.what_if(changed={0: "ab"}).__enter__(), "changed"),
                    (lambda: machine.what_if(changed=[0]).__enter__(), "changed"),
                    (lambda: machine.what_if(moved={0: 1.5}).__enter__(), "moved"),
                    (lambda: machine.what_if(log="x").__enter__(), "log"), (lambda: machine.futures("0"), "event"),
                    (lambda: machine.futures(0, values=["a"]), "values"), (lambda: machine.futures(0, steps="5"), "steps"),
                    (lambda: machine.futures(0, show="session"), "show"), (lambda: machine.fuzz("0", "pc main"), "first"),
                    (lambda: machine.fuzz(0, "pc main", seed="x"), "seed"), (lambda: machine.compare([5]), "log"),
                    (lambda: setattr(machine, "log", [5]), "log"), (lambda: setattr(machine, "log", [Event("5", 0, 1)]), "log"),
                    (lambda: machine.save_log(5), "name"), (lambda: bezhakkom.boot(5), "files"),
                    (lambda: bezhakkom.boot([5]), "files"), (lambda: bezhakkom.boot(LOGIN, log=5), "log"),
                    (lambda: bezhakkom.boot(LOGIN, symbols=[5]), "symbols"), (lambda: bezhakkom.boot(LOGIN, unit="x"), "unit"),
                    (lambda: bezhakkom.boot(LOGIN, clock=5), "clock"), (lambda: bezhakkom.events(5), "text")):
                with self.assertRaises(Problem) as caught:
                    call()
                self.assertRegex(str(caught.exception), f"^`{name}\\W")
                self.assertEqual((machine.position, machine.log), before)
            with self.assertRaisesRegex(TypeError, "`position` is a whole number, and not 'ticks'. "
                                                   '`until\\(pc="ticks"\\)` goes on to a place'):
                machine.goto("ticks")

    def test_a_refusal_is_one_too(self) -> None:
        with bezhakkom.boot(ECHO) as machine, self.assertRaises(Refused) as caught:
            machine.delete(0)
        self.assertEqual((caught.exception.name, str(caught.exception)), ("NoEvent", "there is no event 0: the log is empty"))

    def test_ctrl_c_is_that_of_python(self) -> None:
        with bezhakkom.boot(LOGIN) as machine:
            machine.driver.wants_stop = lambda: True  # as if it was pressed
            self.assertRaises(KeyboardInterrupt, lambda: machine.until(console="Welcome"))
            machine.driver.wants_stop = lambda: False
            self.assertEqual(machine.until(console="password: "), 355)


class Past(unittest.TestCase):
    def state(self, machine: Machine, position: int) -> tuple:
        machine.goto(position)
        return machine.console(), dict(machine.registers), machine.memory.read("session", 0x24)

    def test_other_pasts_are_those_of_fresh_machines(self) -> None:
        log = bezhakkom.events("20000 0 'x\\b\\bsesame\\r' 10000")
        source = random.Random(3)
        with bezhakkom.boot(LOGIN, log=log) as machine:
            self.assertEqual(machine.log, log)
            before = self.state(machine, 150_000)
            for _ in range(8):
                without = set(source.sample(range(len(log)), source.randrange(3)))
                changed = {source.randrange(len(log)): source.choice([0x41, "s", b"\r"])}
                moved = {source.randrange(len(log)): source.randrange(150_000)}
                made = []
                for number, event in enumerate(log):
                    byte = changed.get(number, event.byte)
                    made.append(replace(event, byte=byte if isinstance(byte, int) else ord(byte), time=moved.get(number, event.time)))
                fresh = sorted((it for number, it in enumerate(made) if number not in without), key=lambda it: it.time)
                with bezhakkom.boot(LOGIN, log=fresh) as other:
                    wanted = self.state(other, 150_000)
                here = machine.goto(source.randrange(200_000))
                with machine.what_if(without=without, changed=changed, moved=moved):
                    self.assertEqual(machine.position, here)
                    self.assertEqual(self.state(machine, 150_000), wanted)
                self.assertEqual((machine.position, machine.log), (here, log))
                self.assertEqual(self.state(machine, 150_000), before)

    def test_one_event_after_another_in_a_step(self) -> None:
        """Event 1 is moved to the step of event 0, where it comes after it, as the command `move` has it."""
        with bezhakkom.boot(ECHO, log=[Event(5, 0, 65), Event(9, 0, 66), Event(9, 0, 67)]) as machine:
            with machine.what_if(moved={1: 5}):
                by_what_if = machine.log
            machine.move(1, 5)
            self.assertEqual(by_what_if, machine.log)

    def test_edits_are_taken_back(self) -> None:
        with bezhakkom.boot(LOGIN, log=TYPED) as machine:
            first, log = machine.memory["session"], machine.log
            start = machine.memory[0xBFC0_0000]
            with self.assertRaises(ZeroDivisionError):
                with machine.edits():
                    machine.patch(0xBFC0_0000, 0)
                    machine.delete(2)
                    machine.change(0, "y")
                    machine.move(1, 25_000)
                    machine.erase(40_000, 60_000)
                    machine.arrive(7, 1, line=2, kind=Kind.WIRE)
                    machine.arrive(8, "z", kind=Kind.FRAMING)
                    with machine.edits():
                        machine.log = ()
                        machine.goto(9)
                    self.assertEqual([(it.time, it.line, it.byte, it.kind) for it in machine.log[:4]],
                                     [(7, 2, 1, Kind.WIRE), (8, 0, 0x7A, Kind.FRAMING), (20_000, 0, 0x79, 0), (25_000, 0, 8, 0)])
                    self.assertEqual((len(machine.log), machine.memory[0xBFC0_0000], machine.position), (10, 0, 0))
                    raise ZeroDivisionError
            self.assertEqual((machine.memory["session"], machine.memory[0xBFC0_0000], machine.log), (first, start, log))

    def test_what_if_whose_program_dies_restores_all(self) -> None:
        """Whether the death is seen within it, or only at its end."""
        with bezhakkom.boot(LOGIN, log=TYPED) as machine:
            before = self.state(machine, 150_000)
            log = machine.log
            for asked in (False, True):
                with self.assertRaises(bezhakkom.Ended) if asked else nullcontext():
                    with machine.what_if(without=[0]):
                        machine.patch(0xBFC0_0000, 0)
                        machine.goto(70_000)
                        self.assertEqual(len(machine.log), 9)
                        machine.registers
                        os.kill(machine.driver._program._process.pid, signal.SIGKILL)
                        machine.driver._program._process.wait()
                        if asked:
                            machine.registers
                self.assertEqual((machine.position, machine.log, machine.driver.patches), (150_000, log, []))
                self.assertEqual(self.state(machine, 150_000), before)

    def test_causes_whose_program_dies_restores_all(self) -> None:
        with bezhakkom.boot(LOGIN, log=TYPED) as machine:
            log = machine.log
            machine.goto(130_000)
            program = machine.driver._started()
            with mock.patch.object(program, "_take", side_effect=Ended("the program was ended by SIGKILL")), self.assertRaises(Ended):
                machine.causes("session+0x20")
            self.assertEqual((machine.position, machine.log), (130_000, log))

    def test_what_is_sent_goes_on(self) -> None:
        """As in the shell: bytes that are sent before the last ones have arrived come after these."""
        with bezhakkom.boot(LOGIN) as machine:
            machine.until(console="password: ")
            self.assertEqual(machine.send("ses"), range(355, 2356, 1000))
            with machine.edits():
                self.assertEqual(machine.send("am"), range(3355, 4356, 1000))
            self.assertEqual(machine.send(b"ame\r", gap=500), range(3355, 4856, 500))
            machine.until(console="Welcome, operator.")


class Shared(unittest.TestCase):
    """One machine in several threads, and in a fork."""

    def test_answers_in_threads_are_those_of_one_thread(self) -> None:
        positions = range(0, 60_000, 601)
        with bezhakkom.boot(LOGIN, log=TYPED) as machine:
            wanted = {position: (machine.goto(position), machine.registers, machine.console())[1:] for position in positions}
            wrong: list[object] = []

            def ask(seed: int) -> None:
                source = random.Random(seed)
                try:
                    for _ in range(60):
                        position = source.choice(positions)
                        with machine.alone():
                            machine.goto(position)
                            if (machine.registers, machine.console()) != wanted[position]:
                                wrong.append(position)
                        with machine.what_if(without=[0]) as other:
                            if len(other.log) != 9:
                                wrong.append("log")
                        if len(machine.log) != 10 or machine.value("[0xbfc00000]") != wanted_word:
                            wrong.append("call")
                except BaseException as error:
                    wrong.append(error)

            wanted_word = machine.memory[0xBFC0_0000]
            threads = [threading.Thread(target=ask, args=(seed,)) for seed in range(3)]
            for it in threads:
                it.start()
            for it in threads:
                it.join()
            self.assertEqual(wrong, [])

    def test_a_call_in_a_fork_is_refused_and_the_machine_lives_on(self) -> None:
        # In a process of its own, since the end of the fork runs all finalizers that it shares.
        script = """
import os, sys, bezhakkom
machine = bezhakkom.boot(sys.argv[1])
program = machine.driver._program
child = os.fork()
if not child:
    try:
        machine.console()
    except bezhakkom.Problem as problem:
        print(problem, flush=True)
    machine.close()
    sys.exit()
os.waitpid(child, 0)
print(os.getpid(), machine.until(console="password: "), machine.driver._program is program)
"""
        done = subprocess.run([sys.executable, "-c", script, str(LOGIN)], env={**os.environ, "PYTHONPATH": str(ROOT / "front")},
                              stdout=subprocess.PIPE, text=True, check=True)
        refused, lives = done.stdout.splitlines()
        process, _, rest = lives.partition(" ")
        self.assertEqual(refused, f"this machine belongs to process {process}, of which this one is a fork: boot another machine here")
        self.assertEqual(rest, "355 True")


class WhatIf(unittest.TestCase):
    """The methods over many pasts, on the login program, against pasts that are looked at one by one."""

    def setUp(self) -> None:
        self.machine = bezhakkom.boot(LOGIN, log=TYPED)
        self.addCleanup(self.machine.close)
        self.machine.goto(130_000)
        self.before = (self.machine.position, self.machine.log)
        self.addCleanup(lambda: self.assertEqual((self.machine.position, self.machine.log), self.before))

    def console(self, **past: object) -> str:
        with self.machine.what_if(**past) as machine:  # type: ignore[arg-type]
            return machine.console()

    def test_causes(self) -> None:
        found = self.machine.causes("console", by=("del",))
        now = self.machine.console()
        self.assertEqual(found.by_being_there, [it for it in range(10) if self.console(without=[it]) != now])
        self.assertEqual(found.by_value, [])

    def test_futures(self) -> None:
        """Pasts of one group have sent the same."""
        found = self.machine.futures(2, values=[7, 8, 9, 0x41, 0x73], without=True)
        groups = [[self.console(without=[2]) if kind == "out" else self.console(changed={2: value}) for kind, value in group]
                  for group in found.outcomes.values()]
        self.assertEqual(sum(map(len, groups)), 6)
        self.assertEqual([len(set(it)) for it in groups], [1] * len(groups))
        self.assertEqual(len({it[0] for it in groups}), len(groups))

    def test_shrink(self) -> None:
        """Without any one of its events the text does not come."""
        found = self.machine.shrink("console 'esame.'")
        self.assertIn("esame.", self.console(log=found.log))
        for left_out in range(len(found.log)):
            self.assertNotIn("esame.", self.console(log=found.log, without=[left_out]))

    def test_compare(self) -> None:
        other = self.machine.log[1:]
        (sent,) = self.machine.compare(other).sent
        here, there = self.machine.console(), self.console(log=other)
        place = next(at for at, (one, two) in enumerate(zip(here, there)) if one != two)
        self.assertEqual((sent.line, sent.place, sent.here[0], sent.there[0]), (0, place, ord(here[place]), ord(there[place])))

    def test_fuzz(self) -> None:
        """Without its backspaces the log does not make the length -1. Others do, and the log that is found does it at its position."""
        with self.machine.what_if(without=[0, 1, 2]):
            found = self.machine.fuzz(15_000, "word session+0x20 == 0xffffffff", seed=2, tries=150)
            self.assertEqual(self.machine.fuzz(15_000, "word session+0x20 == 0xffffffff", seed=2, tries=150), found)
            self.assertIsNone(self.machine.fuzz(15_000, "word session+0x20 == 0xffffffff", at=15_500, tries=70).log)
        assert found.shrunk
        self.assertTrue(any(it.byte == 8 for it in found.shrunk.log))
        with self.machine.what_if(log=found.shrunk.log) as machine:
            machine.goto(0)
            self.assertEqual(machine.until(word="session+0x20", value=0xFFFF_FFFF), found.shrunk.position)

    def test_when(self) -> None:
        found = self.machine.when("session+0x20 == 3").position
        with self.machine.edits():
            self.machine.goto(0)
            self.assertEqual(self.machine.until(word="session+0x20", value=3), found)

    def test_what_is_wrong_is_told(self) -> None:
        for wrong, why in ((lambda: self.machine.causes("nothing"), "there is no symbol and no register nothing"),
                           (lambda: self.machine.futures(10), "there is no event 10: the log has 10 events"),
                           (lambda: self.machine.shrink("pc"), "`pc` is no condition"),
                           (lambda: self.machine.fuzz(5, "pc main", at=5), "nothing is run from step 5 to step 5: "),
                           (lambda: self.machine.fuzz(120_000, "pc main"), "the log has no event from step 120,000 on"),
                           (lambda: self.machine.when("session"), "a word is compared by")):
            with self.assertRaises(Problem) as caught:
                wrong()
            self.assertIn(why, str(caught.exception))


class Boots(unittest.TestCase):
    def test_a_program_that_answers_garbage_is_a_problem(self) -> None:
        """From its start on, or later."""
        with tempfile.TemporaryDirectory() as folder:
            program = Path(folder, "garbage")
            for last in ("'garbage'", "'error'"):
                for good in 0, 1:
                    program.write_text(f"#!{sys.executable}\nimport sys\nfor line in sys.stdin.buffer:\n"
                                       f"    print('pos 0' if line[:4] == b'goto' or {good} and line == b'pos\\n' else {last}, "
                                       "flush=True)\n")
                    program.chmod(0o755)
                    image = Path(folder, "i.rom")
                    image.write_bytes(bytes(4))
                    wrong = self.assertRaisesRegex(Problem, "is no reply of the program")
                    with mock.patch.dict(os.environ, WB_PROGRAM=str(program)), wrong:
                        with bezhakkom.boot(image) as machine:
                            for ask in (lambda: machine.registers, lambda: machine.memory[0xA000_0000], machine.console, machine.sent,
                                        machine.next_step, lambda: machine.devices, lambda: machine.writer(0xA000_0000), machine.trace):
                                self.assertRaises(Problem, ask)
                            machine.registers

    def test_several_files(self) -> None:
        """An ELF, and bytes at an address beside it; the options are put on the whole."""
        with tempfile.TemporaryDirectory() as folder:
            Path(folder, "disk").write_bytes(b"content.")
            with bezhakkom.boot([LOGIN, f"{folder}/disk@0x80400000"], unit=3, byte_time=9, clock="96-02-28 23:59:58") as machine:
                self.assertEqual(machine.memory.text(0x8040_0000, 8), "content.")
                self.assertEqual(machine.driver.boot().constants()[:2], (9, 3))
                machine.until(pc="read_line")

    def test_a_session_of_the_shell(self) -> None:
        with tempfile.TemporaryDirectory() as folder:
            name = f"{folder}/saved"
            script = f"del 2\ngoto 40,024\nsave {name} whole\n"
            words = [ROOT / "bin/wb", "shell", "--log", TYPED, LOGIN]
            subprocess.run(words, input=script, text=True, stdout=subprocess.DEVNULL, check=True)
            with bezhakkom.boot(name) as machine:
                self.assertEqual((machine.position, len(machine.log)), (40_024, 9))
                machine.until(console="Welcome, operator.")
                machine.save_log(f"{folder}/log")
                with bezhakkom.boot(LOGIN, log=f"{folder}/log") as other:
                    self.assertEqual(other.log, machine.log)
            with self.assertRaises(Problem) as caught:
                bezhakkom.boot(name, log=TYPED)
            self.assertIn("has its own log", str(caught.exception))

    def test_the_package_has_what_it_says(self) -> None:
        for name in bezhakkom.__all__:
            self.assertTrue(callable(getattr(bezhakkom, name)), name)
        with self.assertRaises(AttributeError):
            getattr(bezhakkom, "nothing")

    def test_the_module_is_a_command(self) -> None:
        done = subprocess.run([sys.executable, "-m", "bezhakkom", "log", "show", TYPED], capture_output=True, text=True,
                              env={**os.environ, "PYTHONPATH": str(ROOT / "front")})
        self.assertEqual((done.stdout, done.stderr, done.returncode), ("20000 0 'x\\b\\bsesame\\r' 10000\n", "", 0))


if __name__ == "__main__":
    unittest.main()
