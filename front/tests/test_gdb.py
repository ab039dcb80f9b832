"""gdb itself on the stub, over the examples.

The positions and values were counted by hand (examples/*/README.md), or asked of the plain workbench in bench/plain
for the ROM and log of examples/login; addresses and lines are those of its ELF, as gdb and objdump show them without a
run."""
from __future__ import annotations

import os
import shutil
import signal
import subprocess
import sys
import tempfile
import time
import unittest
from pathlib import Path
from typing import Sequence

from front.tests import debugger
from front.tests.debugger import batch
from front.tests.support import needs_erase
from front.tests.wire import COUNTER

POSITION = 'printf "at %d\\n", $position'


def setUpModule() -> None:
    debugger.needed()


class GdbTest(unittest.TestCase):
    maxDiff = None

    def holds(self, lines: Sequence[str], *expected: str) -> None:
        """The expected lines are among the lines, in their order."""
        rest = iter(lines)
        for line in expected:
            self.assertTrue(any(line == other for other in rest),
                            f"{line!r} is not, or not in its place, in:\n" + "\n".join(lines))


class Login(GdbTest):
    IMAGE, LOG = "login/login.elf", "login/log"

    def batch(self, *commands: str, options: Sequence[str] = ()) -> list[str]:
        return batch(self.IMAGE, *commands, log=self.LOG, options=options)

    def test_breakpoints_both_ways(self) -> None:
        lines = self.batch("break print", *["continue", POSITION] * 3, *["reverse-continue", POSITION] * 3)
        positions = [line for line in lines if line.startswith("at ")]
        self.assertEqual(positions, ["at 127", "at 30029", "at 40029", "at 30029", "at 127", "at 0"])
        self.holds(lines, 'Breakpoint 1, print (text=text@entry=0xbfc0041c "password: ") at login.c:24',
                   "No more reverse-execution history.")

    def test_watches_both_ways(self) -> None:
        lines = self.batch("break main", "continue", "watch session.length", *["continue", POSITION] * 2, "delete 2",
                           "starti 110960",
                           "watch session.user[8]", "reverse-continue", POSITION, "print session.length",
                           "watch session.length",
                           "reverse-continue", POSITION)
        self.holds(lines, "Old value = 0", "New value = 1", "49\t            send('*');", "at 20032", "Old value = 1",
                   "New value = 0", "at 30025",
                   "Old value = 115 's'", "New value = 0 '\\000'", "47\t            session.line[session.length] = c;",
                   "at 50029", "$1 = -1",
                   "Old value = -1", "New value = 0", "44\t            session.length--;", "at 40024")

    def test_conditions_and_several_at_once(self) -> None:
        lines = self.batch("start", "break 48 if session.length == 3", "watch session.user", "break 53",
                           *["continue", POSITION] * 3,
                           *["reverse-continue", POSITION] * 2)
        self.assertEqual([line for line in lines if line.startswith("at ")],
                         ["at 50030", "at 90030", "at 110022", "at 90030", "at 50029"])

    def test_conditions_are_of_the_stub(self) -> None:
        """The positions are those of gdb's own evaluation."""
        commands = ["list main", "break send if c == 10 && $position > 100000", "break 48 if session.length % 2 == 1",
                    "break 53 if session.length < 0",
                    "tbreak print if 1 / session.length > 0", *["continue", POSITION] * 6,
                    *["reverse-continue", POSITION] * 5, "info breakpoints"]
        target = self.batch(*commands)
        host = self.batch("set breakpoint condition-evaluation host", *commands)
        stops = [line for line in target if line.startswith("at ")]
        self.assertEqual(stops, [line for line in host if line.startswith("at ")])
        self.assertGreater(len(set(stops)), 4)
        self.assertEqual(sum("(target evals)" in line for line in target), 3)
        self.holds(target, "Error in testing breakpoint condition:", "Division by zero")

    def test_slots(self) -> None:
        # lui v0, 0xbfe0; lw v0, 0(v0), which gives MSE and TRDY; nop
        lines = self.batch("starti 144", *['printf "%x %d\\n", $pc, $delay', "stepi"] * 2,
                           'printf "%x %d\\n", $pc, $delay',
                           "reverse-stepi",
                           'printf "%x %d\\n", $pc, $delay',
                           "starti 142", 'printf "%x %d %x\\n", $v0, $loadreg, $loadval', "stepi",
                           'printf "%x %d %x\\n", $v0, $loadreg, $loadval')
        self.holds(lines, "bfc001a0 0", "bfc001a4 1", "bfc001a8 0", "bfc001a4 1", "bfe00000 2 8020", "8020 0 0")

    def test_finish_and_back(self) -> None:
        lines = self.batch("break send", "continue", "delete", "finish", POSITION, "reverse-stepi", "reverse-finish",
                           POSITION,
                           "up")
        self.holds(lines, "Breakpoint 1, send (c=112 'p') at login.c:18", "25\t    while (*text)", "at 150", "at 139",
                   "#1  0xbfc003c0 in main () at login.c:69")

    def test_lines_both_ways(self) -> None:
        lines = self.batch("break main", "continue", *["next"] * 4, "step", "reverse-next", "reverse-next",
                           "reverse-step",
                           "tbreak read_line", "continue",
                           "reverse-next", "reverse-next", "next")
        call = "69\t        print(\"password: \");"
        self.holds(lines, "64\t{", "65\t    SERIAL[LPR] = RECEIVER;  /* of line 0 */", "66\t    SERIAL[TCR] = 1;",
                   "67\t    SERIAL[CSR] = MSE;", call,
                   "print (text=text@entry=0xbfc0041c \"password: \") at login.c:24", "main () at login.c:69", call,
                   "67\t    SERIAL[CSR] = MSE;",
                   "66\t    SERIAL[TCR] = 1;", "Temporary breakpoint 2, read_line () at login.c:39",
                   "main () at login.c:70",
                   "70\t        read_line();",
                   call, "password: 70\t        read_line();")

    def test_registers(self) -> None:
        lines = self.batch("starti 40024", "info registers")
        self.holds(
            lines,
            " R0   00000000 00000000 80001000 ffffffff 00000000 80001000 00000000 00000000 ",
            " R8   bfc00470 80001030 80001030 80001030 00000000 00000000 00000000 00000000 ",
            " R24  00000000 00000000 00000000 00000000 00000000 80010fd0 00000000 bfc00274 ",
            "      00400000 00000000 00000000 00000000 00000000 bfc00258 ",
            "      00000000 00000000 ",
            "position: 0x9c58",
            "exception: 0xffffffffffffffff",
            "      bfc0025c 00000000 00000000 00000000 00000000 00001700 00000000 00000000 ",
            "       entryhi      epc     prid",
            "      00000000 00000000 00000220 ")

    def test_wb_print_takes_negative_values(self) -> None:
        lines = self.batch("starti 50029", "wb print session.length", "wb print -1746062932", "wb print session.length-4")
        self.holds(lines, "-1 = 0xffffffff  -1", "-1746062932 = 0x97ed31ac  -1,746,062,932", "-5 = 0xfffffffb  -5")

    def test_an_edit(self) -> None:
        lines = self.batch("continue", "wb del 2", POSITION, "wb goto 0", "continue", POSITION, "wb log 0 3")
        self.holds(lines, "Sorry, operatorsesame.", "9 events left", "at 110960", "step 0, start (start.S:7): lui r29, 0x8001",
                   "Welcome, operator.", "     1: step 30,000, line 0, 0x08, 80,915 steps ago",
                   "     2: step 50,000, line 0, 0x73 's', 60,915 steps ago")

    def test_expressions_in_a_command(self) -> None:
        lines = self.batch("starti 60000", "wb writer &session.length", "wb goto $position-9971",
                           "wb mem session.user+4 1",
                           "frame")
        self.holds(lines, "step 50,031, read_line+0x94 (login.c:48), 9,969 steps ago: sw r3, 32(r4)",
                   "step 50,029, read_line+0x8c (login.c:47): sb r2, 9(r5)", "47\t            session.line[session.length] = c;",
                   "0x80001004 <session+0x4>: 0x726f7461  |ator|")

    def test_what_is_typed_and_expected(self) -> None:
        # The positions are those of docs/USING.md and docs/LIBRARY.md.
        lines = batch(self.IMAGE, "wb expect 'password: '", POSITION, "wb type 'sesame\\r'", "wb exp 'Welcome'", POSITION,
                      "wb expect 'Sorry'", POSITION, "wb undo", "wb undo", "wb expect nothing")
        self.holds(lines, "at 355", "7 bytes for line 0, from step 355 to step 6,355, 1,000 steps apart", "at 6684", "at 6684",
                   "taken back: type 'sesame\\r'", "there is no edit to take back",
                   '[put the text in quotes: expect "nothing"]')
        self.assertRegex("\n".join(lines), r"\[line 0 did not send 'Sorry': at step .* the program waits for a byte")

    def test_a_wrong_word_gets_one_line(self) -> None:
        lines = self.batch("starti 60,000", "wb goto 40,024", POSITION, "wb del 1,2", "wb erase 20,000 30,0", "wb goto",
                           "wb goto nothing", "wb help goto", "wb writer session", "wb writer &session.length",
                           "wb mem p:0x1000 1", "wb mem p:&session 1",
                           "wb mem 0xc0000000 1", "wb mem 0x1000 1", "wb frob", "wb goto -5",
                           "wb writer $sp-0x1000+0x3")
        self.assertEqual(lines[4:-1], [
            "step 40,024, read_line+0x30 (login.c:44): sw r3, 32(r2)", "#0  0xbfc00258 in read_line () at login.c:44",
            "44\t            session.length--;", "at 40024",
            "1,2 is no number: a comma stands before three digits, as in 40,024",
            "30,0 is no number: a comma stands before three digits, as in 40,024",
            "usage: goto N", "there is no symbol and no register nothing", "goto N: goes to position N", "example: goto 40,024",
            # `session`, a structure, is taken for its address.
            "step 14, copy+0x10 (start.S:15), 40,010 steps ago: sw r12, 0(r9)",
            "step 30,024, read_line+0x30 (login.c:44), 10,000 steps ago: sw r3, 32(r2)", "0x80001000 <session>: 0x7265706f  |oper|",
            "no memory stands at the physical address 0x80001000: RAM is 8 MiB from 0x80000000 (physical 0), "
            "ROM 256 KiB from 0xbfc00000 (physical 0x1fc00000)",
            "0xc0000000 leads nowhere at this position: its translation entry is missing or not valid. It leads to memory at "
            "positions where an entry maps its page 0xc0000",
            "0x00001000 leads nowhere at this position: no translation entry has its page. It leads to memory at positions "
            "where an entry maps its page 0x00001, mostly in user mode. The word with that physical address is at 0x80001000, "
            "which is p:0x1000", "there is no command frob; `help` lists them",
            "a position is 0 to 1,099,511,627,775",
            "0x8000ffd3 is no multiple of 4; the word that it is in is at 0x8000ffd0"])

    def test_an_expression_of_a_far_step(self) -> None:
        needs_erase(self)
        lines = self.batch("starti 20000", "wb add $position+0x100000000 0 65", "wb log 10 1",
                           "wb erase $position $position+0xffffffff", "wb log 0 1")
        self.holds(lines, "event 10", "    10: step 4,294,987,296, line 0, 0x41 'A', 4,294,967,296 steps ahead", "1 event left",
                   "     0: step 4,294,987,296, line 0, 0x41 'A', 4,294,967,296 steps ahead")

    def test_what_cannot_be_done_says_why(self) -> None:
        lines = self.batch("break send", "continue", "print $v0 = 5", "print session.length = 3",
                           "print equal(\"a\", \"b\")",
                           "rwatch session.length",
                           "continue", "print *(int *) 0xbfe00000")
        text = "\n".join(lines)
        for sentence in "registers can't be written", "RAM can't be written at position 140", "reads can't be watched":
            self.assertIn(sentence, text)
        self.holds(lines, "Cannot access memory at address 0xbfe00000")

    def test_code_is_patched(self) -> None:
        # The branch of line 43 to the backspace's lines: without it a backspace is a character as any other.
        lines = self.batch("starti 50000", "set var *(int *) 0xbfc00284 = 0", "print session.length", POSITION, "load",
                           "wb goto 0", "load",
                           "starti 50000", "print session.length")
        self.holds(lines, "$1 = 3", "at 50000", "$2 = -1")

    def test_without_the_stub_nothing_is_started(self) -> None:
        lines = self.batch("disconnect", "run")
        self.assertEqual([it for it in lines if "run" in it], ["Don't know how to run.  Try \"help target\"."])

    def test_ctrl_c_is_kept_from_gdb_while_a_run_starts(self) -> None:
        """A Quit within it would leave gdb without registers, or waiting for a stop that it has taken."""
        held = "python import signal; print('held', signal.SIGINT in signal.pthread_sigmask(signal.SIG_BLOCK, []))"
        lines = self.batch(held, "before-start", held, "wb pos", held, "starti", held)
        self.assertEqual([line for line in lines if line.startswith("held")], ["held False", "held True", "held True", "held False"])

    def test_start_and_kill(self) -> None:
        lines = self.batch("run 40000", "start", POSITION, "kill", "run", POSITION)
        self.holds(lines, "Sorry, operatorsesame.", "at 112", "[Inferior 1 (Remote target) killed]", "at 110960")


class Driver(GdbTest):
    IMAGE, LOG = "driver/boot.s", "driver/log"

    def batch(self, *commands: str, options: Sequence[str] = ()) -> list[str]:
        return batch(self.IMAGE, *commands, log=self.LOG, options=options)

    def test_the_interrupt_is_met_both_ways(self) -> None:
        # Step 100 is the interrupt, in place of the store in the jump's delay slot. Byte 0 of line 0 goes out in step
        # 269.
        lines = self.batch("break *0xbfc00180", "continue", POSITION, 'printf "%x %x\\n", $cause, $epc', "stepi",
                           "reverse-stepi", "reverse-stepi",
                           POSITION, 'printf "%x %d\\n", $pc, $delay', "wb goto 270", "reverse-continue", POSITION)
        self.holds(lines, "at 101", "80000400 bfc00054", "at 100", "bfc00058 1", "at 101")

    def test_labels_of_a_source_are_known(self) -> None:
        lines = self.batch("break *loop", "continue", POSITION, "x/i $pc", "info symbol 0xbfc00184", "backtrace")
        self.holds(lines, "Breakpoint 1, 0xbfc00050 in loop ()", "at 32", "=> 0xbfc00050 <loop>:\taddiu\ts0,s0,1",
                   "loop + 308 in section .rom",
                   "#0  0xbfc00050 in loop ()")

    def test_the_clock_is_watched_both_ways(self) -> None:
        lines = self.batch("watch *(int *) 0xa0001000", "continue", POSITION, "continue", POSITION, "wb goto 16000",
                           "reverse-continue", POSITION)
        self.holds(lines, "New value = 89", "at 8202", "New value = 0", "Old value = 89", "at 8201")

    def test_what_the_lines_send_is_shown_in_its_order(self) -> None:
        lines = self.batch("break *0xbfc00064", "wb goto 0", "tbreak *0xbfc00064", "wb goto 0", "delete",
                           "watch *(int *) 0xa0001000", "continue")
        text = "\n".join(lines)
        pieces = "H", "1]\na", "2]\nb", "3]\nc", "0]\ni!", "2]\nABCDEF"
        self.assertIn("\n[serial line ".join(pieces), text)

    def test_the_debugger_ends_a_long_run(self) -> None:
        line = [*debugger.words(self.IMAGE, self.LOG), "-ex", "continue", "-ex", POSITION, "-ex", "stepi", "-ex",
                "quit"]
        process = subprocess.Popen(line, cwd=debugger.ROOT, stdin=subprocess.PIPE, stdout=subprocess.PIPE,
                                   stderr=subprocess.STDOUT,
                                   encoding="latin-1", start_new_session=True)
        assert process.stdout
        shown = ""
        while "[serial line 3]" not in shown:
            shown += process.stdout.read(1)
        os.killpg(process.pid, signal.SIGINT)  # as a terminal does
        shown += process.communicate(timeout=debugger.TIMEOUT)[0]
        self.assertIn("Program received signal SIGINT", shown)
        self.assertRegex(shown, r"\nat \d+\n")


class UserProgram(GdbTest):
    IMAGE = "user-mode/boot.s"

    def test_its_memory(self) -> None:
        # The fetch of step 8 misses, and has its entry from step 15 on; the store of step 20, from 27 on, and is made
        # in step 30. The system call is taken in step 33.
        lines = batch(self.IMAGE, "starti 8", "x/xw 0x400000", "starti 19", "x/2xw 0x400000", "x/xw 0x500000",
                      "starti 31",
                      "x/xw 0x500000",
                      "x/xw 0x80011000", "starti 34", "x/xw 0x500000", "starti 42", "watch *(int *) 0x500000", "reverse-continue", POSITION)
        self.holds(lines, "0x400000:\tCannot access memory at address 0x400000", "0x400000:\t0x3c080050\t0x3409002a",
                   "0x500000:\tCannot access memory at address 0x500000",
                   "0x500000:\t0x0000002a", "0x80011000 <done+4072>:\t0x0000002a", "0x500000:\t0x0000002a",
                   "Old value = 42", "New value = 0", "at 30")

    def test_steps_run_exceptions_whole(self) -> None:
        lines = batch(self.IMAGE, "starti 8", *["stepi", POSITION] * 6, *["reverse-stepi", POSITION] * 2,
                      options=["--through"])
        self.assertEqual([line for line in lines if line.startswith("at ")],
                         ["at 19", "at 20", "at 31", "at 32", "at 33", "at 42", "at 33", "at 32"])


class Missing(GdbTest):
    def test_what_is_wrong_is_told_before_gdb_is_started(self) -> None:
        for words, reason in (("", "usage:"), ("none.elf", "there is no file none.elf"), ("--through --log", "argument --log: expected one argument"),
                              ("--fast examples/login/login.elf", "unrecognized arguments: --fast"),
                              ("examples/login/log", "is a log, no image")):
            self.assertIn(reason, debugger.run([debugger.WB, "gdb", *words.split()]))

    def test_a_gdb_that_is_missing_is_named(self) -> None:
        with tempfile.TemporaryDirectory() as folder:
            for name in "bash", "dirname", "readlink":
                Path(folder, name).symlink_to(str(shutil.which(name)))
            Path(folder, "python3").symlink_to(sys.executable)
            line = [debugger.WB, "gdb", "examples/login/login.elf"]
            done = subprocess.run(line, cwd=debugger.ROOT, env=dict(os.environ, PATH=folder), stderr=subprocess.PIPE,
                                  encoding="utf-8")
        self.assertIn("apt-get install gdb-multiarch", done.stderr)
        self.assertEqual(done.returncode, 2)


class Reads(GdbTest):
    STUB = ("import sys; sys.path.insert(0, 'front'); from bezhakkom import loading, rsp, session, stub, symbols; "
            "from bezhakkom.driver import Driver; "
            "driver = Driver.start(loading.image('examples/login/login.elf'), most_reads=100); "
            "stub.Stub(session.Session(driver, symbols.Symbols()), rsp.Link(0, 1)).serve(); driver.close()")

    def test_the_program_is_started_again(self) -> None:
        commands = [f"target remote | {sys.executable} -B -c \"{self.STUB}\"", "monitor patch p:0x200 7", "stepi 112", POSITION,
                    "reverse-stepi 12", POSITION, "x/xw 0x80000200"]
        line = [debugger.DEBUGGER, "-q", *debugger.PLAIN, "-iex", "set osabi none", "-iex", "set remotetimeout 300", "-batch",
                "examples/login/login.elf",
                *(word for command in commands for word in ("-ex", command))]
        self.holds(debugger.run(line).splitlines(), "at 112", "at 100", "0x80000200:\t0x00000007")



class MachineInterface(unittest.TestCase):
    """gdb under MI, as editors start it, which calls no prompt hook."""

    def setUp(self) -> None:
        folder = tempfile.TemporaryDirectory()
        self.addCleanup(folder.cleanup)
        image = Path(folder.name, "counter.rom")
        image.write_bytes(b"".join(word.to_bytes(4, "little") for word in COUNTER))
        self.process = subprocess.Popen([debugger.WB, "gdb", str(image), *debugger.PLAIN, "--interpreter=mi3"], cwd=debugger.ROOT,
                                        stdin=subprocess.PIPE, stdout=subprocess.PIPE, stderr=subprocess.STDOUT, start_new_session=True)
        self.addCleanup(self.process.communicate)
        self.addCleanup(self.process.kill)

    def send(self, line: str) -> None:
        assert self.process.stdin
        self.process.stdin.write(line.encode() + b"\n")
        self.process.stdin.flush()

    def until(self, *beginnings: str) -> str:
        """The next line that begins so."""
        assert self.process.stdout
        for line in self.process.stdout:
            text = line.decode("latin-1").rstrip()
            if text.startswith(beginnings):
                return text
        raise AssertionError(f"gdb has ended without {beginnings}")

    def until_the_program_computes(self) -> None:
        """gdb reports that the target runs before it asks the stub for the run."""
        program = debugger.started_below(self.process.pid, "r3kwb")
        before = debugger.processor_time(program)
        while debugger.processor_time(program) == before:
            time.sleep(0.02)

    def test_step_after_an_interrupted_run_is_made(self) -> None:
        self.until("*stopped")
        for _ in range(2):
            self.send("-exec-continue")
            self.until("*running")
            self.until_the_program_computes()
            os.killpg(self.process.pid, signal.SIGINT)
            self.assertIn('signal-name="SIGINT"', self.until("*stopped"))
            self.send("-exec-step-instruction")
            self.assertEqual(self.until("^"), "^running")
            self.assertIn('reason="end-stepping-range"', self.until("*stopped"))
        self.send("-gdb-exit")
        self.assertEqual(self.until("^exit"), "^exit")


if __name__ == "__main__":
    unittest.main()
