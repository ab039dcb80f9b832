"""Names of programs that are compiled here: static ones of several sources, those that the shell has too, lines, calls, and another build
under the same stops. Expected values are gdb's, or follow from the sources."""
from __future__ import annotations

import re
import shutil
import subprocess
import tempfile
import unittest
from pathlib import Path
from typing import List, Sequence

import bezhakkom
from bezhakkom import loading
from bezhakkom.errors import Problem
from bezhakkom.symbols import symbols_of
from front.tests import debugger
from front.tests.outside import run
from front.tests.scripts import shell
from front.tests.support import ROOT

COMPILER, NM, READELF = "mipsel-linux-gnu-gcc", "mipsel-linux-gnu-nm", "mipsel-linux-gnu-readelf"
OPTIONS = ("-march=mips1 -mabi=32 -EL -msoft-float -mno-abicalls -fno-pic -G0 -ffreestanding -Og -g -nostdlib -static "
           "-Wl,-n,--build-id=none").split()
START = ROOT / "examples/login/start.S"
SCRIPT = ROOT / "examples/login/login.ld"

ONE = """\
struct ring { int in, out; char data[16]; };
struct ring rx;
struct { int kind; struct ring *receiver; } packet;
volatile int ticks, last = 7;
static volatile int count;
static __attribute__((noinline)) int helper(int x)
{
    return x - ticks;
}
int other(int x);
int main(void)
{
    int local = 3;
    packet.receiver = &rx;
    for (;;) {
        ticks++;
        count += 2;
        rx.in = helper(ticks) + other(local);
        rx.data[ticks & 15] = ticks;
        local += last;
    }
}
"""
TWO = """\
extern volatile int ticks;
static volatile int count;
static __attribute__((noinline)) int helper(int x)
{
    count++;
    return x < 2 ? ticks : helper(x - 1) + x;
}
int other(int x)
{
    return helper(x & 3);
}
"""


def setUpModule() -> None:
    if not shutil.which(COMPILER):
        raise unittest.SkipTest(f"{COMPILER} is not installed; on Debian: apt-get install gcc-mipsel-linux-gnu")


def built(folder: Path, one: str = ONE, before: str = "") -> str:
    """Compiles the two sources to an ELF beside them. What is in another source stands before them in memory."""
    for name, text in ("before.c", before), ("one.c", one), ("two.c", TWO):
        (folder / name).write_text(text)
    subprocess.run([COMPILER, *OPTIONS, "-T", str(SCRIPT), "-o", "made.elf", str(START), "before.c", "one.c", "two.c"], cwd=folder, check=True)
    return str(folder / "made.elf")


def addresses(elf: str, name: str) -> List[int]:
    """The addresses of a name in the order of the ELF, as nm shows them."""
    shown = subprocess.run([NM, "-n", elf], capture_output=True, text=True, check=True).stdout
    return [int(line.split()[0], 16) & 0xFFFF_FFFF for line in shown.splitlines() if line.split()[-1] == name]


def addresses_of_line(elf: str, file: str, number: int) -> int:
    """The least address of a statement of a line, as readelf shows the table."""
    shown = subprocess.run([READELF, "-W", "--debug-dump=decodedline", elf], capture_output=True, text=True, check=True).stdout
    return min(int(it[1], 16) for it in re.finditer(rf"(?m)^{re.escape(file)}\s+{number}\s+(0x[0-9a-f]+)(?:\s+\d+)?\s+x$", shown))


def answers(elf: str, *lines: str, options: Sequence[str] = ()) -> List[List[str]]:
    """What the shell shows for each of some lines."""
    rest, found = shell("--echo", *options, elf, lines=lines).stdout, []
    for line in reversed(lines):
        rest, _, answer = rest.rpartition(f"> {line}\n")
        found.append(answer.splitlines())
    return found[::-1]


class InFolder(unittest.TestCase):
    maxDiff = None

    def setUp(self) -> None:
        folder = tempfile.TemporaryDirectory()
        self.addCleanup(folder.cleanup)
        self.folder = Path(folder.name)
        self.elf = built(self.folder)


class Several(InFolder):
    """A static function and a static variable that both sources have."""

    def test_break_on_static_name_stops_in_each_source(self) -> None:
        first, second = addresses(self.elf, "helper")
        made, one, two, _, again = answers(self.elf, "break helper", "continue", "continue", "delete 2", "continue")
        self.assertEqual(made, ["helper has 2 locations: one.c:8, two.c:5",
                                f"1: breakpoint at {first:#010x} <one.c:helper> (one.c:8)",
                                f"2: breakpoint at {second:#010x} <two.c:helper> (two.c:5)"])
        self.assertRegex("\n".join(one), r"^1: .*\nstep \d+, one\.c:helper \(one\.c:8\): ")
        self.assertRegex("\n".join(two), r"^2: .*\nstep \d+, two\.c:helper \(two\.c:5\): ")
        self.assertRegex("\n".join(again), r"^1: .*\nstep \d+, one\.c:helper \(one\.c:8\): ")

    def test_number_of_static_name_is_refused_and_named_by_source(self) -> None:
        (first, second), counts = addresses(self.elf, "helper"), addresses(self.elf, "count")
        refused, function, sum_, data, in_memory, gone, watch = answers(
            self.elf, "print helper", "print one.c:helper", "print &two.c:helper+8", "print count", "print [one.c:count]", "print three.c:helper",
            "watch two.c:count")
        self.assertEqual(refused, ["helper has 2 locations: one.c:8, two.c:5. Name the one that is meant, as in one.c:helper"])
        self.assertTrue(function[0].startswith(f"one.c:helper = {first:#010x} "), function)
        self.assertTrue(sum_[0].startswith(f"&two.c:helper+8 = {second + 8:#010x} "), sum_)
        self.assertRegex(data[0], rf"^count has 2 locations: (one|two)\.c {min(counts):#010x}, (one|two)\.c {max(counts):#010x}\. ")
        self.assertEqual(in_memory, ["[one.c:count] = 0x00000000  0"])
        self.assertEqual(gone, ["there is no symbol and no register three.c:helper"])
        self.assertRegex(watch[0], r"^1: watch of 4 bytes at 0x8000[0-9a-f]{4} <two\.c:count>$")

    def test_visit_and_hits_of_static_name_take_both(self) -> None:
        visit, hits = answers(self.elf, "visit helper", "hits helper")
        self.assertIn("one.c:helper", visit[0])
        self.assertRegex(hits[0], r"^visits of one\.c:helper \(one\.c:8\) and two\.c:helper \(two\.c:5\), up to step \d+: 1$")


    def test_library_takes_all_places_of_a_name_as_break_does(self) -> None:
        with bezhakkom.boot(self.elf) as machine:
            machine.goto(2_000)
            one, two = machine.hits("one.c:helper"), machine.hits("two.c:helper")
            self.assertEqual(machine.hits("helper"), sorted(one + two))
            self.assertGreater(min(len(one), len(two)), 3)
            machine.goto(0)
            self.assertEqual([machine.until(pc="helper") for _ in range(4)], sorted(one + two)[:4])
            with self.assertRaisesRegex(Problem, "has 2 locations: .*Name the one that is meant"):
                machine.writer("helper")


class Words(InFolder):
    """The program has a variable `last`, which is a word of the shell too."""

    def test_variable_named_like_word_of_shell_is_refused(self) -> None:
        variable, = addresses(self.elf, "last")
        said = "last is a symbol of the image and a word of the shell: &last is the symbol, and $last the word of the shell"
        until, shown, symbol, word, sum_, causes, position = answers(
            self.elf, "until last+5", "print last", "print &last", "print $last", "until $last+5", "causes last", "print pos")
        self.assertEqual((until, shown, causes), ([said], [said], [said]))
        self.assertTrue(symbol[0].startswith(f"&last = {variable:#010x} "), symbol)
        self.assertEqual(word, ["$last = 0x00000000  0"])
        self.assertRegex(sum_[-1], "^step 5, ")
        self.assertEqual(position, ["pos = 0x00000005  5"])

    def test_place_is_no_position(self) -> None:
        """A position of 3 thousand million steps was run to."""
        for line in "until main", "goto main+4", "until one.c:16":
            self.assertRegex(answers(self.elf, line)[0][0], " is a place, and a position is a number of steps: `visit ")

    def test_help_says_what_a_double_name_means(self) -> None:
        text = " ".join(answers(self.elf, "help numbers")[0])
        self.assertIn("A name that is both a symbol and a word of the shell (a register, `pos`, `last`) is refused", text)


class Sources(InFolder):
    def test_break_on_line_is_where_gdb_has_it(self) -> None:
        debugger.needed()
        for name, source in (self.elf, "one.c"), (self.elf, "two.c"), (str(ROOT / "examples/loader/loader.elf"), "loader.c"):
            symbols = symbols_of(loading.image(name, tell=lambda note: None))
            lines = range(1, {"loader.c": 160, "one.c": 21, "two.c": 11}[source])
            asked = [f"python print('@', *(hex(it.pc & 0xffffffff) for it in gdb.decode_line('{source}:{line}')[1]))" for line in lines]
            words = [debugger.DEBUGGER, *debugger.PLAIN, "--readnow", "-batch", *(it for line in asked for it in ("-ex", line)), name]
            shown = subprocess.run(words, capture_output=True, text=True, stdin=subprocess.DEVNULL).stdout
            found = [" ".join(map(hex, symbols.addresses_of_line(source, line))) for line in lines]
            self.assertEqual(found, [it[2:] for it in shown.splitlines()], source)

    def test_break_on_line_stops_and_shows_it(self) -> None:
        made, stop, unknown, after, list_, on = answers(self.elf, "break one.c:16", "continue", "break three.c:1", "break two.c:99", "list", "list")
        self.assertRegex(made[0], r"^1: breakpoint at 0xbfc0[0-9a-f]{4} <main\+0x[0-9a-f]+> \(one\.c:16\)$")
        self.assertRegex(stop[-1], r"^step \d+, main\+0x[0-9a-f]+ \(one\.c:16\): ")
        self.assertRegex(unknown[0], "^no source three.c is among the line tables of the image: ")
        self.assertEqual(after, ["two.c has no code in line 99 or after it"])
        text = ONE.splitlines()
        self.assertEqual(list_, [f"{'=>' if it == 16 else '  '} {it:5}  {text[it - 1]}" for it in range(11, 21)])
        self.assertEqual(on, [f"   {it:5}  {text[it - 1]}" for it in range(21, 23)])

    def test_line_is_an_address_in_all_commands(self) -> None:
        at, there, when = answers(self.elf, "print one.c:16", "visit one.c:16", "hits one.c:16")
        address = int(at[0].split()[2], 16)
        self.assertEqual(addresses_of_line(self.elf, "one.c", 16), address)
        self.assertRegex(there[0], r"^step \d+, main\+0x[0-9a-f]+ \(one\.c:16\): ")
        self.assertRegex(when[0], r"\(one\.c:16\), up to step \d+: 1$")

    def test_sources_are_found_in_named_folder(self) -> None:
        elsewhere = self.folder / "elsewhere"
        elsewhere.mkdir()
        for name in "one.c", "two.c":
            (self.folder / name).rename(elsewhere / name)
        without, = answers(self.elf, "list one.c:8")
        self.assertEqual(without, ["the source of one.c:8 is not found: one.c is neither beside the ELF nor in a folder of --sources DIR"])
        found, = answers(self.elf, "list one.c:8", options=("--sources", str(elsewhere)))
        self.assertEqual(found[5], "       8      return x - ticks;")
        done = run(["shell", "--sources", str(self.folder / "none"), self.elf])
        self.assertRegex(done.stderr.decode(), r"^bin/wb: --sources \S+/none: there is no such folder\n$")

    def test_backtrace_is_that_of_gdb(self) -> None:
        """Within the recursion, at the begin of a function, before and after it made its frame, and in the code from reset."""
        debugger.needed()
        found = answers(self.elf, "visit two.c:helper", "step 900", "hits two.c:helper")[-1]
        hits = [int(it.split()[1].replace(",", "")) for it in found[1:]]
        self.assertGreater(len(hits), 10)
        positions = sorted({3, *(it + more for it in hits[:8] for more in (0, 1, 4, 9, 14, 19))})
        shown = answers(self.elf, *(line for it in positions for line in (f"goto {it}", "backtrace")))[1::2]
        commands = [word for it in positions for word in ("-ex", f"wb goto {it}", "-ex", "echo @\\n", "-ex", "bt", "-ex", "echo %\\n")]
        text = debugger.run([debugger.WB, "gdb", self.elf, *debugger.PLAIN, "-batch", *commands])
        for position, mine, theirs in zip(positions, shown, re.findall(r"@\n(.*?)%\n", text, re.DOTALL)):
            of_gdb = [(it[1], it[2]) for it in re.finditer(r"^#\d+ .*?(?:in )?(\w+) \(.*?\) at (?:.*/)?(\S+)$", theirs, re.MULTILINE)]
            own = [(it[1], it[2]) for it in re.finditer(r"^#\d+ +(?:\w+\.c:)?(\w+)(?:\+0x[0-9a-f]+)? \((\S+)\)", "\n".join(mine), re.MULTILINE)]
            # gdb ends at main, and shows calls at the line of what comes after them.
            own = own[:len(of_gdb)]
            self.assertEqual([name for name, _ in own], [name for name, _ in of_gdb], position)
            self.assertEqual(own[0], of_gdb[0], position)
        self.assertGreater(max(map(len, shown)), 5)


class Interrupted(unittest.TestCase):
    def test_backtrace_passes_an_interrupt_and_a_loop_at_the_begin_of_a_function(self) -> None:
        """The first byte of the loader's log arrives in step 20,000, when `receive` waits for one in a loop at its begin."""
        loader = str(ROOT / "examples/loader/loader.elf")
        _, shown, most = answers(loader, "visit interrupt", "backtrace", "backtrace 2", options=("--log", str(ROOT / "examples/loader/log")))
        self.assertEqual([re.sub(r"\+0x[0-9a-f]+|:\d+", "", it) for it in shown[:5]], [
            "#0  interrupt (loader.c)", "#1  exception (start.S), in step 20,025", "#2  receive (loader.c), in step 20,000, where exception int was taken",
            "#3  read_line (loader.c), in step 1,803", "#4  main (loader.c), in step 1,796"])
        self.assertEqual(most, [*shown[:2], "there are more: `backtrace C` shows at most 2 calls where C is 2"])


INLINED = """\
volatile int count, total;
static inline __attribute__((always_inline)) int twice(int x)
{
    count += x;
    return count * 2;
}
__attribute__((noinline)) int other(int x)
{
    return twice(x + 1);
}
int main(void)
{
    for (;;) {
        total = twice(3);
        total += other(total);
        total += twice(5) + total;
    }
}
"""


class Inlined(InFolder):
    def test_break_on_an_inlined_function_and_on_its_line_stops_at_each_copy(self) -> None:
        debugger.needed()
        (self.folder / "i.c").write_text(INLINED)
        elf = str(self.folder / "i.elf")
        for options in (), ("-gdwarf-4",), ("-O1",):
            subprocess.run([COMPILER, *OPTIONS, *options, "-T", str(SCRIPT), "-o", elf, str(START), "i.c"], cwd=self.folder, check=True)
            asked = "python print('@', *(hex(it.pc & 0xffffffff) for it in gdb.decode_line('i.c:4')[1]))"
            text = debugger.run([debugger.DEBUGGER, *debugger.PLAIN, "-batch", "-ex", asked, elf])
            line = sorted(int(word, 16) for word in text.split("@")[1].split())
            symbols = symbols_of(loading.image(elf))
            self.assertEqual((len(line), symbols.addresses_of_line("i.c", 4)), (3, line))
            # gdb up to version 14 has the least address of a copy, where DWARF names another one by which it is entered.
            shown = subprocess.run([READELF, "-W", "--debug-dump=info", elf], capture_output=True, text=True, check=True).stdout
            entries = re.findall(r"DW_AT_entry_pc\s*: (?:\(addr\) )?(\w+)", shown)
            self.assertEqual(symbols.inlined.named("twice"), sorted(int(it, 16) for it in entries))
        copies, refused, visited = answers(elf, "break twice", "print twice", "visit twice")
        self.assertEqual(copies[0], "twice has 3 locations: " + ", ".join(symbols.code(it) for it in symbols.inlined.named("twice")))
        self.assertEqual(len(copies), 4)
        self.assertRegex(refused[0], r"^twice has no address of its own: the compiler inlined it, at other\S* \(i\.c:4\), .*`break twice` stops at each copy$")
        self.assertRegex(visited[0], r"^step [\d,]+, main\S* \(i\.c:4\): ")


TASK = """\
volatile int count;
__attribute__((noinline)) void work(void) { count++; }
void task(void) { work(); for (;;) count++; }
int main(void)
{
    asm volatile (".set noreorder\\n la $26, task\\n jr $26\\n rfe\\n .set reorder");
    return 0;
}
"""


class Tasks(InFolder):
    def test_backtrace_of_a_task_that_an_exception_return_began_ends_there(self) -> None:
        (self.folder / "t.c").write_text(TASK)
        subprocess.run([COMPILER, *OPTIONS, "-T", str(SCRIPT), "-o", "t.elf", str(START), "t.c"], cwd=self.folder, check=True)
        *_, shown = answers(str(self.folder / "t.elf"), "visit work", "backtrace")
        self.assertEqual([re.sub(r"\+0x[0-9a-f]+|, in step \d+$", "", it) for it in shown[:2]], ["#0  work (t.c:2)", "#1  task (t.c:3)"])
        self.assertRegex(shown[2], r"^no function called task: an exception handler began it, by the rfe of step \d+, main\+0x\w+ \(t\.c:6\)$")
        self.assertEqual(len(shown), 3)


class Builds(InFolder):
    """Another build of the program, in which functions and variables are elsewhere."""

    def setUp(self) -> None:
        super().setUp()
        other = self.folder / "other"
        other.mkdir()
        self.other = built(other, before="int added[9] = {1};\nint more(int x)\n{\n    return x * x + added[x];\n}\n")

    def test_stops_by_name_follow_load_and_undo(self) -> None:
        (old, second), (new, _) = addresses(self.elf, "helper"), addresses(self.other, "helper")
        (variable,), (moved,) = addresses(self.elf, "ticks"), addresses(self.other, "ticks")
        self.assertTrue(old != new and variable != moved)
        *_, stops, load, after, stop, undo, back = answers(
            self.elf, "break one.c:helper", "watch ticks", f"break {second:#x}", "stops", f"load {self.other}", "stops", "continue", "undo", "stops")
        self.assertEqual(stops[:2], [f"1: breakpoint at {old:#010x} <one.c:helper> (one.c:8)", f"2: watch of 4 bytes at {variable:#010x} <ticks>"])
        self.assertEqual(load[:2], [f"1: breakpoint at {new:#010x} <one.c:helper> (one.c:8): moved with one.c:helper from {old:#010x}",
                                    f"2: watch of 4 bytes at {moved:#010x} <ticks>: moved with ticks from {variable:#010x}"])
        self.assertEqual(after[:2], [it.partition(": moved")[0] for it in load[:2]])
        self.assertTrue(after[2].startswith(f"3: breakpoint at {second:#010x}"), after)
        self.assertRegex(stop[0], rf"^2: {moved:#010x} <ticks>: 0x00000000 became 0x00000001$")
        self.assertEqual(undo[0], f"taken back: load {self.other}; the symbols are those of before")
        self.assertEqual(undo[1:], [f"1: breakpoint at {old:#010x} <one.c:helper> (one.c:8): moved with one.c:helper from {new:#010x}",
                                    f"2: watch of 4 bytes at {variable:#010x} <ticks>: moved with ticks from {moved:#010x}"])
        self.assertEqual(back, stops)

    def test_name_that_is_gone_leaves_its_stop_and_comes_back(self) -> None:
        old, _ = addresses(self.elf, "helper")
        gone = built(self.folder / "other", ONE.replace("helper", "assist"))
        _, load, undo, back = answers(self.elf, "break one.c:helper", f"load {gone}", "undo", "stops")
        self.assertRegex(load[0], rf"^1: the stop stays at {old:#010x}, since its name is not found: there is no symbol .* one\.c:helper$")
        self.assertEqual(undo, [f"taken back: load {gone}; the symbols are those of before"])
        self.assertEqual(back, [f"1: breakpoint at {old:#010x} <one.c:helper> (one.c:8)"])

    def test_session_saved_after_load_has_the_names_of_the_loaded_program(self) -> None:
        new, _ = addresses(self.other, "helper")
        file = self.folder / "kept.session"
        answers(self.elf, f"load {self.other}", "break one.c:helper", f"save {file}")
        done = shell("--echo", str(file), lines=("stops", "print one.c:helper"))
        self.assertEqual(done.stderr, "")
        self.assertEqual(done.stdout.splitlines()[1], f"1: breakpoint at {new:#010x} <one.c:helper> (one.c:8)")
        self.assertIn(f"one.c:helper = {new:#010x} ", done.stdout)


class Expressions(InFolder):
    def test_conditions_take_sums_of_words_on_both_sides(self) -> None:
        """`count` of one.c is twice `ticks` but between its store and that of `ticks`; the parts are compared by hand."""
        _, holds, fails, when, as_words, types = answers(
            self.elf, "break one.c:18", "continue", "assert [one.c:count] == [ticks] + [ticks] + 1", "when [one.c:count] == [ticks] + [ticks] - 2",
            "when [ticks] + [ticks] != [one.c:count]", "assert rx.in > 5")[0:6]
        self.assertRegex(holds[-1], r"^step \d+, main\+0x[0-9a-f]+ \(one\.c:18\)")
        self.assertEqual(fails, ["it does not hold that [one.c:count] == [ticks] + [ticks] + 1: [one.c:count] is 2 and [ticks]+[ticks]+1 is 3"])
        self.assertRegex(when[0], r"holds first at step (\d+), after step \d+, main\+0x[0-9a-f]+ \(one\.c:16\), ")
        self.assertEqual(re.findall(r"step \d+", when[0]), re.findall(r"step \d+", as_words[0]))
        self.assertRegex(types[0], "^rx.in is C, whose types the shell does not know")

    def test_comparison_between_numbers_alone_is_judged(self) -> None:
        false, true, quoted = answers(self.elf, "assert 4 == 5", "assert 4 == 4", "assert '=' == 0x3d")
        self.assertRegex(false[0], "^it does not hold that 4 == 5")
        self.assertEqual((true, quoted), (["that holds"], ["that holds"]))

    def test_gdb_evaluates_what_it_can(self) -> None:
        debugger.needed()
        ring, = addresses(self.elf, "rx")
        commands = ("break two.c:10", "continue", "continue", "print rx.in", "echo @\\n", "wb assert rx.in == 99", "wb assert [ticks] == ticks",
                    "wb assert t0 == t0", "wb print sp", "wb why &packet.receiver", "wb causes packet.receiver", "wb when rx.in > 0",
                    "wb writer one.c:count", "wb print one.c:helper")
        text = debugger.run([debugger.WB, "gdb", self.elf, *debugger.PLAIN, "-batch", *(word for it in commands for word in ("-ex", it))])
        value = int(re.findall(r"\$1 = (-?\d+)", text)[0])
        shown = text.partition("@\n")[2]
        self.assertIn(f"it does not hold that {value} == 99", shown)
        self.assertEqual(shown.count("that holds"), 2)
        self.assertRegex(shown, r"(?m)^sp = 0x8001")
        self.assertRegex(shown, rf"(?m)^packet\+0x4 at step \d+: {ring:#010x} <rx>   from \d+$")
        self.assertRegex(shown, rf"(?m)^packet\+0x4 at step \d+: {ring:#010x} <rx>$")
        self.assertRegex(shown, r"(?m)^\S+ > 0 holds first at step \d+, after step \d+, main\+0x[0-9a-f]+ \(one\.c:18\)")
        self.assertRegex(shown, r"(?m)^step \d+, main\+0x[0-9a-f]+ \(one\.c:17\), ")
        self.assertIn(f"one.c:helper = {addresses(self.elf, 'helper')[0]:#010x}", shown)

    def test_gdb_evaluates_places_that_are_tried_and_finds_sources(self) -> None:
        """The event is a backspace: the letter in its place makes the length 1."""
        debugger.needed()
        login = str(ROOT / "examples/login/login.elf")
        commands = ("wb goto 40,100", "wb try 2 'a' show &session.length session.user", "wb assert session.length + 1 == 0")
        text = debugger.run([debugger.WB, "gdb", "--log", str(ROOT / "examples/login/log"), login, *debugger.PLAIN, "-batch",
                             *(word for it in commands for word in ("-ex", it))])
        self.assertRegex(text, r"(?m)^ +line 0 sends '\*', session\+0x20 is 0x00000001, session is 0x7265706f$")
        self.assertIn("that holds", text)
        elsewhere = self.folder / "elsewhere"
        elsewhere.mkdir()
        (self.folder / "two.c").rename(elsewhere / "two.c")
        text = debugger.run([debugger.WB, "gdb", "--sources", str(elsewhere), self.elf, *debugger.PLAIN, "-batch", "-ex", "list two.c:5,6"])
        self.assertIn(f"5\t{TWO.splitlines()[4]}\n6\t", text)

    def test_word_in_brackets_where_an_address_is_wanted_is_explained(self) -> None:
        said, = answers(self.elf, "causes [start]")
        self.assertRegex(said[0], r"\[start\] is what stands at one: start shows \[start\]$")


class TooLarge(unittest.TestCase):
    def test_raw_rom_that_is_too_large_names_the_limit(self) -> None:
        with tempfile.NamedTemporaryFile(suffix=".rom") as file:
            file.write(bytes(300_000))
            file.flush()
            with self.assertRaisesRegex(Problem, "has 300,000 bytes and is taken as a raw ROM, which has at most 262,144"):
                loading.image(file.name)


if __name__ == "__main__":
    unittest.main()
