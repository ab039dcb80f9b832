"""Conditions of breakpoints over the stub, against gdb's own evaluation of the same ones.

With `condition-evaluation host` gdb stops at each visit and evaluates the condition itself, and with `target` the stub evaluates
gdb's bytecode. Both have to stop at the same positions, forward and back."""
from __future__ import annotations

import tempfile
import unittest
from pathlib import Path
from typing import Sequence

from front.tests import built, debugger

SOURCE = """
struct node { struct node *next; int value; signed char sign; unsigned flags : 3; int bits : 5; };
struct node head, tail = { &head, -7, -2, 5, -3 };
int global, *where = &global;
char text[] = "text";
volatile int done;

int once(int value) { return value; }
int twice(int value) { return 2 * value; }

int visit(int number, struct node *node, unsigned word, signed char sign, unsigned char byte, short half, unsigned short uhalf,
          long long wide, unsigned long long uwide, int (*call)(int), int *place, void *any)
{
    return call(number) + *place;
}

int main(void)
{
    head.next = &tail;
    for (int turn = 0; turn < 6; turn++) {
        global = turn - 3;
        visit(turn - 2, turn & 1 ? &head : &tail, turn * 0x30000000u, (turn - 3) * 40, turn * 50, (turn - 3) * 10000, turn * 13000,
              (turn - 3) * 0x100000000ll + turn, turn * 0x3000000000000000ull, turn & 1 ? once : twice,
              turn & 2 ? &global : where - 1 + 1, turn > 3 ? 0 : (void *)text);
    }
    done = 1;
    for (;;);
}
"""

# pointers, with addresses of data and code
POINTERS = (
    "node == &head", "node != &head", "&head == node", "node->next == &head", "node->next->next == node", "node == &tail && number > 0",
    "place == &global", "where == &global", "place == where", "any == 0", "any == text", "any != text", "!any", "(char *)any == &text[0]",
    "call == twice", "call == &twice", "call == once || number == 2", "call != twice", "*call == twice", "node > &head", "node < &tail",
    "node >= &head", "(unsigned)node == (unsigned)&head", "(int)node == (int)&head", "(long long)node == (long long)&head",
    "call > &twice", "node - &head == 0", "node + 1 == &head + 1", "&node->value == &head.value",
)
# registers
REGISTERS = (
    "$pc == &visit", "$pc == visit", "$sp > (char *)0x80000000", "$sp < (char *)0x80000000", "$sp != 0", "(unsigned)$sp > 0x80000000",
    "$a0 == -1", "$a0 < 0", "$a0 >= 0", "$a0 == 0xffffffff", "(unsigned)$a0 > 5", "$r4 == -2", "$ra != 0", "$position > 500",
)
# signed and unsigned, of each width
INTEGERS = (
    "number == -1", "number < 0", "number > -1", "word > 0x80000000", "word == 0xc0000000", "word / 2 == 0x60000000", "(int)word < 0",
    "word > -1", "word >> 31", "number >> 1 == -1", "sign == -80", "sign < 0", "sign == (signed char)200", "(unsigned char)sign == 216",
    "byte == 200", "byte > 127", "(signed char)byte < 0", "half == -20000", "half < 0", "uhalf == 52000", "(short)uhalf < 0",
    "wide < 0", "wide == -4294967294", "wide > 4294967296", "(int)wide == 5", "uwide > 0x8000000000000000", "uwide == 0xc000000000000000",
    "(unsigned)uwide == 0", "number + word == 0x2fffffff", "number * 2 == -4", "-number == 2", "~number == 1", "number % 2 == -1",
)
# members, memory through pointers, bit fields, logic
MEMBERS = (
    "node->value == -7", "node->value < 0", "node->sign == -2", "node->flags == 5", "node->bits == -3", "*place == -3", "*place < 0",
    "text[0] == 't'", "((char *)any)[1] == 'e'", "number == 1 || number == 3", "number > 0 && word > 0x80000000", "!(number - 1)",
    "number ? node == &head : call == twice", "*(int *)0 == 1", "1", "0", "1 / number > 0", "global == number - 1",
)

SCRIPT = """
import gdb
def shown(line):
    try:
        return gdb.execute(line, to_string=True)
    except gdb.error as error:
        return str(error)
def position():
    return int(gdb.parse_and_eval("$position"))
def stops(move, end):
    found = []
    while len(found) < 20:
        shown(move)
        if position() == end:
            return found
        found.append(position())
    return found
shown("watch done")
shown("continue")
shown("delete")
end = position()
shown("set $done_at = (long)$pc & 0xffffffff")
for condition in CONDITIONS:
    found = []
    for evaluation in "host", "target":
        shown("set breakpoint condition-evaluation " + evaluation)
        shown("starti")
        shown("break visit if " + condition)
        shown("break *$done_at")
        found.append((stops("continue", end), stops("reverse-continue", 0)))
        shown("delete")
    print("compared", found[0] == found[1], len(found[0][0]), len(found[0][1]), condition, "" if found[0] == found[1] else found)
"""


def setUpModule() -> None:
    debugger.needed()
    built.needed()


class ConditionsTest(unittest.TestCase):
    """What each kind of conditions is compared with. Each class is a job of `front/test`."""

    def same_visits(self, conditions: Sequence[str], stops: str) -> None:
        """The stub and gdb stop at the same visits, both ways: `stops` is a line of what was compared."""
        with tempfile.TemporaryDirectory() as folder:
            elf = built.elf(SOURCE, Path(folder, "types.elf"), "-O0")
            script = Path(folder, "script.py")
            script.write_text(f"CONDITIONS = {conditions!r}\n{SCRIPT}")
            shown = debugger.run([debugger.WB, "gdb", elf, *debugger.PLAIN, "-batch", "-x", str(script)])
        compared = [line.split(" ", 2)[1:] for line in shown.splitlines() if line.startswith("compared ")]
        self.assertEqual(len(compared), len(conditions), shown)
        self.assertEqual([rest for same, rest in compared if same != "True"], [])
        self.assertTrue(any(rest.startswith(stops) for _, rest in compared), compared)


# The function is called six times, with -2 to 3 as number. The node is &head in every second call.

class Pointers(ConditionsTest):
    def test_stub_and_gdb_stop_at_the_same_visits_both_ways(self) -> None:
        self.same_visits(POINTERS, "3 3 node == &head")


class Registers(ConditionsTest):
    def test_stub_and_gdb_stop_at_the_same_visits_both_ways(self) -> None:
        self.same_visits(REGISTERS, "1 1 $a0 == -1")


class Integers(ConditionsTest):
    def test_stub_and_gdb_stop_at_the_same_visits_both_ways(self) -> None:
        self.same_visits(INTEGERS, "2 2 number < 0")


class Members(ConditionsTest):
    def test_stub_and_gdb_stop_at_the_same_visits_both_ways(self) -> None:
        self.same_visits(MEMBERS, "2 2 number == 1 || number == 3")


if __name__ == "__main__":
    unittest.main()
