"""The picture of a run: what stands in it, and where. Counts and steps are the plain workbench's, or counted by
hand."""
from __future__ import annotations

import re
import tempfile
import unittest
from pathlib import Path
from xml.etree import ElementTree

from front.tests import outside
from front.tests.support import ROOT, needs_erase, needs_kinds

SVG = "{http://www.w3.org/2000/svg}"
LOGIN = ["--to", "130000", "--log", "examples/login/log", "examples/login/login.elf"]


def drawn(*words: str) -> str:
    """What `bin/wb plot` shows."""
    done = outside.run(["plot", *words])
    return (done.stdout + done.stderr).decode("latin-1")


class Plot(unittest.TestCase):
    def plot(self, *words: str) -> ElementTree.Element:
        shown = drawn(*words)
        self.assertTrue(shown.startswith("<svg"), shown)
        return ElementTree.fromstring(shown)

    def texts(self, picture: ElementTree.Element) -> list[str]:
        return [text.text or "" for text in picture.iter(f"{SVG}text")]

    def holds(self, texts: list[str], *expected: str) -> None:
        """The texts are there, in their order."""
        rest = iter(texts)
        for text in expected:
            self.assertIn(text, rest, f"of {texts}")

    def test_what_login_does(self) -> None:
        picture = self.plot("--words", "session+32,0x80001008", *LOGIN)
        self.assertEqual(picture.get("width"), "1200")
        self.holds(self.texts(picture), "examples/login/login.elf: 130,000 steps", "line 0 receives", "10 bytes", "'x'",
                   "'\\b'", "'\\r'",
                   "line 0 sends", "59 bytes", "session+32", "0x00000000", "ffffffff", "0x80001008", "0x61736573",
                   "receive")

    def test_an_edit_stands_where_it_meets_the_run(self) -> None:
        picture = self.plot("--edits", "del 2; patch 0x200 7", *LOGIN)
        self.holds(self.texts(picture), "9 bytes received, 52 sent, 2 edits, shares of samples", "patch 0x200 7",
                   "del 2")
        places = [float(line.get("x1", "0")) for line in picture.iter(f"{SVG}line") if line.get("class") == "edit"]
        # The run goes from 190 to 1,040: step 40,000 of 130,000 stands at 190 + 850 * 4 / 13.
        self.assertEqual(places, [190.0, 451.5])

    def test_an_erased_range_stands_at_its_first_event(self) -> None:
        needs_erase(self)
        picture = self.plot("--to", "256", "--edits", "add 128 0 0x43; erase 100 300", "--log", "examples/echo/log",
                            "examples/echo/boot.s")
        self.holds(self.texts(picture), "1 byte", "'A'", "add 128 0 0x43", "erase 100 300")
        places = [float(line.get("x1", "0")) for line in picture.iter(f"{SVG}line") if line.get("class") == "edit"]
        # The run goes from 190 to 1,040, so step 128 of 256 is half of it.
        self.assertEqual(places, [615.0, 615.0])

    def test_an_edit_that_changes_nothing_has_no_step(self) -> None:
        needs_erase(self)
        edits = "erase 300 400; erase 300 400; set 0 0x41; patch 0x200 7"
        picture = self.plot("--to", "256", "--edits", edits, "--log", "examples/echo/log", "examples/echo/boot.s")
        self.holds(self.texts(picture), "patch 0x200 7", *["erase 300 400 (changes nothing)"] * 2, "set 0 0x41 (changes nothing)")
        places = [float(line.get("x1", "0")) for line in picture.iter(f"{SVG}line") if line.get("class") == "edit"]
        self.assertEqual(places, [190.0])

    def test_words_of_a_user_program(self) -> None:
        """The program's only store to 0x00500000, which is the physical 0x11000, is made in step 30."""
        for name in "0x00500000", "p:0x11000":
            texts = self.texts(self.plot("--to", "100", "--words", name, "examples/user-mode/boot.s"))
            self.holds(texts, name, "0x0000002a")
        shown = drawn("--to", "20", "--words", "0x500000", "examples/user-mode/boot.s")
        self.assertIn("0x00500000 is mapped at none of 20 positions of the run. At the end 0x00500000 leads nowhere", shown)

    def test_framing_errors_and_external_lines(self) -> None:
        needs_kinds(self)
        edits = "wire 10 1 1; wire 20 1 0; ferr 70 0 0x41"
        texts = self.texts(self.plot("--to", "256", "--edits", edits, "examples/echo/boot.s"))
        self.holds(texts, "line 0 receives", "1 byte", "'A'", "line 0 sends", "'A'", "external line 1", "0x00000000", "1", "0", "loop",
                   "wire 10 1 1")

    def test_shares_of_a_short_run_are_exact(self) -> None:
        # The set-up takes steps 0 to 8; each turn takes 6 steps from `loop` on, 3 from `none` and 2 from `next`, and
        # 22 turns and 5 steps are made up to 256: 137, 66 and 44 of 256.
        texts = self.texts(self.plot("--to", "256", "examples/echo/boot.s"))
        self.holds(texts, "loop", "53.5 %", "none", "25.8 %", "next", "17.2 %", "0xbfc00000", "3.5 %")

    def test_the_picture_of_the_page(self) -> None:
        page = (ROOT / "docs/DEBUGGING.md").read_text()
        found = re.search(r"(?m)^    bin/wb plot (.*) (docs/\S+)$", page)
        assert found
        shown = drawn(*found[1].split())
        self.assertEqual(shown, (ROOT / found[2]).read_text("latin-1"))

    def test_backgrounds(self) -> None:
        choices: list[list[str]] = [[], ["--background", "light"], ["--background=dark"]]
        styles = [self.plot(*words, "--to", "100", "examples/login/login.rom").findtext(f"{SVG}style",
                                                                                        "") for words in choices]
        self.assertEqual([("#ffffff" in it, "#0d1117" in it, "prefers-color-scheme" in it) for it in styles],
                         [(True, True, True), (True, False, False), (False, True, False)])

    def test_a_file_is_written_whole_or_not_at_all(self) -> None:
        with tempfile.TemporaryDirectory() as folder:
            out, kernel = Path(folder) / "run.svg", Path(folder) / "kernel.elf"
            for _ in range(2):
                self.assertEqual(drawn(*LOGIN, str(out)), "")
                ElementTree.parse(out)
            kernel.write_bytes(b"\x7fELF")
            self.assertEqual(drawn(*LOGIN, str(kernel)),
                             f"bin/wb: {kernel} is there and is no picture of a run. `--force` overwrites it\n")
            self.assertEqual(kernel.read_bytes(), b"\x7fELF")
            self.assertEqual(drawn("--force", *LOGIN, str(kernel)), "")
            ElementTree.parse(kernel)
            self.assertIn("can't be written", drawn(*LOGIN, f"{folder}/none/run.svg"))

    def test_what_is_wrong_is_told(self) -> None:
        for words, reason in (
                (["examples/login/login.elf"], "usage:"), (["--to", "x", *LOGIN[2:]], "argument --to: 'x' is no number"),
                (["--to", "0", *LOGIN[2:]], "from 1 to"),
                (["--background", "red", *LOGIN], "argument --background: invalid choice: 'red'"),
                (["--words", "nothing", *LOGIN], "there is no word nothing"),
                (["--words", "p:0x1fe00000", *LOGIN], "no memory stands at the physical address 0x1fe00000"),
                (["--words", "0xbfe00000", *LOGIN], "0xbfe00000 leads to the physical address 0x1fe00000, where no memory is"),
                (["--words", "0x1000", *LOGIN], "0x00001000 is mapped at none of "),
                (["--edits", "goto 5", *LOGIN], "goto 5 is no edit"),
                (["--edits", "del 99", *LOGIN], "there is no event 99: they are 0 to ")):
            self.assertIn(reason, drawn(*words))


if __name__ == "__main__":
    unittest.main()
