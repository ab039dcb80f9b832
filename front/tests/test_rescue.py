"""Edits that are not saved, when a terminal is closed, a process is ended, or a debugger goes away."""
from __future__ import annotations

import os
import shutil
import signal
import subprocess
import tempfile
import unittest
from pathlib import Path
from typing import Optional

from bezhakkom import saved
from bezhakkom.loading import Opening
from front.tests import brute, debugger
from front.tests.support import ROOT
from front.tests.terminal import Terminal

IMAGE = "examples/login/login.elf"
LOGIN = ("--log", "examples/login/log", IMAGE)
OFFER = b"an earlier run of examples/login/login.elf ended with edits that were not saved: `bin/wb shell "


class Kept(unittest.TestCase):
    """Event 2 of the log is deleted, or a byte is typed, and the session of that has to be in the folder."""

    def setUp(self) -> None:
        folder = tempfile.TemporaryDirectory()
        self.addCleanup(folder.cleanup)
        self.state = folder.name
        # `nohup` ignores it, and so does what is started below.
        self.addCleanup(signal.signal, signal.SIGHUP, signal.signal(signal.SIGHUP, signal.SIG_DFL))

    def sessions(self) -> list[Path]:
        return sorted(Path(self.state, "bezhakkom").glob("*.session"))

    def started(self, *words: str, prompt: bytes, keys: bytes, shown: bytes) -> Terminal:
        terminal = Terminal(*words, XDG_STATE_HOME=self.state)
        terminal.until(prompt)
        terminal.type(keys)
        terminal.until(shown)
        return terminal

    def edited(self, name: str) -> Terminal:
        """A front end in which event 2 was deleted, or one in which an `a` was typed."""
        if name == "console":
            return self.started(name, *LOGIN, prompt=b"password: ", keys=b"a", shown=b"operator")
        begin, prompt = (b"wb ", b"(0) ") if name == "gdb" else (b"", b"wb 0> ")
        words = debugger.PLAIN if name == "gdb" else ()
        return self.started(name, *LOGIN, *words, prompt=prompt, keys=begin + b"del 2\n", shown=b"9 events left")

    def check(self, name: str) -> None:
        """There is one session, whose log is the edited one."""
        session, = self.sessions()
        with saved.running(Opening((str(session),))) as driver:
            if name == "console":
                self.assertEqual(len(driver.log), 11)
                self.assertIn(ord("a"), [it.byte for it in driver.log])
            else:
                self.assertEqual(driver.log, brute.without(brute.log_of("login"), 2))

    def names(self) -> list[str]:
        return ["shell", "console"] + ["gdb"] * bool(shutil.which(debugger.DEBUGGER))

    def test_closed_terminal_keeps_the_edits_and_the_next_start_offers_them_once(self) -> None:
        for name in self.names():
            with self.subTest(name):
                terminal = self.edited(name)
                terminal.close()
                self.check(name)
                for offered in True, False:
                    shell = Terminal("shell", *LOGIN, XDG_STATE_HOME=self.state)
                    self.assertEqual(OFFER in shell.until(b"wb 0> "), offered)
                    shell.leave(b"quit\n")
                self.sessions()[0].unlink()

    def test_sigterm_keeps_the_edits_and_shows_their_name(self) -> None:
        for name in self.names():
            with self.subTest(name):
                terminal = self.edited(name)
                status, shown = terminal.terminate()
                self.assertEqual(os.waitstatus_to_exitcode(status), 128 + signal.SIGTERM)
                self.assertIn(str(self.sessions()[0]).encode(), shown)
                self.check(name)
                self.assertEqual(list(Path(self.state, "bezhakkom").glob("*.unseen")), [])
                self.sessions()[0].unlink()

    @unittest.skipUnless(shutil.which(debugger.DEBUGGER), f"{debugger.DEBUGGER} is not installed")
    def test_quit_that_was_warned_and_a_batch_keep_nothing(self) -> None:
        terminal = self.edited("gdb")
        terminal.type(b"quit\n")
        terminal.until(b"`quit` again leaves without it.")
        terminal.type(b"quit\n")
        self.assertEqual(terminal.end(), 0)
        subprocess.run([debugger.WB, "gdb", *LOGIN, *debugger.PLAIN, "-batch", "-ex", "wb del 2"], cwd=ROOT, check=True,
                       stdout=subprocess.DEVNULL, env={**os.environ, "XDG_STATE_HOME": self.state})
        self.assertEqual(self.sessions(), [])

    @unittest.skipUnless(shutil.which(debugger.DEBUGGER), f"{debugger.DEBUGGER} is not installed")
    def test_gdb_without_a_terminal_names_what_is_not_saved_and_keeps_it(self) -> None:
        for typed in b"wb del 2\n", b"wb del 2\nquit\n":
            done = subprocess.run([debugger.WB, "gdb", *LOGIN, *debugger.PLAIN], cwd=ROOT, input=typed, stdout=subprocess.PIPE, stderr=subprocess.PIPE,
                                  env={**os.environ, "XDG_STATE_HOME": self.state})
            self.assertIn(b"not saved: the log (wb save-log FILE)\n", done.stdout)
            session, = self.sessions()
            name = f"this run of {IMAGE} ended with edits that were not saved: `bin/wb shell {session}` opens them\n"
            self.assertEqual(done.stderr.count(str(session).encode()), 1, done.stderr)
            self.assertIn(name.encode(), done.stderr)
            self.check("gdb")
            for it in Path(self.state, "bezhakkom").iterdir():
                it.unlink()

    @unittest.skipUnless(shutil.which(debugger.DEBUGGER), f"{debugger.DEBUGGER} is not installed")
    def test_gdb_on_a_kept_session_names_its_files_as_the_user_knows_them(self) -> None:
        self.edited("shell").close()
        session, = self.sessions()
        shown = debugger.run([debugger.WB, "gdb", str(session), *debugger.PLAIN, "-batch", "-ex", "print main"])
        self.assertIn(f"Reading symbols from login.elf in {session}...\n", shown)
        self.assertIn("<main>", shown)
        self.assertNotIn("/files/", shown, "where the file stands for a while")

    @unittest.skipUnless(shutil.which(debugger.DEBUGGER), f"{debugger.DEBUGGER} is not installed")
    def test_start_of_gdb_offers_once(self) -> None:
        self.edited("shell").close()
        terminal = Terminal("gdb", *LOGIN, *debugger.PLAIN, XDG_STATE_HOME=self.state)
        shown = terminal.until(b"(0) ")
        terminal.type(b"quit\n")
        self.assertEqual(terminal.end(), 0)
        self.assertEqual((shown + terminal._shown).count(OFFER), 1)

    def test_stub_whose_debugger_goes_away_keeps_the_edits(self) -> None:
        for last in b"", b"$D#44":  # a killed debugger, and one that detaches
            with subprocess.Popen([debugger.WB, "stub", *LOGIN], cwd=ROOT, stdin=subprocess.PIPE, stdout=subprocess.PIPE,
                                  stderr=subprocess.PIPE, env={**os.environ, "XDG_STATE_HOME": self.state}) as stub:
                line = b"qRcmd," + b"del 2".hex().encode()
                shown = stub.communicate(b"$%s#%02x" % (line, sum(line) % 256) + last)[1]
            session, = self.sessions()
            self.assertIn(str(session).encode(), shown)
            self.check("stub")
            session.unlink()

    def test_image_at_another_place_is_offered_nothing(self) -> None:
        terminal = self.edited("shell")
        terminal.close()
        copy = shutil.copy(ROOT / IMAGE, self.state)
        shell = Terminal("shell", str(copy), XDG_STATE_HOME=self.state)
        self.assertNotIn(b"an earlier run", shell.until(b"wb 0> "))
        shell.leave(b"quit\n")


if __name__ == "__main__":
    unittest.main()
