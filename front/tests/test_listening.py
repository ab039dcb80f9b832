"""The stub at a port: one debugger at a time, until Ctrl-C."""
from __future__ import annotations

import os
import re
import signal
import socket
import subprocess
import tempfile
import unittest

from bezhakkom import listening, saved
from bezhakkom.errors import Problem
from bezhakkom.loading import Opening
from front.tests.support import ROOT
from front.tests.wire import packed

PATIENCE = 30
STUB = [str(ROOT / "bin/wb"), "stub", "--listen"]
IMAGE = str(ROOT / "examples/echo/boot.s")


class Listening(unittest.TestCase):
    def setUp(self) -> None:
        self.begin(IMAGE)

    def begin(self, image: str) -> None:
        state = tempfile.TemporaryDirectory()
        self.addCleanup(state.cleanup)
        self.stub = subprocess.Popen([*STUB, ":0", image], stdin=subprocess.DEVNULL, stderr=subprocess.PIPE, encoding="utf-8",
                                     start_new_session=True, env={**os.environ, "XDG_STATE_HOME": state.name})
        self.addCleanup(self.stub.__exit__, None, None, None)
        self.addCleanup(self.stub.kill)
        found = re.fullmatch(r"bin/wb: waits for a debugger at 127\.0\.0\.1:(\d+); Ctrl-C ends this\n", self.said())
        assert found
        self.address = "127.0.0.1", int(found[1])

    def said(self) -> str:
        """The next line that the stub says."""
        assert self.stub.stderr
        return self.stub.stderr.readline()

    def connect(self) -> socket.socket:
        connection = socket.create_connection(self.address, PATIENCE)
        self.addCleanup(connection.close)
        self.assertRegex(self.said(), "a debugger is there, from 127.0.0.1:")
        return connection

    def ask(self, connection: socket.socket, packet: str) -> str:
        connection.sendall(packed(packet.encode()))
        reply = b""
        while not re.fullmatch(rb"\+\$.*#..", reply):
            piece = connection.recv(4096)
            self.assertTrue(piece)
            reply += piece
        connection.sendall(b"+")
        return reply[2:-3].decode()

    def test_one_debugger_at_a_time(self) -> None:
        first = self.connect()
        self.assertEqual(self.ask(first, "?"), "T05")
        with self.assertRaises(ConnectionRefusedError):
            socket.create_connection(self.address, PATIENCE)
        self.assertEqual(self.ask(first, "Mbfc00004,1:02"), "OK")
        self.assertEqual(self.ask(first, "s"), "T05")
        self.assertEqual(self.ask(first, "D;1"), "OK")
        self.assertRegex(self.said(), "the debugger has left")
        self.assertRegex(self.said(), f"waits for a debugger at 127.0.0.1:{self.address[1]};")
        second = self.connect()
        self.assertEqual(self.ask(second, "mbfc00004,1"), "02")
        self.assertEqual(self.ask(second, "p25"), "0400c0bf")
        second.close()
        self.assertRegex(self.said(), "the debugger has left")

    def test_next_debugger_is_served_after_one_that_left_a_run_with_packets_behind_it(self) -> None:
        self.begin(str(ROOT / "examples/driver/boot.s"))
        first = self.connect()
        first.sendall(packed(b"qRcmd," + b"idle 0".hex().encode()) + packed(b"c") + packed(b"g"))
        first.close()
        self.assertRegex(self.said(), "the debugger has left")
        self.said()
        self.assertEqual(self.ask(self.connect(), "?"), "T05")

    def test_ctrl_c_without_edits_ends_it(self) -> None:
        os.killpg(self.stub.pid, signal.SIGINT)
        self.assertEqual((self.stub.communicate(timeout=PATIENCE)[1], self.stub.returncode), ("", 0))

    def test_a_signal_keeps_what_is_not_saved(self) -> None:
        """Each ends a run that is under way, and the stub."""
        for number, name, status in (signal.SIGTERM, "SIGTERM", 128 + signal.SIGTERM), (signal.SIGINT, "Ctrl-C", 0):
            with self.subTest(name):
                connection = self.connect()
                self.assertEqual(self.ask(connection, "Mbfc00004,1:02"), "OK")
                connection.sendall(packed(b"Z0,bfc00100,4") + packed(b"c"))
                os.killpg(self.stub.pid, number)
                rest = self.stub.communicate(timeout=PATIENCE)[1]
                self.assertEqual(self.stub.returncode, status)
                found = re.fullmatch(rf"bin/wb: ended by {name}: what was not saved is in (\S+), which `bin/wb shell` opens\n", rest)
                assert found, rest
                with saved.running(Opening((found[1],))) as driver:
                    self.assertEqual([place for place, _ in driver.patches], [0x1FC0_0004])
                    self.assertEqual(driver.shown(0x1FC0_0004, 1)[-3:-1], b"02")
            self.begin(IMAGE)

    def test_a_port_that_is_taken(self) -> None:
        where = f"127.0.0.1:{self.address[1]}"
        done = subprocess.run([*STUB, where, IMAGE], stdin=subprocess.DEVNULL, stderr=subprocess.PIPE, encoding="utf-8")
        self.assertEqual((done.returncode, done.stderr), (2, f"bin/wb: {where} can't be listened at: Address already in use\n"))

    def test_a_stub_without_a_debugger(self) -> None:
        for closed in "<&-", ">&-":
            line = ["sh", "-c", f'exec "$0" stub "$1" {closed}', str(ROOT / "bin/wb"), IMAGE]
            done = subprocess.run(line, stdin=subprocess.DEVNULL, stderr=subprocess.PIPE, encoding="utf-8")
            self.assertEqual((done.returncode, done.stderr),
                             (2, "bin/wb: a stub wants a debugger at standard input and output, or --listen HOST:PORT\n"))

    def test_addresses(self) -> None:
        for where, wanted in (("1234", True), (":1234", True), ("localhost:0", True), ("[::1]:5", True), ("0.0.0.0:5", False),
                              ("example:5", False)):
            self.assertEqual(listening.is_loopback(where), wanted, where)
        for where in "", "x", "host:", "host:x", "1:2:3", "host:65536", "::1:5", "-1":
            with self.assertRaisesRegex(Problem, "wants HOST:PORT"):
                listening.is_loopback(where)


if __name__ == "__main__":
    unittest.main()
