"""Packets, byte by byte. The checksums are sums of characters, as the protocol's description has them."""
from __future__ import annotations

import random
import time
import unittest

from bezhakkom.rsp import PACKET_BYTES
from front.tests.support import rom, start
from front.tests.wire import Wire


class Packets(unittest.TestCase):
    def setUp(self) -> None:
        self.wire = Wire(start(rom([0])))
        self.addCleanup(self.wire.close)

    def exchange(self, put: bytes, expected: bytes) -> None:
        self.wire.put(put)
        self.assertEqual(self.wire.take(len(expected)), expected)

    def test_a_packet_is_acknowledged_and_answered(self) -> None:
        self.exchange(b"$?#3f", b"+$T05#b9")

    def test_a_packet_that_is_not_known_has_an_empty_reply(self) -> None:
        self.exchange(b"$vMustReplyEmpty#3a", b"+$#00")

    def test_a_wrong_checksum_is_asked_for_again(self) -> None:
        self.exchange(b"$?#3e", b"-")
        self.exchange(b"$?#zz", b"-")
        self.exchange(b"$?#3F", b"+$T05#b9")

    def test_a_reply_comes_again_when_it_is_asked_for(self) -> None:
        self.exchange(b"$?#3f", b"+$T05#b9")
        self.exchange(b"-", b"$T05#b9")

    def test_what_stands_between_packets_is_passed_over(self) -> None:
        self.exchange(b"\x00+++ garbage \xff\x03#12$?#3f", b"+$T05#b9")

    def test_a_packet_that_begins_anew_is_the_later_one(self) -> None:
        self.exchange(b"$qSuppo$?#3f", b"+$T05#b9")

    def test_escaped_bytes_are_themselves(self) -> None:
        # Twelve bytes at ROM's second word, of which three are escaped: } # $.
        data = b"}\x5d}\x03}\x04" + bytes(9)
        payload = b"Xbfc00004,c:" + data
        self.exchange(b"$%s#%02x" % (payload, sum(payload) % 256), b"+$OK#9a")
        self.assertEqual(self.wire.ask("mbfc00004,4"), "7d232400")

    def test_after_the_agreement_nothing_is_acknowledged(self) -> None:
        self.exchange(b"$QStartNoAckMode#b0", b"+$OK#9a")
        self.exchange(b"+$?#3f", b"$T05#b9")
        self.exchange(b"$?#00", b"$#00")
        self.exchange(b"-$?#3f", b"$T05#b9")

    def test_a_packet_that_is_too_long_does_nothing(self) -> None:
        payload = b"Xbfc00000,%x:" % (2 * PACKET_BYTES) + b"A" * 2 * PACKET_BYTES
        self.exchange(b"$%s#%02x" % (payload, sum(payload) % 256), b"+$#00")
        self.assertEqual(self.wire.ask("mbfc00000,4"), "00000000")

    def test_a_link_that_closes_in_a_packet_ends_the_stub(self) -> None:
        self.wire.put(b"$qSupp")
        self.wire.close()
        self.assertFalse(self.wire.serves())

    def test_random_bytes(self) -> None:
        source = random.Random(3)
        for _ in range(2000):
            self.wire.put(bytes(source.choices(b"$#}+-*\x03\x00m0g,\xff", k=source.randrange(1, 9))))
        # What was begun is over after the first `#` and two digits.
        self.wire.put(b"#00" + b"$vMustReplyEmpty#3a")
        end = time.monotonic() + 10
        shown = b""
        while not shown.endswith(b"+$#00") and time.monotonic() < end:
            shown += self.wire.take(1)
        self.assertTrue(shown.endswith(b"+$#00"))
        self.assertTrue(self.wire.serves())


if __name__ == "__main__":
    unittest.main()
