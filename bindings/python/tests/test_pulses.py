"""Pulse streams."""

from __future__ import annotations

import random
import struct
from typing import List

from gyomrelas import NO_RECORDS, CompoundFile, Pulse, Totals, new

from .samples import LOG, SITES, Case, sample, site


class Pulses(Case):
    def test_the_bytes_of_a_pulse_stream(self) -> None:
        for name in SITES:
            file = site(name)
            file.overwrite("Site/log", 4984, NO_RECORDS)
            pulses = file.pulses(["Site", "log"])
            self.assertEqual((pulses.summary(), list(pulses)), (Totals(0, 0), []))
            pulses.add(12, 25)
            pulses.add(65_535, 2**32 - 1)
            self.assertEqual(pulses.summary(), Totals(2, 25 + 2**32 - 1))
            self.assertEqual((pulses.record(0), pulses.record(1)), (Pulse(12, 25), Pulse(65_535, 2**32 - 1)))
            records = struct.pack("<HHIHHI", 12, 0, 25, 65_535, 0, 2**32 - 1)
            trailer = struct.pack("<IIQ", 32, 2, 25 + 2**32 - 1)
            self.assertEqual(file.read_bytes("Site/log"), LOG[:4984] + records + trailer)

    def test_numbers_that_do_not_fit(self) -> None:
        pulses = site().pulses("Site/log")
        for valve, ticks in ((-1, 1), (65_536, 1), (1, -1), (1, 2**32)):
            self.assertRaises(ValueError, pulses.add, valve, ticks)
        self.assertRaises(TypeError, pulses.add, 1.0, 1)
        self.assertRaises(ValueError, pulses.record, -1)

    def test_among_other_calls(self) -> None:
        """Additions are plain calls, between the calls of a file that is opened once."""
        draw = random.Random(3)
        for version in (3, 4):
            file = new(1 << 17, version=version, objects=9, small_bytes=12_000)
            preamble = b"preamble" * 500
            file.write_bytes("pulses", preamble + NO_RECORDS)
            pulses, stream = file.pulses("pulses"), file.openstream("pulses")
            due: List[Pulse] = []
            for number in range(200):
                valve, ticks = draw.randrange(65_536), draw.randrange(1, 2**32)
                pulses.add(valve, ticks)
                due.append(Pulse(valve, ticks))
                file.write_bytes(f"other {number % 5}", bytes([number]) * draw.randrange(900))
                if number % 7 == 0:
                    file.remove(f"other {number % 5}")
                if number % 20 == 0:
                    self.summed(file, due)
                    self.assertEqual(stream.size, len(preamble) + 16 + 8 * len(due))
            self.summed(file, due)
            self.summed(CompoundFile(file.tobytes()), due)
            self.assertEqual(file.read_bytes("pulses", 0, len(preamble)), preamble)

    def summed(self, file: CompoundFile, due: List[Pulse]) -> None:
        pulses = file.pulses("pulses")
        self.assertEqual(list(pulses), due)
        self.assertEqual(pulses.summary(), Totals(len(due), sum(pulse.ticks for pulse in due)))
        self.assertEqual(pulses.record(len(due) - 1), due[-1])

    def test_a_query_changes_nothing(self) -> None:
        file = CompoundFile(sample(), "r")
        self.refused(40, file.pulses("Site/log").summary)
        self.assertEqual(file.read_bytes("Site/log"), LOG)
        self.assertTrue(file.tobytes() == sample())
