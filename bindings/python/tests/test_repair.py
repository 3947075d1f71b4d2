"""Files that are bent, and repaired."""

from __future__ import annotations

import struct

import gyomrelas
from gyomrelas import CompoundFile

from .samples import BREAKS, JETS, LOG, SITES, Case, broken, places, reddened, sample


class Repairs(Case):
    def test_bent_cells_and_colours(self) -> None:
        for name in SITES:
            image = sample(name)
            fat, directory, cells = places(image)
            due = bytearray(image)
            for entry in range(4):
                due[directory + 128 * entry + 67] = 1
            bent = bytearray(due)
            struct.pack_into("<I", bent, fat + 4 * (cells - 1), 5)
            bent[directory + 67] = 7
            self.refused(12, CompoundFile, bent)
            copy = bytes(bent)
            repaired = gyomrelas.repair(bent)
            self.assertEqual((repaired.data, repaired.changed), (bytes(due), 2))
            self.assertEqual(bytes(bent), copy)
            file = CompoundFile(repaired.data)
            self.assertEqual((file.read_bytes("Site/log"), file.read_bytes("Site/Jets")), (LOG, JETS))
            self.assertEqual(gyomrelas.repair(repaired.data), (bytes(due), 0))

    def test_what_cannot_be_repaired(self) -> None:
        for number in BREAKS:
            if number == 18:
                self.assertEqual(gyomrelas.repair(broken(18)).changed, 1)
            else:
                self.refused(number, gyomrelas.repair, broken(number))

    def test_red_entries_of_an_open_file(self) -> None:
        for name in SITES:
            black = sample(name)
            file = CompoundFile(reddened(black))
            self.assertEqual((file.repair(), file.tobytes() == black), (1, True))
            self.assertEqual((file.repair(), file.tobytes() == black), (0, True))
            file.overwrite("Site/log", 0, b"LINE")
            self.assertEqual(file.read_bytes("Site/log"), b"LINE" + LOG[4:])
