"""Fresh files and their plans."""

from __future__ import annotations

import gyomrelas
from gyomrelas import GREATEST_IMAGE, Plan

from .samples import Case


class Plans(Case):
    def test_what_a_plan_says_is_there(self) -> None:
        for version, sector in ((3, 512), (4, 4096)):
            for size in (16 * sector, 200 * sector, 1 << 21):
                plan = Plan.for_size(version, size, 5, 1_000)
                file = gyomrelas.new(plan=plan)
                self.assertEqual((len(file.tobytes()), list(file)), (size, []))
                free = plan.free_sectors
                assert free is not None
                # five objects: four small streams with 1,000 bytes in the worst spread, and all sectors for another
                for number, length in enumerate((1, 1, 1, 997)):
                    file.write_bytes(f"small {number}", b"s" * length)
                if sector * free >= 4096:
                    file.write_bytes("large", b"L" * (sector * free))
                    self.refused(26, file.set_len, "large", sector * free + 1)
                file.validate()

    def test_all_free_sectors_can_be_had(self) -> None:
        # the header lists 109 FAT sectors, and a DIFAT sector 127 more
        for fat in (108, 109, 110, 236, 237):
            plan = Plan.for_size(3, (128 * fat + 1) * 512, 3, 0)
            free = plan.free_sectors
            assert free is not None
            file = gyomrelas.new(plan=plan)
            file.create_stream("large")
            self.refused(26, file.set_len, "large", 512 * free + 1)
            file.set_len("large", 512 * free)

    def test_small_streams_are_at_most_so_small(self) -> None:
        plan = Plan.for_size(3, 65_536, 2, 50_000)
        self.assertEqual(plan.mini_sectors, 128)
        file = gyomrelas.new(plan=plan)
        self.assertEqual([file.write_bytes(name, bytes(4095)) for name in ("one", "two")], [4095, 4095])

    def test_all_objects_fit(self) -> None:
        for version in (3, 4):
            for objects in (1, 3, 4, 31, 32, 100):
                file = gyomrelas.new(1 << 18, version=version, objects=objects, small_bytes=objects)
                for number in range(objects):
                    self.assertEqual(file.write_bytes(f"stream {number}", b"x"), 1)

    def test_sizes(self) -> None:
        for version, sector in ((3, 512), (4, 4096)):
            for sectors in list(range(3, 60)) + [2048, GREATEST_IMAGE // sector]:
                file = gyomrelas.new(sectors * sector, version=version)
                self.assertEqual(len(file.tobytes()), sectors * sector)
                file.write_bytes("one", b"")
            self.refused(1, gyomrelas.new, 2 * sector, version=version)
            self.refused(1, gyomrelas.new, GREATEST_IMAGE + sector, version=version)
        self.assertEqual(len(gyomrelas.new().tobytes()), 1 << 20)

    def test_a_plan_is_refused_exactly_if_the_library_refuses_it(self) -> None:
        for version in (3, 4, 5):
            for directory in (0, 1, 5):
                for mini_fat in (0, 1, 2):
                    for minis in (0, 1, 128, 129, 200, 1024, 1025):
                        for sectors in (2, 8, 30, 40, 129):
                            plan = Plan(version, sectors, directory, mini_fat, minis)
                            if plan.free_sectors is None:
                                self.refused(32, plan.image)
                            else:
                                gyomrelas.validate(plan.image())

    def test_wrong_numbers(self) -> None:
        self.assertRaises(ValueError, gyomrelas.new, -512)
        self.assertRaises(ValueError, gyomrelas.new, 65_536, objects=-1)
        self.assertRaises(ValueError, Plan(3, 127, -1, 0, 0).image)
        self.assertRaises(TypeError, gyomrelas.new, 65_536.0)
