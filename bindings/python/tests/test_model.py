"""Random lists of calls, on a file and on a dict that says what each has to answer."""

from __future__ import annotations

import random
from typing import Dict, Iterator, List, Optional, Tuple

import gyomrelas
from gyomrelas import Kind, Plan, Refusal

from .samples import Case, read_plainly

NAMES = ["a", "B", "log", "Jets", "x" * 31, "é", "\ud800", "\U0001F600", "a b"]
BAD = ["", "a:b", "y" * 32, "no!"]


class Model:
    """A dict from paths in capitals to a spelling and bytes, or None for a storage; and how much room there is."""

    def __init__(self, plan: Plan) -> None:
        assert plan.free_sectors is not None
        self.sector = 4096 if plan.version == 4 else 512
        self.sectors = plan.free_sectors
        self.minis = plan.mini_sectors
        self.blank = plan.directory_sectors * (self.sector // 128) - 1
        self.objects: Dict[str, Tuple[str, Optional[bytes]]] = {}

    def units(self, length: int) -> Tuple[int, int]:
        """The sectors and mini sectors of a stream."""
        return (-(-length // self.sector), 0) if length >= 4096 else (0, -(-length // 64))

    def content(self, path: str) -> Optional[bytes]:
        return self.objects[path.upper()][1]

    def find(self, path: str) -> int:
        names = path.split("/") if path else []
        if any(name.lower() in BAD for name in names):
            return 20
        for depth in range(1, len(names) + 1):
            key = "/".join(names[:depth]).upper()
            if key not in self.objects:
                return 21
            if depth < len(names) and self.objects[key][1] is not None:
                return 22
        return 0

    def stream(self, path: str) -> int:
        answer = self.find(path)
        return answer or (23 if path == "" or self.content(path) is None else 0)

    def create(self, path: str, content: Optional[bytes]) -> int:
        answer = self.find(path)
        if answer == 0:
            return 29
        parent = path.rpartition("/")[0]
        if answer == 21 and self.find(parent) == 0:
            if parent and self.content(parent) is not None:
                return 22
            if self.blank == 0:
                return 30
            spelled = self.objects[parent.upper()][0] + "/" if parent else ""
            self.objects[path.upper()] = (spelled + path.rpartition("/")[2], content)
            self.blank -= 1
            return 0
        return answer

    def remove(self, path: str) -> int:
        answer = self.find(path)
        if answer or path == "":
            return answer or 31
        if any(other.startswith(path.upper() + "/") for other in self.objects):
            return 28
        self.put(path, b"")
        del self.objects[path.upper()]
        self.blank += 1
        return 0

    def put(self, path: str, content: bytes) -> None:
        spelled, old = self.objects[path.upper()]
        sectors, minis = self.units(len(old or b""))
        more, more_minis = self.units(len(content))
        self.sectors += sectors - more
        self.minis += minis - more_minis
        self.objects[path.upper()] = (spelled, content)

    def set_len(self, path: str, length: int) -> int:
        answer = self.stream(path)
        if answer:
            return answer
        old = self.content(path) or b""
        sectors, minis = self.units(len(old))
        more, more_minis = self.units(length)
        # what it gives up on the other side of the cutoff is no room for it
        if more > self.sectors + sectors or more_minis > self.minis + minis:
            return 26
        self.put(path, (old + bytes(max(length - len(old), 0)))[:length])
        return 0

    def overwrite(self, path: str, offset: int, data: bytes) -> int:
        answer = self.stream(path)
        if answer:
            return answer
        old = self.content(path) or b""
        if offset + len(data) > len(old):
            return 24
        self.put(path, old[:offset] + data + old[offset + len(data) :])
        return 0

    def write_bytes(self, path: str, data: bytes) -> int:
        answer = self.stream(path)
        created = answer == 21
        if created:
            answer = self.create(path, b"")
        if answer == 0:
            answer = self.set_len(path, len(data))
            if answer == 0:
                return self.overwrite(path, 0, data)
            if created:
                self.remove(path)
        return answer


class Lists(Case):
    def path(self, draw: random.Random, model: Model) -> str:
        """A path that is there, or one below it, or any, with small letters for capitals now and then."""
        known = [spelled for spelled, _ in model.objects.values()]
        path = draw.choice(known) if known and draw.random() < 0.7 else ""
        if draw.random() < 0.4:
            path += ("/" if path else "") + draw.choice(NAMES)
        if draw.random() < 0.03:
            path += "/" + draw.choice(BAD)
        return path.swapcase() if draw.random() < 0.2 else path

    def calls(self, draw: random.Random, model: Model) -> Iterator[Tuple[str, str, Tuple[object, ...]]]:
        while True:
            name = draw.choice(["create_stream", "create_storage", "remove", "set_len", "overwrite", "write_bytes"])
            length = draw.choice([0, 1, 63, 64, 65, 500, 4095, 4096, 4097, draw.randrange(9000)])
            data = draw.getrandbits(8 * length).to_bytes(length, "little") if length else b""
            others: Dict[str, Tuple[object, ...]] = {
                "set_len": (length,),
                "overwrite": (draw.choice([0, 1, 100, draw.randrange(9000)]), data),
                "write_bytes": (data,),
            }
            yield name, self.path(draw, model), others.get(name, ())

    def answer(self, model: Model, name: str, path: str, others: Tuple[object, ...]) -> int:
        if name == "create_stream":
            return model.create(path, b"")
        if name == "create_storage":
            return model.create(path, None)
        answer: int = getattr(model, name)(path, *others)
        return answer

    def run_list(self, version: int, seed: int, count: int) -> List[int]:
        draw = random.Random(seed)
        plan = Plan.for_size(version, 65_536, 9, 6_000)
        model, file = Model(plan), gyomrelas.new(plan=plan)
        while model.blank > 11:
            # in version 4 the directory has 32 entries at least
            model.create(f"filler {model.blank}", None)
            file.create_storage(f"filler {model.blank + 1}")
        seen = []
        for name, path, others in self.calls(draw, model):
            before = file.tobytes()
            due = self.answer(model, name, path, others)
            try:
                getattr(file, name)(path, *others)
                answer = 0
            except Refusal as refusal:
                answer = refusal.number
            self.assertEqual(answer, due, (version, seed, len(seen), name, path))
            if answer:
                self.assertTrue(file.tobytes() == before, (name, path))
            objects = {object.path.upper(): object for object in file}
            self.assertEqual(objects.keys(), model.objects.keys())
            for key, (spelled, content) in model.objects.items():
                self.assertEqual((objects[key].path, objects[key].kind == Kind.STREAM), (spelled, content is not None))
                if content is not None:
                    self.assertTrue(file.read_bytes(spelled) == content, (version, seed, len(seen), spelled))
            seen.append(answer)
            if len(seen) == count:
                self.assertEqual(read_plainly(file.tobytes()), dict(model.objects.values()))
                gyomrelas.validate(file.tobytes())
                return seen
        raise AssertionError

    def test_lists_of_calls(self) -> None:
        for version in (3, 4):
            seen: List[int] = []
            for seed in range(8):
                seen += self.run_list(version, seed, 250)
            # the lists come to every answer that such a call can have
            self.assertEqual(set(seen), {0, 20, 21, 22, 23, 24, 26, 28, 29, 30, 31})
