"""Fresh images (02, W-209): what is answered, and every byte of what is written. Python's integers have no bound, so sums and products are the true ones."""
from images import END, V3, V4, root, volume


def geometry(version):
    """The sizes that a plan goes by: an unknown version counts as 3."""
    return V4 if version == 4 else V3


def answer(length, version, sectors, directory, mini_fat, minis):
    """For a buffer of so many bytes: 1, 32 or 0."""
    g = geometry(version)
    if length % g.sector or not 3 * g.sector <= length <= 2 ** 26 or length != g.sector * (sectors + 1):
        return 1
    fat = -(-sectors // g.cells)
    difat = -(-max(0, fat - 109) // g.difat)
    parts = fat + difat + directory + mini_fat + g.need(64 * minis)
    if version not in (3, 4) or directory == 0 or minis > g.cells * mini_fat or parts > sectors:
        return 32
    return 0


def image(version, sectors, directory, mini_fat, minis):
    """The parts one behind the other. Up to 65,536 bytes there is one FAT sector, sector 0, and no DIFAT sector."""
    g = geometry(version)
    assert sectors <= g.cells
    ends = [1]
    for count in [directory, mini_fat, g.need(64 * minis)]:
        ends.append(ends[-1] + count)
    directory, mini_fat, mini_stream = (list(range(a, b)) for a, b in zip(ends, ends[1:]))
    start = mini_stream[0] if mini_stream else END
    return volume(sectors, directory, [mini_stream], [root(start=start, size=64 * minis)], mini_fat, g=g)
