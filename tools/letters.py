"""Small letters and their capitals, as names are compared (02, W-211), and the units around them. A name of one unit stands for the unit."""

SMALL = [u for u in [*range(0x61, 0x7B), *range(0xE0, 0xFF), *range(0x3B1, 0x3CA), *range(0x430, 0x450)] if u not in (0xF7, 0x3C2)]
CAPITALS = dict([(u, u - 0x20) for u in SMALL] + [(u, u - 0x50) for u in range(0x450, 0x460)] + [(0xFF, 0x178)])


def units(name):
    b = name.encode("utf-16-le")
    return [b[i] + 256 * b[i + 1] for i in range(0, len(b), 2)]


def order(name):
    """The order of siblings (01, group 15): by units, then unit by unit with small letters taken as capitals."""
    return len(units(name)), [CAPITALS.get(u, u) for u in units(name)]


def pairs(text):
    return [(a, b) for a, b in zip(*[iter(chr(int(u, 16)) for u in text.split())] * 2)]


# each small letter at an end of a range, or beside what is left out of it, with its capital
ENDS = pairs("""0061 0041  007A 005A  00E0 00C0  00F6 00D6  00F8 00D8  00FE 00DE  00FF 0178  03B1 0391  03C1 03A1  03C3 03A3  03C9 03A9
                0430 0410  044F 042F  0450 0400  045F 040F""")

# those small letters, what is left out, and the units beside them and beside their capitals, in order
IN_ORDER = [chr(int(u, 16)) for u in """0040 0061 0042 0059 007A 005B 0060 007B 00BF 00E0 00C1 00D5 00F6 00D7 00F8 00D9 00DD 00FE 00DF 00F7 0100 0158 0177 00FF 0179
    0390 03B1 0392 03A0 03C1 03A2 03C3 03A4 03A8 03C9 03AA 03B0 03C2 03CA 03FF 0450 0401 040E 045F 0430 0411 042E 044F 0460 0461""".split()]

# in order, though by the plain units the other one comes first; for each end of a range
OUT_OF_PLAIN_ORDER = pairs("""0061 0042  007A 005B  00E0 00C1  00F6 00D7  00F8 00F7  00FE 00DF  0177 00FF  03B1 0392  03C1 03A2  03C3 03C2  03C9 03AA
                              0430 0411  0450 044F  0450 0401  045F 0410""")

# different, though a range one unit longer, or moved as another one, or what is left out of it, would make them equal
BESIDE = pairs("""0060 0040  007B 005B  00DF 00BF  00F7 00D7  00FF 00DF  0100 00E0  0100 0179  00FE 0177  0178 0158  00D8 0178  03B0 0390  03C2 03A2  03CA 03AA
    042F 040F  042F 045F  044F 03FF  0450 0430  0450 0410  045F 042F  045F 043F  0460 0410  0460 0430  0460 0440  0430 03E0""")
# different: capitals are not moved in their turn; pairs of Unicode; units with a letter's lower half, or with its halves exchanged
OTHERS = pairs("""00C0 00A0  0391 0371  0410 03F0  0400 03B0  0400 03E0  03C2 03A3  03C2 03C3  0101 0100  0161 0160  0153 0152  03AC 0386  03CE 038F  0461 0460  0491 0490
    0561 0531  1E9E 00DF  00B5 039C  00B5 03BC  017F 0053  017F 0073  0131 0049  0130 0069  212A 006B  212B 00E5  2126 03C9  FF41 FF21
    0161 0141  6100 4100  01E0 01C0  E000 C000  04B1 0491  B103 9103  0530 0510  3004 1004  0550 0500  10FF 1178  8061 8041""")


def respelled(name):
    """Each letter in the other case."""
    other = {**CAPITALS, **{capital: small for small, capital in CAPITALS.items()}}
    return "".join(chr(other.get(u, u)) for u in units(name))


assert all(order(a) == order(b) for a, b in ENDS) and all(order(a) != order(b) for a, b in BESIDE + OTHERS)
assert all(order(a) < order(b) for a, b in zip(IN_ORDER, IN_ORDER[1:])) and all(order(a) < order(b) and a > b for a, b in OUT_OF_PLAIN_ORDER)
