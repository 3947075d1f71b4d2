"""The file that documents 001 and 003 both print as their example, piece by piece, each piece with what gives its bytes.

A piece is its first byte's place, its source and its bytes. The sources, best first:
  dump    printed in the hex dump
  spoilt  printed in the dump with a word or characters lost, and read with the help of the field list or of an equal field
  list    lost in the dump, given in the list of fields
  text    lost in both, given by a sentence
  filled  not given by that document"""
DUMP, SPOILT, LIST, TEXT, FILLED = SOURCES = ["dump", "spoilt", "list", "text", "filled"]


def h(text):
    return bytes.fromhex(text)


def free(cells):
    return b"\xFF" * (4 * cells)


def units(name):
    return name.encode("utf-16-le")


# 544 bytes of a stream, in mini sectors 0 to 8 of the sectors 3 and 4
stream = b"Data for stream 1" * 32
mini_cells = b"".join((i + 1).to_bytes(4, "little") for i in range(8))
storage_class = h("0061 6156 54C1 CE11 8553 00AA 00A1 F95B")
storage_times = h("0088 F912 4BB4 BA01 801E 9213 4BB4 BA01")

DOC001 = [
    # the header: behind the first row the dump is printed by columns with words lost; its last four rows are whole and agree
    (0x000, DUMP, h("D0CF 11E0 A1B1 1AE1") + bytes(8)),
    (0x010, LIST, bytes(8) + h("3E00 0300 FEFF 0900 0600") + bytes(6)),
    (0x028, LIST, h("00000000 01000000 01000000 00000000 00100000 02000000 01000000 FEFFFFFF 00000000 00000000") + free(108)),
    # the FAT: row 200 has seven words of eight, row 210 two, all others one
    (0x200, DUMP, h("FDFFFFFF FEFFFFFF")),
    (0x208, SPOILT, h("FEFFFFFF")),
    (0x20C, DUMP, h("04000000 FEFFFFFF")),
    (0x214, LIST, free(1)),
    (0x218, TEXT, free(122)),
    # the root: rows 410 to 440, 460 and 470 have seven words of eight
    (0x400, DUMP, units("Root Entry") + bytes(10)),
    (0x41E, FILLED, bytes(2)),
    (0x420, DUMP, bytes(14)),
    (0x42E, FILLED, bytes(2)),
    (0x430, DUMP, bytes(14)),
    (0x43E, FILLED, bytes(2)),
    (0x440, DUMP, h("1600 05 01")),
    (0x444, SPOILT, h("FFFFFFFF FFFFFFFF")),
    (0x44C, DUMP, h("01000000 0067 6156 54C1 CE11 8553 00AA 00A1 F95B") + bytes(10)),
    (0x46A, LIST, bytes(2)),
    (0x46C, DUMP, h("801E 9213 4BB4 BA01 03000000 4002 0000 0000")),
    (0x47E, LIST, bytes(2)),
    # the storage: row 490 has seven words, row 4A0 six and a half; behind row 4B0 a run of zeros stands in place of the next four
    (0x480, DUMP, units("Storage 1") + bytes(12)),
    (0x49E, FILLED, bytes(2)),
    (0x4A0, DUMP, bytes(13)),
    (0x4AD, FILLED, bytes(3)),
    (0x4B0, DUMP, bytes(16)),
    (0x4C0, LIST, h("1400 01 01 FFFFFFFF FFFFFFFF 02000000") + storage_class + bytes(4) + storage_times + bytes(12)),
    # the stream: behind row 530 a run of zeros stands in place of the next four
    (0x500, DUMP, units("Stream 1") + bytes(48)),
    (0x540, LIST, h("1200 02 01 FFFFFFFF FFFFFFFF FFFFFFFF") + bytes(36) + h("00000000 20020000 00000000")),
    # a blank entry, and the mini FAT
    (0x580, DUMP, bytes(68) + free(3) + bytes(48)),
    (0x600, DUMP, mini_cells + h("FEFFFFFF") + free(119)),
    # the mini stream: rows 830 to 9F0 are left out, rows A20 to A40 lost
    (0x800, DUMP, stream[:48]),
    (0x830, FILLED, stream[48:512]),
    (0xA00, DUMP, stream[512:]),
    (0xA20, TEXT, bytes(48)),
    (0xA50, DUMP, bytes(432)),
]

DOC003 = [
    # the header: labels and first words of rows 010, 030 and 040 lost, further words spoilt; rows 060 to 1E0 are left out
    (0x000, SPOILT, h("D0CF 11E0 A1B1 1AE1")),
    (0x008, DUMP, bytes(8)),
    (0x010, LIST, bytes(4)),
    (0x014, DUMP, bytes(4) + h("3B00 0300")),
    (0x01C, SPOILT, h("FEFF")),
    (0x01E, DUMP, h("0900 0600")),
    (0x022, LIST, bytes(4)),
    (0x026, DUMP, h("0000 00000000 01000000")),
    (0x030, LIST, h("01000000")),
    (0x034, DUMP, h("00000000 00100000 02000000")),
    (0x040, LIST, h("01000000")),
    (0x044, DUMP, h("FEFF")),
    (0x046, SPOILT, h("FFFF")),
    (0x048, LIST, bytes(2)),
    (0x04A, DUMP, bytes(6) + h("FFFF")),
    (0x052, SPOILT, h("FFFF") + free(3)),
    (0x060, LIST, free(100)),
    (0x1F0, DUMP, free(4)),
    # the FAT is neither in the dump nor in a list
    (0x200, FILLED, h("FDFFFFFF FEFFFFFF FEFFFFFF 04000000 FEFFFFFF") + free(123)),
    # the root and the storage, of which words in rows 480 and 4C0 to 4E0 are spoilt
    (0x400, DUMP, units("Root Entry") + bytes(44) + h("1600 05 01 FFFFFFFF FFFFFFFF 01000000")),
    (0x450, DUMP, h("0067 6156 54C1 CE11 8553 00AA 00A1 F95B") + bytes(12) + h("801E 9213 4BB4 BA01 03000000 40020000 00000000")),
    (0x480, DUMP, units("St")),
    (0x484, SPOILT, units("o")),
    (0x486, DUMP, units("rage 1") + bytes(46) + h("1400 01 01")),
    (0x4C4, SPOILT, h("FFFFFFFF FFFFFFFF")),
    (0x4CC, DUMP, h("02000000 0061 6156")),
    (0x4D4, SPOILT, h("54C1 CE11")),
    (0x4D8, DUMP, h("8553 00AA")),
    (0x4DC, SPOILT, h("00A1")),
    (0x4DE, DUMP, h("F95B 00000000 0088 F912 4BB4")),
    (0x4EA, SPOILT, h("BA01 801E")),
    (0x4EE, DUMP, h("9213 4BB4 BA01") + bytes(12)),
    # the stream, and a blank entry, of which row 580 is lost
    (0x500, DUMP, units("Stream 1") + bytes(48) + h("1200 02 01 FFFFFFFF FFFFFFFF FFFFFFFF") + bytes(40) + h("20020000 00000000")),
    (0x580, TEXT, bytes(16)),
    (0x590, DUMP, bytes(52) + free(3) + bytes(48)),
    # the mini FAT: two words spoilt, rows 630 to 7F0 left out
    (0x600, SPOILT, h("01000000")),
    (0x604, DUMP, h("02000000 03000000 04000000")),
    (0x610, SPOILT, h("05000000")),
    (0x614, DUMP, h("06000000 07000000 08000000 FEFFFFFF") + free(3)),
    (0x630, TEXT, free(116)),
    # the mini stream: rows 830 to 9F0 and AA0 to BE0 are left out, row A20 and words of A80, A90 and BF0 lost
    (0x800, DUMP, stream[:48]),
    (0x830, FILLED, stream[48:512]),
    (0xA00, DUMP, stream[512:]),
    (0xA20, TEXT, bytes(16)),
    (0xA30, DUMP, bytes(80)),
    (0xA80, SPOILT, bytes(16)),
    (0xA90, DUMP, bytes(12)),
    (0xA9C, TEXT, bytes(340)),
    (0xBF0, DUMP, bytes(12)),
    (0xBFC, TEXT, bytes(4)),
]


def joined(pieces, blank=()):
    """The image; pieces of these sources are zero."""
    image = b""
    for place, source, content in pieces:
        assert place == len(image), hex(place)
        image += bytes(len(content)) if source in blank else content
    assert len(image) == 3072
    return image


def patched(image, *patches):
    for place, content in patches:
        image = image[:place] + content + image[place + len(content):]
    return image


def ranges(pieces):
    """First and last byte and source, neighbours of one source joined."""
    rows = []
    for place, source, content in pieces:
        if rows and rows[-1][2] == source:
            rows[-1][1] = place + len(content) - 1
        else:
            rows.append([place, place + len(content) - 1, source])
    return rows


whole001, whole003 = joined(DOC001), joined(DOC003)
# name, image, the answer of 01
IMAGES = [
    ("doc001.cfb", whole001, 0),
    ("doc001-given.cfb", joined(DOC001, [FILLED]), 0),
    # the runs of zeros taken at their word: entries 1 and 2 are then of type 0 and have names
    ("doc001-zeros.cfb", patched(whole001, (0x4C0, bytes(64)), (0x540, bytes(64))), 14),
    ("doc003.cfb", whole003, 0),
    ("doc003-list.cfb", patched(whole003, (0x018, h("3E00")), (0x4D0, bytes(16)), (0x4E4, bytes(16))), 0),
    # no FAT: the cell of sector 0 is not FATSECT
    ("doc003-given.cfb", joined(DOC003, [FILLED]), 11),
    # the spoilt word at 01C read as FFFF: no byte order
    ("doc003-misread.cfb", patched(whole003, (0x01C, h("FFFF"))), 10),
]
