"""Names as `cfb ls` prints them, and as 7-Zip does."""

# the letters that an installer's names pack, two in a unit
PACKED = "0123456789ABCDEFGHIJKLMNOPQRSTUVWXYZabcdefghijklmnopqrstuvwxyz._"


def units(text):
    raw = text.encode("utf-16-le", "surrogatepass")
    return [raw[i] | raw[i + 1] << 8 for i in range(0, len(raw), 2)]


def printed(text):
    """A name or a path as `cfb ls` prints it: `\\` and four digits of base 16 for what does not print."""
    return "".join(chr(unit) if 0x20 <= unit <= 0x7E and unit != 0x5C else "\\%04X" % unit for unit in units(text))


def typed(text):
    """The text that was printed so."""
    parts = text.split("\\")
    raw = b"".join([parts[0].encode("utf-16-le")] + [
        int(part[:4], 16).to_bytes(2, "little") + part[4:].encode("utf-16-le") for part in parts[1:]])
    return raw.decode("utf-16-le", "surrogatepass")


def as_seven(path, installer):
    """A path as 7-Zip shows it: control characters by number, and the names of an installer's tables unpacked."""
    return "/".join(seven_name(name, installer) for name in path.split("/"))


def seven_name(name, installer):
    if installer and any(0x3800 <= unit <= 0x4840 for unit in units(name)):
        return "".join(unpacked(unit) for unit in units(name))
    return "".join("[%d]" % ord(letter) if letter < " " else letter for letter in name)


def unpacked(unit):
    if unit == 0x4840:
        return "!"
    if 0x4800 <= unit < 0x4840:
        return PACKED[unit - 0x4800]
    if 0x3800 <= unit < 0x4800:
        return PACKED[unit & 63] + PACKED[unit - 0x3800 >> 6]
    return chr(unit)
