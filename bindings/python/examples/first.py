"""Adds a line at the end of a stream, in memory: python3 bindings/python/examples/first.py"""

import gyomrelas

file = gyomrelas.open("samples/site.cfb", "r+")
size = file.get_size("Site/log")
print(size, "bytes")

with file.openstream("Site/log") as stream:
    stream.seek(0, 2)
    stream.write(b"end\n")

print(file.read_bytes("Site/log", size - 25).decode(), end="")
# file.save() would write it to the disk, and so would the end of a block `with gyomrelas.open(...) as file:`
