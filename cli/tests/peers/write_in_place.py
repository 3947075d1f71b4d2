"""write_in_place.py FILE PATH BYTES: has olefile write a file's bytes over a stream of the same length."""
import sys

import olefile

with open(sys.argv[3], "rb") as f, olefile.OleFileIO(sys.argv[1], write_mode=True) as ole:
    ole.write_stream(sys.argv[2], f.read())
