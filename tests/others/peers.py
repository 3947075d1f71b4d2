"""peers.py FILE FOLDER: says whether olefile finds in the file what lies in the folder: its folders as storages, and its files as streams, byte by byte."""
import os
import sys

import olefile


def due(folder):
    """The paths of folders and of files, which have their bytes."""
    for here, folders, files in os.walk(folder):
        for name in folders:
            yield os.path.relpath(os.path.join(here, name), folder), None
        for name in files:
            path = os.path.join(here, name)
            with open(path, "rb") as f:
                yield os.path.relpath(path, folder), f.read()


def found(file):
    # whatever olefile finds wrong is an error here
    ole = olefile.OleFileIO(file, raise_defects=olefile.DEFECT_UNSURE)
    for path in ole.listdir(streams=True, storages=True):
        if ole.get_type(path) == olefile.STGTY_STREAM:
            assert ole.get_size(path) == len(ole.openstream(path).read()), path
            yield "/".join(path), ole.openstream(path).read()
        else:
            yield "/".join(path), None
    ole.close()


one, other = dict(found(sys.argv[1])), dict(due(sys.argv[2]))
for path in sorted(one.keys() | other.keys()):
    if path not in one or path not in other or one[path] != other[path]:
        sys.exit("%s: differs" % path)
