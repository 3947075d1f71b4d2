"""read.py READER FILE OUT [NAMES]: what a program reads from a compound file. OUT/tree gets a folder for each storage and a
file for each stream, OUT/list a line for each object, both with names as `cfb ls` prints them. NAMES has the paths that are due,
one in a line: by these 7-Zip's own spelling of a name is known."""
import os
import sys

import names
import readers


def save(out, paths, listed):
    os.makedirs(os.path.join(out, "tree"))
    # a storage comes before what is below it
    for path, content in sorted(paths, key=lambda pair: pair[0].count("/")):
        place = os.path.join(out, "tree", path)
        if content is None:
            os.makedirs(place, exist_ok=True)
        else:
            os.makedirs(os.path.dirname(place), exist_ok=True)
            with open(place, "wb") as f:
                f.write(content)
    with open(os.path.join(out, "list"), "w") as f:
        f.writelines(sorted("%s %d %s\n" % line for line in listed))


def due():
    if len(sys.argv) < 5:
        return []
    with open(sys.argv[4]) as f:
        return [names.typed(line.rstrip("\n")) for line in f]


reader, file, out = sys.argv[1:4]
found, listing = getattr(readers, reader)(file, due())
# the names of `.` and `..` cannot stand in a folder
held = {".": "\\002E", "..": "\\002E\\002E"}
shown = lambda path: "/".join(held.get(name, names.printed(name)) for name in path.split("/"))
# an empty name is one that the program could not spell
save(out, [(shown(path), content) for path, content in found if path],
     [(kind, size, names.printed(path)) for kind, size, path in listing])
