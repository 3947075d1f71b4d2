"""The programs that read a compound file. Each gives pairs of path and bytes (None for a storage), and the objects as it lists
them: kind, size and path."""
import os
import re
import subprocess
import tempfile

import names


def asked(*command):
    return subprocess.run(command, check=True, stdout=subprocess.PIPE, stderr=subprocess.PIPE).stdout


def folder(top):
    """What lies in a folder, by paths in bytes."""
    for here, folders, files in os.walk(os.fsencode(top)):
        for name in folders:
            yield os.path.relpath(os.path.join(here, name), os.fsencode(top)), None
        for name in files:
            with open(os.path.join(here, name), "rb") as f:
                yield os.path.relpath(os.path.join(here, name), os.fsencode(top)), f.read()


def cfb(file, _):
    """`cfb extract` and `cfb ls -l`."""
    with tempfile.TemporaryDirectory() as top:
        asked(os.environ["cfb"], "extract", file, top + "/out")
        # a `\\` in the name of a file begins a character in digits
        found = [(names.typed(path.decode()), content) for path, content in folder(top + "/out")]
    lines = asked(os.environ["cfb"], "ls", "-l", file).decode().splitlines()
    split = [re.fullmatch("([DF]) +([0-9]+) (.*)", line).groups() for line in lines]
    return found, [(kind, int(size), names.typed(path)) for kind, size, path in split]


def seven(file, due):
    """`7zz x` and `7zz l`, of a compound file: else it would go into an installer's cabinet. A warning is no error: free sectors
    at the end are data behind the archive to it."""
    installer = any(path.startswith("\u4840") for path in due)
    known = {names.as_seven(path, installer): path for path in due}
    program = os.environ["seven"]
    with tempfile.TemporaryDirectory() as top:
        done = subprocess.run([program, "x", "-y", "-tcompound", "-o" + top, file], stdout=subprocess.PIPE, stderr=subprocess.STDOUT)
        if done.returncode > 1:
            raise SystemExit(done.stdout.decode(errors="replace"))
        spelled = [(path.decode("utf-8", "surrogatepass"), content) for path, content in folder(top)]
    found = [(known.get(path, path), content) for path, content in spelled]
    return found, [(kind, size, known.get(path, path)) for kind, size, path in seven_list(program, file)]


def seven_list(program, file):
    done = subprocess.run([program, "l", "-slt", "-tcompound", file], stdout=subprocess.PIPE, stderr=subprocess.PIPE)
    text = done.stdout.decode("utf-8", "surrogatepass").split("----------\n", 1)[1]
    for block in text.split("\n\n"):
        fields = dict(line.split(" = ", 1) for line in block.split("\n") if " = " in line)
        if "Path" in fields:
            # a storage has no size
            size = fields.get("Size")
            yield "F" if size else "D", int(size or 0), fields["Path"]


def gsf(file, _):
    """`gsf list`, and `gsf cat` for each stream. It lists a storage with nothing in it as a stream of 0 bytes, so these are not asked
    for; the list has them."""
    program = os.environ["gsf"]
    lines = asked(program, "list", file).decode().split("\n")
    split = [re.fullmatch("([df])  .{19} +([0-9]+) (.*)", line) for line in lines]
    rows = [(kind.upper(), int(size), path) for kind, size, path in (row.groups() for row in split if row)]
    rows = [row for row in rows if row[2] != "*root*"]
    found = [(path, gsf_cat(program, file, path)) for kind, size, path in rows if kind == "F" and size > 0]
    return [(path, content) for path, content in found if content is not None], rows


def gsf_cat(program, file, path):
    """The bytes of a stream; one that it cannot be asked for is missing in the tree."""
    done = subprocess.run([program, "cat", file, path], stdout=subprocess.PIPE, stderr=subprocess.PIPE)
    return done.stdout if done.returncode == 0 else None


def olefile(file, _):
    import olefile as module
    # what it finds wrong in a file of ours is an error
    defects = module.DEFECT_UNSURE if os.environ.get("strict") else module.DEFECT_FATAL
    with module.OleFileIO(file, raise_defects=defects) as ole:
        found, listing = [], []
        for path in ole.listdir(streams=True, storages=True):
            stream = ole.get_type(path) == module.STGTY_STREAM
            found.append(("/".join(path), ole.openstream(path).read() if stream else None))
            listing.append(("F" if stream else "D", ole.get_size(path) if stream else 0, "/".join(path)))
    return found, listing
