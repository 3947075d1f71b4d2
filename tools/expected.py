"""What the lister must print for the files of a folder, as the folder's file EXPECTED holds it: a line `== NAME`, and behind it the output."""
import os
from plain import Reader


def output(image, answer):
    """The listing of an image that 01 accepts, as a plain reader sees it; else the line with the number."""
    return b"refused %d\n" % answer if answer else Reader(image).listing()


def save(folder, outputs):
    with open(os.path.join(folder, "EXPECTED"), "wb") as f:
        for name, text in outputs.items():
            f.write(b"== %s\n%s" % (name.encode(), text))


def load(folder):
    outputs = {}
    with open(os.path.join(folder, "EXPECTED"), "rb") as f:
        for line in f:
            if line.startswith(b"== "):
                name = line[3:-1].decode()
                outputs[name] = b""
            else:
                outputs[name] += line
    return outputs
