#!/usr/bin/env python3
"""others.py FOLDER: writes samples/programs/EXPECTED for files of other programs, all of which lie in the folder.

The answers stand here as 01 gives them; a listing comes from a plain reader of the file."""
import os
import sys
import expected

# file: the answer, and the first rule that is broken
ANSWERS = {
    "poi-hssf-01.xls": (0, ""),
    "poi-hssf-02.xls": (14, "a blank entry's links are 0"),
    "poi-poifs-01.ole": (14, "a blank entry's links are 0"),
    "poi-poifs-17.ole": (0, ""),
    "gnumeric-biff7-01.xls": (0, ""),
    "gnumeric-biff8-01.xls": (0, ""),
    "gnumeric-dsf-01.xls": (14, "a blank entry's links are 0"),
    "jexcelapi-01.xls": (15, "a red top, names out of order"),
    "libreoffice-calc-01.xls": (14, "a blank entry has a start"),
    "libreoffice-writer-01.doc": (14, "a blank entry has a start"),
    "libreoffice-writer-11.doc": (15, "a red top, red below red"),
    "ole-storage-lite-01.ole": (1, "the length is no multiple of 512"),
    "ole-storage-lite-03.ole": (12, "cells behind the last sector's are not free"),
    "ole-storage-lite-27.ole": (11, "FATSECT for a sector that is no FAT sector"),
    "openmcdf-01.ole": (12, "cells behind the last sector's are not free"),
    "spreadsheet-writeexcel-01.xls": (15, "a red top"),
    "spreadsheet-writeexcel-21.xls": (12, "cells behind the last sector's are not free"),
    "spreadsheet-writeexcel-26.xls": (11, "FATSECT for a sector that is no FAT sector"),
    "wine-01.ole": (14, "a blank entry's links are 0"),
    "wine-17.ole": (15, "a red top, red below red"),
    "gsf-02.ole": (14, "a stream has a time"),
    "msitools-msibuild-01.msi": (14, "a blank entry's links are 0"),
    "msitools-msibuild-03.msi": (0, ""),
    "msitools-wixl-01.msi": (0, ""),
    "ruby-ole-01.ole": (14, "a blank entry's links are 0"),
    "ruby-spreadsheet-01.xls": (14, "a stream has a time"),
    "xlwt-01.xls": (14, "a blank entry has a colour and a start"),
}


def image(name):
    with open(os.path.join(sys.argv[1], name), "rb") as f:
        return f.read()


folder = os.path.join(os.path.dirname(os.path.abspath(__file__)), "..", "samples", "programs")
expected.save(folder, {name: expected.output(image(name), answer) for name, (answer, _) in ANSWERS.items()})
print(len(ANSWERS), "files")
