"""The examples in the docstrings, in the README and in the folder of examples."""

from __future__ import annotations

import doctest
import importlib
import os
import pkgutil
import re
import subprocess
import sys
import tempfile
import unittest
from typing import Any

import gyomrelas

from .samples import ROOT

PYTHON = ROOT / "bindings" / "python"


def load_tests(loader: unittest.TestLoader, tests: unittest.TestSuite, pattern: Any) -> unittest.TestSuite:
    os.chdir(ROOT)
    names = ["gyomrelas"] + [f"gyomrelas.{module.name}" for module in pkgutil.iter_modules(gyomrelas.__path__)]
    for name in names:
        tests.addTests(doctest.DocTestSuite(importlib.import_module(name)))
    tests.addTests(doctest.DocFileSuite(str(PYTHON / "README.md"), module_relative=False))
    return tests


class Documents(unittest.TestCase):
    def test_the_example_prints_what_the_readme_of_the_library_says(self) -> None:
        example = [sys.executable, str(PYTHON / "examples" / "first.py")]
        done = subprocess.run(example, cwd=ROOT, stdout=subprocess.PIPE, check=True)
        self.assertEqual(done.stdout, b"5000 bytes\nline 7 of the site's log\nend\n")

    def test_the_block_of_the_library_s_readme_runs(self) -> None:
        blocks = re.findall(r"```python\n(.*?)```", (ROOT / "README.md").read_text(encoding="utf-8"), re.DOTALL)
        self.assertEqual(len(blocks), 1)
        with tempfile.TemporaryDirectory() as folder:
            with gyomrelas.create(os.path.join(folder, "rig.cfb"), 65_536) as file:
                file.create_storage("Site")
            done = subprocess.run([sys.executable, "-c", blocks[0]], cwd=folder, stdout=subprocess.PIPE, check=True)
            with gyomrelas.open(os.path.join(folder, "rig.cfb")) as file:
                self.assertEqual(file.read_bytes("Site/log"), b"valve 12 opens\nvalve 12 closes\n")
        self.assertEqual(done.stdout, b"STORAGE 0 Site\nSTREAM 31 Site/log\n")

    def test_the_readme_names_what_there_is(self) -> None:
        text = (PYTHON / "README.md").read_text(encoding="utf-8")
        for name in re.findall(r"`gyomrelas\.(\w+)", text):
            self.assertTrue(hasattr(gyomrelas, name), name)
        for name in re.findall(r"`file\.(\w+)", text):
            self.assertTrue(hasattr(gyomrelas.CompoundFile, name), name)

    def test_the_versions_agree(self) -> None:
        self.assertIn(f'version = "{gyomrelas.__version__}"', (PYTHON / "pyproject.toml").read_text(encoding="utf-8"))

    def test_every_public_thing_is_described(self) -> None:
        for name in gyomrelas.__all__:
            thing = getattr(gyomrelas, name)
            if isinstance(thing, type) or callable(thing):
                self.assertTrue(thing.__doc__, name)
