"""Where the shared library is found, and what is said where it is not."""

from __future__ import annotations

import _ctypes
import os
import shutil
import subprocess
import sys
import tempfile
from pathlib import Path
from typing import Dict, Tuple
from unittest import mock

import gyomrelas
from gyomrelas import library, search

from .samples import ROOT, Case

PACKAGE = ROOT / "bindings" / "python" / "gyomrelas"


class Search(Case):
    def setUp(self) -> None:
        folder = tempfile.TemporaryDirectory()
        self.addCleanup(folder.cleanup)
        self.folder = Path(os.path.realpath(folder.name))
        self.loaded = os.path.realpath(library._library._name)

    def run_import(self, package: Path, **changes: str) -> Tuple[int, str]:
        """Imports a copy of the package, and prints the library's name."""
        environment: Dict[str, str] = {key: value for key, value in os.environ.items() if key != "CFB_LIBRARY"}
        environment.update(changes, PYTHONPATH=str(package.parent))
        program = "import gyomrelas.library as library; print(library._library._name)"
        done = subprocess.run(
            [sys.executable, "-c", program],
            cwd=self.folder,
            env=environment,
            stdout=subprocess.PIPE,
            stderr=subprocess.STDOUT,
            universal_newlines=True,
        )
        return done.returncode, done.stdout.strip().split("\n")[-1]

    def copy(self, *parts: str) -> Path:
        place = self.folder.joinpath(*parts, "gyomrelas")
        shutil.copytree(PACKAGE, place, ignore=shutil.ignore_patterns("__pycache__", "*.so"))
        return place

    def test_the_places_in_their_order(self) -> None:
        package = self.copy("bindings", "python")
        built = self.folder / "target" / "shared" / "libcfb.so"
        system = self.folder / "system"
        system.mkdir()
        shutil.copy(self.loaded, system / "libcfb.so.0")
        where = {"LD_LIBRARY_PATH": str(system)}
        self.assertEqual(self.run_import(package, **where), (0, "libcfb.so.0"))
        built.parent.mkdir(parents=True)
        shutil.copy(self.loaded, built)
        self.assertEqual(self.run_import(package, **where), (0, str(built)))
        shutil.copy(self.loaded, package / "libcfb.so")
        self.assertEqual(self.run_import(package, **where), (0, str(package / "libcfb.so")))
        named = self.folder / "named.so"
        shutil.copy(self.loaded, named)
        self.assertEqual(self.run_import(package, CFB_LIBRARY=str(named), **where), (0, str(named)))

    def test_an_installed_package_looks_at_no_checkout(self) -> None:
        """Also where a file stands at the place that it would have in a checkout."""
        package = self.copy("lib", "site-packages")
        built = self.folder / "target" / "shared" / "libcfb.so"
        built.parent.mkdir(parents=True)
        built.touch()
        with mock.patch.object(search, "__file__", str(package / "search.py")):
            self.assertEqual(next(search._places()), search.SONAME)

    def test_none_is_found(self) -> None:
        package = self.copy("lib", "site-packages")
        with mock.patch.object(search, "__file__", str(package / "search.py")), mock.patch.dict(os.environ):
            os.environ.pop("CFB_LIBRARY", None)
            with mock.patch.object(search, "SONAME", "no.so"), mock.patch("ctypes.util.find_library", lambda _: None):
                with self.assertRaisesRegex(ImportError, "tools/shared.*CFB_LIBRARY"):
                    search.load()

    def test_a_library_that_is_none(self) -> None:
        package = self.copy("lib")
        code, said = self.run_import(package, CFB_LIBRARY=str(self.folder / "gone.so"))
        self.assertEqual(code, 1)
        self.assertRegex(said, "^ImportError: CFB_LIBRARY has to name the shared library libcfb.so: ")
        code, said = self.run_import(package, CFB_LIBRARY=_ctypes.__file__)
        self.assertEqual(code, 1)
        self.assertRegex(said, "^ImportError: .* has no cfb_validate: ")

    def test_the_package_says_what_it_gives(self) -> None:
        self.assertTrue(all(hasattr(gyomrelas, name) for name in gyomrelas.__all__))
        self.assertTrue((PACKAGE / "py.typed").is_file())
