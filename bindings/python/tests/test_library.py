"""Where the library is looked for, and what is said if it is not there."""

import ctypes.util
import os
import shutil
import subprocess
import sys
import tempfile
import unittest
from pathlib import Path
from typing import Optional

import zorambi

from . import common


class Library(unittest.TestCase):
    def setUp(self) -> None:
        temporary = tempfile.TemporaryDirectory()
        self.addCleanup(temporary.cleanup)
        self.folder = Path(temporary.name).resolve()
        self.library = zorambi.library_file()

    def package(self, below: str) -> Path:
        """A copy of the package in this folder below the temporary one."""
        shutil.copytree(common.PACKAGE, self.folder / below / "zorambi", ignore=shutil.ignore_patterns("__pycache__"))
        return self.folder / below

    def imported(self, path: Path, variable: Optional[str] = None) -> str:
        """The file that is loaded, or the error's last line."""
        environment = {name: value for name, value in os.environ.items() if name != "ZORAMBI_LIBRARY"}
        environment.update(PYTHONPATH=str(path), PYTHONDONTWRITEBYTECODE="1")
        if variable is not None:
            environment["ZORAMBI_LIBRARY"] = variable
        program = "import zorambi; assert next(zorambi.small(1)).root == 0; print(zorambi.library_file())"
        done = subprocess.run(
            [sys.executable, "-c", program],
            env=environment,
            cwd=self.folder,
            capture_output=True,
            text=True,
            check=False,
        )
        return done.stdout.strip() if done.returncode == 0 else done.stderr.strip().splitlines()[-1]

    def test_nowhere(self) -> None:
        said = self.imported(self.package("somewhere"))
        self.assertIn(
            "ImportError: the library libzorambi.so is not there: run './zorambi build' in the project's folder", said
        )
        self.assertIn("let ZORAMBI_LIBRARY name the file", said)
        self.assertIn(str(self.folder / "somewhere/zorambi/libzorambi.so"), said)

    def test_by_the_variable(self) -> None:
        path = self.package("somewhere")
        self.assertEqual(self.imported(path, str(self.library)), str(self.library))
        shutil.copy(self.library, self.folder / "named.so")
        self.assertEqual(self.imported(path, "named.so"), str(self.folder / "named.so"))
        # It goes before all others, and nothing else is taken in its place.
        shutil.copy(self.library, path / "zorambi/libzorambi.so")
        self.assertEqual(self.imported(path, "named.so"), str(self.folder / "named.so"))
        self.assertIn("ZORAMBI_LIBRARY names 'none.so', which is no file", self.imported(path, "none.so"))
        (self.folder / "text.so").write_text("no library\n")
        self.assertIn("text.so cannot be loaded as the library", self.imported(path, "text.so"))
        self.assertEqual(self.imported(path, ""), str(path / "zorambi/libzorambi.so"))

    def test_another_library(self) -> None:
        named = ctypes.util.find_library("c")
        folders = ("/lib/x86_64-linux-gnu", "/lib/aarch64-linux-gnu", "/lib64", "/lib")
        places = [Path(folder) / str(named) for folder in folders]
        other = next((place for place in places if place.is_file()), None)
        if other is None:
            self.skipTest("the C library is not found")
        said = self.imported(self.package("somewhere"), str(other))
        self.assertIn("has no zorambi_check: it is not the library that this package is for", said)

    def test_in_an_installation_and_in_the_tree(self) -> None:
        installed = self.package("prefix/lib/python3")
        shutil.copy(self.library, self.folder / "prefix/lib/libzorambi.so.0")
        self.assertEqual(self.imported(installed), str(self.folder / "prefix/lib/libzorambi.so.0"))
        (self.folder / "link").symlink_to(installed)
        self.assertEqual(self.imported(self.folder / "link"), str(self.folder / "prefix/lib/libzorambi.so.0"))
        in_tree = self.package("project/bindings/python")
        self.assertIn("is not there", self.imported(in_tree))
        (self.folder / "project/build/lib").mkdir(parents=True)
        shutil.copy(self.library, self.folder / "project/build/lib/libzorambi.so")
        self.assertEqual(self.imported(in_tree), str(self.folder / "project/build/lib/libzorambi.so"))
        # Beside the package's files comes before both.
        shutil.copy(self.library, in_tree / "zorambi/libzorambi.so")
        self.assertEqual(self.imported(in_tree), str(in_tree / "zorambi/libzorambi.so"))


if __name__ == "__main__":
    unittest.main()
