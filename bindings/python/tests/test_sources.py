"""The sources themselves: for Python 3.9 on, nothing but the standard library, what the documentation shows, and
annotations."""

import ast
import doctest
import importlib
import inspect
import unittest

import zorambi
from zorambi import entries

from . import common

SOURCES = sorted(
    [
        *common.PACKAGE.glob("*.py"),
        *(common.PACKAGE.parent / "tests").glob("*.py"),
        *(common.ROOT / "examples/python").glob("*.py"),
    ],
)
STANDARD = {
    "array",
    "collections",
    "ctypes",
    "dataclasses",
    "enum",
    "itertools",
    "operator",
    "os",
    "pathlib",
    "reprlib",
    "threading",
    "typing",
}


class Sources(unittest.TestCase):
    def test_python_3_9(self) -> None:
        self.assertGreater(len(SOURCES), 15)
        for file in SOURCES:
            ast.parse(file.read_text(), str(file), feature_version=(3, 9))

    def test_nothing_but_the_standard_library(self) -> None:
        for file in common.PACKAGE.glob("*.py"):
            for node in ast.walk(ast.parse(file.read_text())):
                if isinstance(node, ast.Import):
                    named = [alias.name for alias in node.names]
                elif isinstance(node, ast.ImportFrom) and node.level == 0:
                    named = [node.module or ""]
                else:
                    continue
                for name in named:
                    self.assertIn(name.split(".")[0], STANDARD, file)

    def test_all_that_is_public_is_annotated_and_described(self) -> None:
        for name in zorambi.__all__:
            value = getattr(zorambi, name)
            if inspect.isfunction(value) or inspect.isclass(value):
                self.assertTrue(value.__doc__, name)
        for file in common.PACKAGE.glob("*.py"):
            for node in ast.walk(ast.parse(file.read_text())):
                if isinstance(node, ast.FunctionDef):
                    own = [
                        *node.args.posonlyargs,
                        *node.args.args,
                        *node.args.kwonlyargs,
                        node.args.vararg,
                        node.args.kwarg,
                    ]
                    for argument in own:
                        if argument is not None and argument.arg != "self":
                            self.assertIsNotNone(argument.annotation, f"{file.name}: {node.name}({argument.arg})")
                    self.assertIsNotNone(node.returns, f"{file.name}: {node.name}")
        self.assertTrue((common.PACKAGE / "py.typed").is_file())
        for entry in entries.ALL:
            self.assertTrue(entry.__doc__, entry)

    def test_names_are_listed_once(self) -> None:
        self.assertEqual(
            zorambi.__all__, sorted(zorambi.__all__, key=lambda name: (not name.isupper(), not name[0].isupper(), name))
        )
        self.assertEqual(len(set(zorambi.__all__)), len(zorambi.__all__))

    def test_what_the_documentation_shows(self) -> None:
        tried = 0
        for file in common.PACKAGE.glob("*.py"):
            module = importlib.import_module("zorambi" if file.stem == "__init__" else f"zorambi.{file.stem}")
            shown = {**vars(module), "entries": entries}
            result = doctest.testmod(module, extraglobs=shown)
            self.assertEqual(result.failed, 0, file)
            tried += result.attempted
        self.assertGreaterEqual(tried, 12)


if __name__ == "__main__":
    unittest.main()
