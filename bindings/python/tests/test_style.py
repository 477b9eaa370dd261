"""The package's own text: what linters find, which module imports which, and how long they are."""

import ast
import importlib.util
import runpy
import subprocess
import sys
from pathlib import Path

import pytest

import zarrs_codecs

PACKAGE = Path(zarrs_codecs.__file__).parent
MODULES = sorted(PACKAGE.rglob("*.py"))
TREES = {path: ast.parse(path.read_text()) for path in MODULES}


def name_of(path):
    """A module's name, from the package's on."""
    parts = path.relative_to(PACKAGE.parent).with_suffix("").parts
    return ".".join(parts[:-1] if parts[-1] == "__init__" else parts)


NAMES = {name_of(path): path for path in MODULES}


def imported(path):
    """The modules of the package that one imports, in functions too; its own package isn't one of them."""
    package = name_of(path) if path.name == "__init__.py" else name_of(path).rpartition(".")[0]
    for node in ast.walk(TREES[path]):
        if isinstance(node, ast.Import):
            yield from (one.name for one in node.names if one.name in NAMES)
        elif isinstance(node, ast.ImportFrom):
            above = package.split(".")[: len(package.split(".")) + 1 - node.level]
            base = ".".join([*above, *([node.module] if node.module else [])]) if node.level else node.module
            submodules = [f"{base}.{one.name}" for one in node.names if f"{base}.{one.name}" in NAMES]
            yield from submodules or [base] * (base in NAMES)


def cycle(edges):
    """A list of modules each of which imports the next, and the last one the first; empty where there is none."""
    done, way = set(), []

    def visit(name):
        if name in way:
            return way[way.index(name) :]
        if name in done:
            return []
        way.append(name)
        for other in sorted(edges[name]):
            if found := visit(other):
                return found
        done.add(way.pop())
        return []

    return next(filter(None, map(visit, sorted(edges))), [])


def test_a_cycle_is_found():
    assert cycle({"a": {"b"}, "b": {"c"}, "c": {"b"}}) == ["b", "c"]
    assert cycle({"a": {"b", "c"}, "b": {"c"}, "c": set()}) == []


def test_no_import_cycle():
    """Also where a function imports, or a type checker alone."""
    assert cycle({name: set(imported(path)) for name, path in NAMES.items()}) == []


def test_imports_are_at_the_top():
    """But for the pipeline, which needs zarr-python: it is imported when it is looked at."""
    inside = [
        (name_of(path), node.lineno)
        for path, tree in TREES.items()
        for function in ast.walk(tree)
        if isinstance(function, (ast.FunctionDef, ast.AsyncFunctionDef))
        for node in ast.walk(function)
        if isinstance(node, (ast.Import, ast.ImportFrom))
    ]
    assert [name for name, _ in inside] == ["zarrs_codecs"], inside


def test_no_module_is_long():
    assert {name_of(path): count for path in MODULES if (count := len(path.read_text().splitlines())) >= 500} == {}


def is_private(name):
    return name.startswith("_") and not name.startswith("__")


def own_names(tree):
    """The private names that a module defines itself: its functions, classes, methods, fields and attributes of `self`."""
    for node in ast.walk(tree):
        if isinstance(node, (ast.FunctionDef, ast.AsyncFunctionDef, ast.ClassDef)):
            yield node.name
        elif isinstance(node, ast.Attribute) and isinstance(node.ctx, ast.Store):
            yield node.attr
        elif isinstance(node, ast.Name) and isinstance(node.ctx, ast.Store):
            yield node.id


def foreign(tree):
    """The private names of other modules that a module uses: those that it imports, and attributes of other objects than
    its own classes'."""
    own = set(own_names(tree))
    for node in ast.walk(tree):
        if isinstance(node, ast.ImportFrom) and node.module is not None:
            yield from (one.name for one in node.names if is_private(one.name))
        elif isinstance(node, ast.Attribute) and is_private(node.attr) and node.attr not in own:
            if not (isinstance(node.value, ast.Name) and node.value.id in ("self", "cls")):
                yield node.attr


def test_what_is_foreign_is_found():
    text = "from a import _b, c\nclass D:\n def e(self, o): self._f = o._f + o._g + self._h\n"
    assert list(foreign(ast.parse(text))) == ["_b", "_g"]


def test_no_module_uses_another_ones_private_names():
    assert {name_of(path): found for path, tree in TREES.items() if (found := sorted(set(foreign(tree))))} == {}


@pytest.mark.skipif(importlib.util.find_spec("flake8") is None, reason="flake8 isn't installed")
def test_flake8_finds_nothing():
    words = [sys.executable, "-m", "flake8", "zarrs_codecs"]
    run = subprocess.run(words, cwd=PACKAGE.parent, capture_output=True, text=True)
    assert (run.returncode, run.stdout) == (0, ""), run.stdout + run.stderr


SPOILT = """
from zarrs_codecs.refusals import Refused

def told(file, refusals):
    'A refusal of zarrs_codecs.refusals.Refused.'
    # what was said
    raise Refused(f"it tells {file.tell()}")
"""


@pytest.mark.skipif(not (PACKAGE.parents[2] / "tools/style").is_file(), reason="it isn't the repository's package")
def test_the_fields_words(tmp_path, monkeypatch):
    """Those of comments, texts and names; public names are as they are."""
    monkeypatch.syspath_prepend(str(PACKAGE.parents[2] / "tools"))
    words_of = runpy.run_path(str(PACKAGE.parents[2] / "tools/style"))["words_of"]
    spoilt = tmp_path / "spoilt.py"
    spoilt.write_text(SPOILT)
    found = [line.partition("spoilt.py:")[2].partition(" (")[0] for line in words_of(spoilt)]
    assert sorted(found) == ["4: told", "5: refusal", "6: said", "7: tells"]
    assert [line for path in MODULES for line in words_of(path)] == []
