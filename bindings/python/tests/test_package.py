"""The package as it is installed: a wheel with the library in it, its types, and the header for C."""

import importlib.util
import inspect
import os
import re
import shutil
import subprocess
import sys
import zipfile
from pathlib import Path

import pytest

import zarrs_codecs
from zarrs_codecs import _library

TOP = Path(__file__).parents[3]
PACKAGE = TOP / "bindings" / "python"
HEADER = TOP / "include" / "zarrs_codecs.h"
NAMES = TOP / "crates" / "zarrs_c_calls" / "src" / "names.rt"


def needs(*names):
    missing = [name for name in names if importlib.util.find_spec(name) is None]
    return pytest.mark.skipif(bool(missing), reason=f"{', '.join(missing)} isn't installed")


def test_the_package_has_the_repositorys_notices():
    for name in ("LICENSE", "NOTICE"):
        assert (PACKAGE / name).read_bytes() == (PACKAGE.parents[1] / name).read_bytes()


@needs("pip", "setuptools", "wheel")
def test_a_wheel_has_the_library_in_it(tmp_path):
    """It is made with no network, and works from where it is unpacked."""
    source = tmp_path / "bindings" / "python"
    left_out = shutil.ignore_patterns("tests", "build", "*.egg-info", "__pycache__")
    shutil.copytree(PACKAGE, source, ignore=left_out)
    (tmp_path / "bindings" / "out").mkdir()
    shutil.copy(_library.library._name, tmp_path / "bindings" / "out" / "libzarrs_codecs.so")
    environment = {name: value for name, value in os.environ.items() if name != "ZARRS_CODECS_LIBRARY"}
    words = ["wheel", "--no-build-isolation", "--no-index", "--no-deps", "-w", tmp_path]
    subprocess.run([sys.executable, "-m", "pip", *words, source], env=environment, check=True)
    (wheel,) = tmp_path.glob("*.whl")
    assert re.fullmatch(rf"zarrs_codecs-{zarrs_codecs.__version__}-py3-none-linux_\w+\.whl", wheel.name)
    zipfile.ZipFile(wheel).extractall(tmp_path / "installed")
    for name in ("LICENSE", "NOTICE"):
        (found,) = (tmp_path / "installed").glob(f"*.dist-info/**/{name}")
        assert found.read_bytes() == (PACKAGE / name).read_bytes()
    assert re.search("^License.*: MIT$", next((tmp_path / "installed").glob("*.dist-info/METADATA")).read_text(), re.M)
    assert (tmp_path / "installed/zarrs_codecs/py.typed").is_file()
    assert list(tmp_path.glob("installed/*/METADATA"))
    code = "import zarrs_codecs as z; print(z.__file__, z._library.library._name, z.Chain(['bytes'], (3,), 'uint8').encode([1, 2, 3]))"
    environment["PYTHONPATH"] = str(tmp_path / "installed")
    run = subprocess.run([sys.executable, "-c", code], env=environment, capture_output=True, text=True, check=True)
    folder = tmp_path / "installed/zarrs_codecs"
    assert run.stdout == f"{folder}/__init__.py {folder}/libzarrs_codecs.so [1 2 3]\n"


@needs("pip", "setuptools", "wheel")
def test_no_wheel_without_a_library(tmp_path):
    left_out = shutil.ignore_patterns("tests", "build", "*.egg-info", "__pycache__")
    shutil.copytree(PACKAGE, tmp_path / "source", ignore=left_out)
    environment = {**os.environ, "ZARRS_CODECS_LIBRARY": "/nowhere/libzarrs_codecs.so"}
    words = ["wheel", "--no-build-isolation", "--no-index", "--no-deps", "-w", tmp_path]
    run = subprocess.run(
        [sys.executable, "-m", "pip", *words, tmp_path / "source"], env=environment, capture_output=True, text=True
    )
    assert run.returncode != 0 and "bindings/build" in run.stdout + run.stderr


PROGRAM = """
import io
from pathlib import Path
import numpy as np
import numpy.typing as npt
import zarrs_codecs as z

chain = z.Chain(["bytes"], (2, 3), "uint8", 0)
value: npt.NDArray[np.uint8] = chain.encode([[1, 2, 3], [4, 5, 6]])
chunk: npt.NDArray[np.generic] = chain.decode(value)
part = chain.read(value, np.s_[0, :2])
plan = chain.planned_ranges(0)
if plan is not None:
    print(plan.shape)
print(chain.read_from(io.BytesIO(value.tobytes()), (0, slice(2))) == part, chain.representation.size)
try:
    array = z.Array(Path("a"))
    array[0, 1:] = 5
    array.vindex[[0, 1], [2, 2]] = [1, 2]
    print(array[...].mean(), array.attrs, array.shape[0])
except (z.UnknownName, z.InvalidMetadata) as refused:
    if refused.codec is not None:
        print(refused.codec[1].upper(), refused.key, refused.path)
"""


@needs("mypy")
def test_types(tmp_path):
    """Those of the package, and of a program over it."""
    (tmp_path / "program.py").write_text(PROGRAM)
    environment = {**os.environ, "MYPYPATH": str(PACKAGE)}
    for of in (["-p", "zarrs_codecs"], [tmp_path / "program.py"]):
        words = [sys.executable, "-m", "mypy", "--strict", "--cache-dir", tmp_path / "cache", *of]
        run = subprocess.run(words, env=environment, cwd=PACKAGE, capture_output=True, text=True)
        assert run.returncode == 0, run.stdout


def test_the_librarys_version():
    """A library that was built before it had one says nothing."""
    due = zarrs_codecs.__version__ + ("" if zarrs_codecs.proved else " unproved")
    assert _library.version() in (None, due)


# Refusals that no call of Python's gives, or none in a few lines.
WITHOUT_EXAMPLE = {
    *("Argument", "ArrayBytesKind", "DataMismatch", "OffsetTooLarge", "OutOfMemory", "ReversedRange", "Storage"),
    *("TargetMismatch", "UnsupportedTarget"),
}


def test_every_public_name_has_a_docstring_with_an_example():
    for name in zarrs_codecs.__all__:
        thing = getattr(zarrs_codecs, name)
        if isinstance(thing, type):
            assert thing.__doc__, name
            assert ">>>" in thing.__doc__ or name in WITHOUT_EXAMPLE, name
            for part, value in inspect.getmembers(thing):
                if part in vars(thing) and not part.startswith("_") and callable(getattr(value, "fget", value)):
                    assert value.__doc__ and ">>>" in value.__doc__, f"{name}.{part}"


C_PROGRAM = """
#include "zarrs_codecs.h"
#include <stdio.h>
int main(void)
{
    char text[ZARRS_NAME_SIZE];
    for (uint32_t code = 0; code < 60; code++)
        printf("%s\\n", zarrs_name(code, text));
    return ZARRS_NOT_A_PERMUTATION != 57;
}
"""


@pytest.mark.skipif(shutil.which("cc") is None, reason="no C compiler is installed")
@pytest.mark.parametrize("words", [["-std=c99", "-pedantic"], ["-std=c17"], ["-x", "c++"]])
def test_the_header_in_c(words, tmp_path):
    if "c++" in words and shutil.which("c++") is None:
        pytest.skip("no C++ compiler is installed")
    (tmp_path / "names.c").write_text(C_PROGRAM)
    library = Path(_library.library._name).resolve()
    make = ["cc", *words, "-Wall", "-Wextra", "-Werror", f"-I{HEADER.parent}", tmp_path / "names.c", "-o", tmp_path / "names"]
    link = ["-x", "none", library, f"-Wl,-rpath,{library.parent}", f"-Wl,-rpath,{tmp_path}"]
    subprocess.run([*make, *link], check=True)
    (tmp_path / "libzarrs_codecs.so.0").symlink_to(library)
    names = subprocess.run([tmp_path / "names"], capture_output=True, text=True, check=True).stdout.split("\n")
    assert names[:-1] == [_library.name_of(code) for code in range(60)]


MADE = TOP / "bindings" / "out" / "zarrs_codecs.pc"
LINES = re.findall(r"^    (cc .*) -o window$", (TOP / "bindings/README.md").read_text(), re.MULTILINE)


@pytest.mark.skipif(shutil.which("cc") is None, reason="no C compiler is installed")
@pytest.mark.skipif(
    not MADE.is_file() or f'-I"{TOP}/include"' not in MADE.read_text(), reason="bindings/build didn't make the library in this folder"
)
@pytest.mark.parametrize("line", LINES)
def test_the_lines_that_compile_a_program(line, tmp_path):
    """Those of the page; what they make runs in any folder."""
    if "pkg-config" in line and shutil.which("pkg-config") is None:
        pytest.skip("no pkg-config is installed")
    assert len(LINES) == 3
    subprocess.run(["bash", "-c", f"{line} -o {tmp_path}/window"], cwd=TOP, check=True)
    run = subprocess.run([tmp_path / "window"], cwd="/", capture_output=True, text=True, check=True)
    assert run.stdout.endswith("window: 6 7 10 11\n")


@pytest.mark.skipif(shutil.which("cc") is None or not (MADE.parent / "libzarrs_codecs.a").is_file(), reason="no compiler, or no library")
@pytest.mark.parametrize("name", ["rounds", "folder"])
def test_the_c_examples_print_what_their_page_says(name, tmp_path):
    words = ["-std=c99", "-Wall", "-Wextra", "-Werror", "-Iinclude", f"examples/c/{name}.c", "bindings/out/libzarrs_codecs.a"]
    subprocess.run(["cc", *words, "-o", tmp_path / name], cwd=TOP, check=True)
    run = subprocess.run([tmp_path / name, tmp_path / "made"], capture_output=True, text=True, check=True)
    page = (TOP / "examples/README.md").read_text().partition(f"## `c/{name}.c")[2].partition("\n## ")[0]
    assert run.stdout == "".join(f"{line}\n" for line in re.findall("^    (.*)$", page, re.MULTILINE))


@pytest.mark.skipif(shutil.which("readelf") is None, reason="no readelf is installed")
def test_a_program_asks_for_the_library_by_its_number():
    said = subprocess.run(["readelf", "-d", _library.library._name], capture_output=True, text=True, check=True).stdout
    assert re.findall(r"SONAME.*\[(.*)\]", said) == ["libzarrs_codecs.so.0"]
    assert re.findall(r"NEEDED.*\[(.*)\]", said) == ["libc.so.6"]


@pytest.mark.parametrize(
    "script, more, says",
    [
        ("bindings/test", {"PYTHON": "false"}, "false has no numpy or no pytest"),
        ("bindings/test", {"ZARRS_CODECS_LIBRARY": "/nowhere/x.so"}, "the package doesn't load"),
        ("bindings/fuzz", {"ZARRS_CODECS_LIBRARY": "/nowhere/x.so"}, "needs the library that bindings/build makes"),
        ("bindings/build", {"PATH": "nothing"}, "rt isn't there"),
        ("bench/run", {"PATH": "nothing"}, "cc isn't there"),
        ("examples/run", {"PYTHON": "false"}, "false has no numpy|libzarrs_codecs.so isn't there"),
    ],
)
def test_scripts_say_what_is_missing(script, more, says, tmp_path):
    nothing = tmp_path / "bin"
    nothing.mkdir()
    for name in ("bash", "dirname", "env"):
        (nothing / name).symlink_to(shutil.which(name))
    more = {name: str(nothing) if value == "nothing" else value for name, value in more.items()}
    run = subprocess.run(
        [TOP / script, tmp_path / "made"], env={**os.environ, "PYTHON": sys.executable, **more}, capture_output=True, text=True
    )
    assert run.returncode == 1 and re.search(says, run.stderr), run.stderr


@pytest.mark.skipif(shutil.which("cc") is None, reason="no C compiler is installed")
def test_calls_of_all_kinds_and_offsets_above_zero(tmp_path):
    """Two seconds of the fuzzer."""
    words = ["2", "2", "1"]
    environment = {**os.environ, "ZARRS_CODECS_LIBRARY": str(Path(_library.library._name).resolve())}
    run = subprocess.run([TOP / "bindings/fuzz", *words], env=environment, capture_output=True, text=True)
    assert run.returncode == 0, run.stderr
    assert "no fault" in run.stdout


def constants():
    """The header's codes by their numbers."""
    text = re.search(r"enum zarrs_code \{(.*?)\};", HEADER.read_text(), re.DOTALL)[1]
    return {int(number): name for name, number in re.findall(r"^ +ZARRS_(\w+) = (\d+)", text, re.MULTILINE)}


# The codes of version 0.1.0, each behind the number of the first.
CODES = {
    0: (
        "DONE SHORT SYNTAX ARGUMENT NOT_IN_PLACE"
    ),
    10: (
        "OUT_OF_MEMORY STORAGE UNSUPPORTED_DATA_TYPE ENDIANNESS_MISSING ARRAY_BYTES_KIND INVALID_BYTES_LENGTH "
        "INCOMPATIBLE_DIMENSIONALITY OUT_OF_BOUNDS OVERFLOW INVALID_FILL_VALUE RESHAPE_DIMENSION RESHAPE_ELEMENTS "
        "BIT_RANGE PADDING_BYTE INDEX_LENGTH INVALID_OFFSETS OFFSET_TOO_LARGE OFFSET_NOT_KEPT MASK_VALUE "
        "HEADER_OVERFLOW INVALID_BYTE_RANGE BYTES_CODEC DATA_MISMATCH UNSUPPORTED_TARGET TARGET_MISMATCH "
        "REVERSED_RANGE ELEMENT_COUNT INDIVISIBLE_SHAPE INDEX_NOT_FIXED"
    ),
    50: (
        "UNKNOWN_NAME INVALID_CONFIGURATION MISSING_ARRAY_TO_BYTES MULTIPLE_ARRAY_TO_BYTES BIT_ORDER MULTIPLE_AUTO "
        "ZERO_SIZE NOT_A_PERMUTATION"
    ),
}


def test_codes_keep_their_numbers():
    """In all later versions too."""
    for first, names in CODES.items():
        for number, name in enumerate(names.split(), first):
            assert constants()[number] == name


def test_codes_of_the_header_are_the_librarys():
    codes = constants()
    named = re.findall(r'(\d+) => "(\w+)"', NAMES.read_text())
    assert len(named) >= 38
    for number, name in named:
        assert codes[int(number)].replace("_", "") == name.upper()
    for number in range(256):
        name = _library.name_of(number)
        assert not name or codes[number].replace("_", "") == name.upper()
    classes = {name.upper() for name in zarrs_codecs.refusals.__all__}
    theirs = {name.replace("_", "") for number, name in codes.items() if number > 1}
    assert classes == theirs | {"REFUSED", "INVALIDELEMENT", "INVALIDMETADATA", "INVALIDTEXT"}
