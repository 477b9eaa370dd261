"""A wheel of this platform, with the library in it that bindings/build made."""

import os
import shutil
import sys
from pathlib import Path

from setuptools import Distribution, setup
from setuptools.command.build_py import build_py
from wheel.bdist_wheel import bdist_wheel

LIBRARY = Path(os.environ.get("ZARRS_CODECS_LIBRARY") or Path(__file__).resolve().parents[1] / "out/libzarrs_codecs.so")


class BuildWithLibrary(build_py):
    """Puts the library into the package."""

    def run(self):
        if not LIBRARY.is_file():
            sys.exit(f"{LIBRARY} isn't there: bindings/build or bindings/build --unproved makes it")
        shutil.rmtree(self.build_lib, ignore_errors=True)
        super().run()
        shutil.copy(LIBRARY, Path(self.build_lib) / "zarrs_codecs/libzarrs_codecs.so")


class WithLibrary(Distribution):
    """What is installed rests on the platform."""

    def has_ext_modules(self):
        return True


class PlatformWheel(bdist_wheel):
    """A wheel for each Python of this platform."""

    def get_tag(self):
        return "py3", "none", super().get_tag()[2]


setup(distclass=WithLibrary, cmdclass={"build_py": BuildWithLibrary, "bdist_wheel": PlatformWheel})
