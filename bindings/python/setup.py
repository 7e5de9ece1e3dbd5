"""Builds the C extension, if it can be built, and copies the library that ANTIENTROPY_LIBRARY names into the package.

The extension links nothing: ctypes loads the library from its folder. A wheel with the library has the tag of the
oldest glibc that its shared objects need, if they need no other library. The rest of the metadata is in pyproject.toml.
"""

import os
import re
from importlib import import_module
from pathlib import Path
from typing import Any, Dict, List, Tuple

from setuptools import Extension, setup
from setuptools.command.build_py import build_py

INCLUDE = Path(__file__).resolve().parents[2] / "include"
LIBRARY = os.environ.get("ANTIENTROPY_LIBRARY")

#: The oldest glibc for which there is a tag of this kind that tools know: manylinux2014.
OLDEST = 17
#: Libraries that each Linux with a glibc has.
GLIBC = {b"libc.so.6", b"libm.so.6", b"libpthread.so.0", b"libdl.so.2", b"ld-linux-x86-64.so.2"}


def glibc_of(objects: List[bytes]) -> int:
    """Return the minor version of the glibc 2 that shared objects need, or 0 if they need another library."""
    minors = [OLDEST]
    for data in objects:
        needed = set(re.findall(rb"(?<=\0)(?:lib|ld-)[\w+.-]*\.so\.\d+(?=\0)", data))
        if not needed - {b"libantientropy.so.2"} <= GLIBC:
            return 0
        minors += [int(minor) for minor in re.findall(rb"(?<=\0)GLIBC_2\.(\d+)", data)]
    return max(minors)


class BuildPy(build_py):
    """Copies the modules, and then the library into their folder, where `_library.py` looks for it."""

    def run(self) -> None:
        """Copy the modules and the library."""
        super().run()
        if LIBRARY:
            self.copy_file(LIBRARY, os.path.join(self.build_lib, "antientropy", "libantientropy.so"))


def find_bdist_wheel() -> Any:
    """Return the command that makes wheels, of setuptools or of wheel, or None."""
    for module in ("setuptools.command.bdist_wheel", "wheel.bdist_wheel"):
        try:
            return import_module(module).bdist_wheel
        except ImportError:
            continue
    return None


COMMANDS: Dict[str, Any] = {"build_py": BuildPy}
BASE = find_bdist_wheel()
if BASE is not None:

    class BdistWheel(BASE):
        """Makes a wheel, with the tag of its shared objects."""

        def get_tag(self) -> Tuple[str, str, str]:
            """Return the tag of Python, of its interface and of the platform."""
            python, abi, platform = super().get_tag()
            objects = [path.read_bytes() for path in Path(self.bdist_dir).rglob("*.so")]
            minor = glibc_of(objects) if LIBRARY else 0
            return python, abi, platform.replace("linux", f"manylinux_2_{minor}", 1) if minor else platform

    COMMANDS["bdist_wheel"] = BdistWheel


NATIVE = Extension(
    "antientropy._native",
    ["antientropy/_native.c"],
    include_dirs=[str(INCLUDE)],
    depends=[str(INCLUDE / "antientropy.h")],
    optional=True,  # without it the package calls the library by ctypes alone
)

setup(cmdclass=COMMANDS, ext_modules=[NATIVE])
