"""The wheel: it has the library and the extension, and the tag of the glibc that they need."""

import os
import re
import runpy
import shutil
import subprocess
import sys
import tempfile
import unittest
from importlib.util import find_spec
from pathlib import Path
from unittest import mock

from tests.support import PACKAGE

PROGRAM = """
import antientropy
with antientropy.Replica() as replica:
    replica.put(1, b"cart", b"milk")
    print(replica.get(b"cart")[0].value, antientropy.__file__, type(replica).__mro__)
"""


def run(*command, folder, **variables):
    """The output of a command without this program's variables for the package."""
    environment = {name: os.environ[name] for name in os.environ if not name.startswith(("PYTHON", "ANTIENTROPY"))}
    done = subprocess.run(command, cwd=folder, env={**environment, **variables}, capture_output=True, text=True)
    assert done.returncode == 0, done.stdout + done.stderr
    return done.stdout


@unittest.skipUnless(find_spec("setuptools") and find_spec("wheel"), "there is no setuptools, or no wheel")
class WheelTest(unittest.TestCase):
    @unittest.skipUnless(find_spec("ensurepip"), "venv makes no pip")
    @unittest.skipUnless("ANTIENTROPY_LIBRARY" in os.environ, "ANTIENTROPY_LIBRARY isn't set")
    def test_wheel(self):
        with tempfile.TemporaryDirectory() as folder:
            package = Path(folder, "bindings/python")
            shutil.copytree(PACKAGE, package, ignore=shutil.ignore_patterns("__pycache__", "build"))
            shutil.copytree(PACKAGE.parents[1] / "include", Path(folder, "include"))
            wheel = ("-m", "pip", "wheel", "--no-index", "--no-build-isolation", "--no-deps", "-w", folder, package)
            run(sys.executable, *wheel, folder=folder, ANTIENTROPY_LIBRARY=os.environ["ANTIENTROPY_LIBRARY"])
            (made,) = Path(folder).glob("*.whl")
            self.assertRegex(made.name, r"-manylinux_2_\d+_\w+\.whl$")
            run(sys.executable, "-m", "venv", "v", folder=folder)
            python = Path(folder, "v/bin/python")
            run(python, "-m", "pip", "install", "--no-index", made, folder=folder)
            output = run(python, "-c", PROGRAM, folder=folder)
            tags = run(python, "-m", "zipfile", "-l", made, folder=folder)
        self.assertRegex(output, r"^b'milk' \S*/v/lib/\S* ")
        self.assertIn("antientropy/libantientropy.so", tags)
        if re.search(r"antientropy/_native\.\S*\.so", tags):
            self.assertIn("antientropy._native.Versions", output)

    def test_glibc(self):
        with mock.patch("setuptools.setup"):
            glibc_of = runpy.run_path(str(PACKAGE / "setup.py"))["glibc_of"]
        self.assertEqual(glibc_of([b"\0libc.so.6\0GLIBC_2.2.5\0GLIBC_2.14\0"]), 17)
        library = b"\0libc.so.6\0GLIBC_2.34\0libantientropy.so.2\0"
        self.assertEqual(glibc_of([b"\0libc.so.6\0GLIBC_2.2.5\0", library]), 34)
        self.assertEqual(glibc_of([b"\0libc.so.6\0libssl.so.3\0GLIBC_2.34\0"]), 0)


if __name__ == "__main__":
    unittest.main()
