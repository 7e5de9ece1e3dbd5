"""The examples and the code of the README."""

import os
import re
import shutil
import subprocess
import sys
import sysconfig
import tempfile
import unittest
from importlib.util import find_spec
from pathlib import Path

from tests.support import EXAMPLES, PACKAGE, lacks, run

README = (PACKAGE / "README.md").read_text(encoding="utf-8")
ROOM = Path("bindings/python")
#: Variables that would select another package or library than the installed ones.
VARIABLES = ("PYTHONPATH", "ANTIENTROPY_LIBRARY")


def blocks(language):
    """The blocks of the README in a language."""
    return re.findall(rf"```{language}\n(.*?)```", README, re.S)


class ExamplesTest(unittest.TestCase):
    def test_outage(self):
        output = run(EXAMPLES / "outage.py")
        print(output, end="")
        self.assertEqual(output, (EXAMPLES / "outage.out").read_text(encoding="utf-8"))

    def test_asyncio(self):
        output = run(EXAMPLES / "asyncio_sync.py")
        self.assertRegex(output, r"^FINISHED: 100 versions accepted, [1-9]\d* asks lost\nroots equal: yes\n$")

    def test_readme(self):
        names = {}
        for block in blocks("python"):
            if "Hints" in block and lacks("hints_new"):
                continue
            exec(compile(block, "README.md", "exec"), names)
        self.assertEqual(set(re.findall(r"^```(\w+)$", README, re.M)), {"python", "sh"})

    @unittest.skipUnless(find_spec("ensurepip"), "venv makes no pip")
    @unittest.skipUnless(find_spec("setuptools") and find_spec("wheel"), "there is no setuptools, or no wheel")
    def test_install(self):
        """The installed package has the library, and the extension if Python's headers exist."""
        (command,) = blocks("sh")
        with tempfile.TemporaryDirectory() as folder:
            shutil.copytree(PACKAGE, Path(folder) / ROOM, ignore=shutil.ignore_patterns("__pycache__"))
            shutil.copytree(PACKAGE.parents[1] / "include", Path(folder) / "include")
            command = command.replace("python3", sys.executable, 1)
            subprocess.run(command, shell=True, check=True, cwd=folder, stdout=subprocess.PIPE, stderr=subprocess.PIPE)
            code = "import antientropy as it; print(it.version()[0], it.Replica.__mro__, it.__file__)"
            environment = {name: os.environ[name] for name in os.environ if name not in VARIABLES}
            command = [f"{folder}/v/bin/python", "-c", code]
            output = subprocess.run(command, cwd=folder, env=environment, capture_output=True, text=True).stdout
        self.assertIn("/v/lib/", output)
        self.assertEqual(output[:2], "2 ")
        if Path(sysconfig.get_path("include"), "Python.h").exists():
            self.assertIn("antientropy._native.Versions", output)


if __name__ == "__main__":
    unittest.main()
