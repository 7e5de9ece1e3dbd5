"""A process of examples/line_server.py, which tests drive by lines, and kill."""

import json
import os
import signal
import subprocess
import sys

from tests.support import EXAMPLES, IMPORTED

COMMAND = [sys.executable, "-S", EXAMPLES / "line_server.py"]


def environment(path):
    """The environment of a store. Python's compiled files are cached next to its file, so that it starts sooner."""
    compiled = {"PYTHONDONTWRITEBYTECODE": "", "PYTHONPYCACHEPREFIX": f"{path.parent}/compiled"}
    return {**os.environ, "PYTHONPATH": str(IMPORTED), **compiled}


class Died(Exception):
    """The process has ended: a request without an answer wasn't acknowledged."""

    def __init__(self, process):
        super().__init__(process)
        self.process = process


class StoreProcess:
    """A store that serves a file. It has started when its first line is read."""

    def __init__(self, path, limit, before=None):
        command = [*COMMAND, "serve", path, str(limit)]
        pipes = {"stdin": subprocess.PIPE, "stdout": subprocess.PIPE, "stderr": subprocess.PIPE}
        self._process = subprocess.Popen(command, text=True, env=environment(path), preexec_fn=before, **pipes)

    def start(self):
        """Returns the number of the node, once the store has started."""
        return self.read()

    def ask(self, call, *args):
        """Makes a request, and returns the answer, which isn't a refusal."""
        self.write([call, *args])
        said = self.read()
        assert not isinstance(said, dict), said
        return said

    def write(self, said):
        """Writes a line."""
        try:
            self._process.stdin.write(json.dumps(said) + "\n")
            self._process.stdin.flush()
        except BrokenPipeError:
            raise Died(self) from None

    def read(self):
        """Reads a line, or nothing if it is incomplete."""
        line = self._process.stdout.readline()
        if not line.endswith("\n"):
            raise Died(self)
        return json.loads(line)

    def kill(self):
        """Kills the process by SIGKILL."""
        self._process.send_signal(signal.SIGKILL)

    def end(self):
        """Waits for the end of the process. Returns its status and its standard error."""
        errors = self._process.communicate()[1]
        return self._process.returncode, errors


def run(path, *words):
    """Runs a command without input. Returns its status and its output."""
    pipes = {"stdin": subprocess.DEVNULL, "stdout": subprocess.PIPE, "stderr": subprocess.STDOUT}
    done = subprocess.run([*COMMAND, *words], text=True, env=environment(path), **pipes)
    return done.returncode, done.stdout


def create(path, node):
    """Makes the file of a store."""
    assert run(path, "create", path, str(node)) == (0, "")


def sync(store, partner, node):
    """Syncs a store from a partner, and returns the number of versions. The messages pass through here."""
    offer = partner.ask("offer")
    said = store.ask("sync", node, offer)
    while isinstance(said, list):
        try:
            answers = partner.ask("serve", said)
        except Died as died:
            if died.process is store:
                raise
            answers = []
        store.write(answers)
        said = store.read()
    return said
