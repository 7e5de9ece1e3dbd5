"""Common parts of the programs: arguments, a temporary folder, and an orderly end."""

from __future__ import annotations

import argparse
import shutil
import signal
import sys
import tempfile
from pathlib import Path
from typing import Callable

from .clients import NoClients
from .history import BadLog
from .nodes import NoStart


def parse(parser: argparse.ArgumentParser) -> argparse.Namespace:
    """Parses a command's arguments, including the common ones."""
    parser.add_argument("--library", type=Path, help="folder of the C library, made by ./build-c")
    parser.add_argument("--out", type=Path, help="folder of a cluster that is built already")
    parser.add_argument("--keep", type=Path, metavar="LOGS", help="folder for the logs")
    parser.add_argument("--ports", type=int, metavar="FIRST", help="first of twelve ports; free ones if it's omitted")
    given = parser.parse_args()
    if not given.library and not given.out:
        parser.error("--library or --out is wanted")
    return given


def run(work: Callable[[Path], int]) -> int:
    """Does work in a temporary folder, and returns its status. A signal ends it as an exception does."""
    signal.signal(signal.SIGTERM, lambda *_: sys.exit(143))
    room = Path(tempfile.mkdtemp(prefix="cluster-"))
    try:
        return work(room)
    except (NoStart, NoClients, BadLog) as fault:
        print(f"FAILED: {fault}\n0 passed, 1 failed")
        return 1
    except KeyboardInterrupt:
        return 130
    finally:
        shutil.rmtree(room)
