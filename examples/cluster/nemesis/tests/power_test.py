"""The library of disk faults, and the effect of power cuts: small programs that run under it and are killed."""

import os
import random
import shutil
import signal
import subprocess
import sys
import tempfile
import time
import unittest
from pathlib import Path

from nemesis import power

#: The beginning of each program. `folder` is the one on the disk.
BEGIN = """
import errno, os, signal, sqlite3, sys, threading, time
folder = sys.argv[1]
os.chdir(folder)
def opened(name, more=0):
    return os.open(name, os.O_RDWR | os.O_CREAT | more)
def write(name, data, more=0):
    file = opened(name, more)
    os.write(file, data)
    return file
def sync(name="."):
    file = os.open(name, os.O_RDONLY)
    os.fsync(file)
    os.close(file)
def synced(name, data):
    os.fsync(write(name, data))
    sync()
def refused(call, *words):
    try:
        call(*words)
    except OSError as fault:
        print(errno.errorcode[fault.errno])
"""
#: Seconds that a program may take on a busy machine.
HANG_S = 600.0
END = "\nsys.stdout.flush()\nos.kill(os.getpid(), signal.SIGKILL)\n"


@unittest.skipIf(shutil.which("cc") is None, "there is no C compiler")
class PowerCase(unittest.TestCase):
    @classmethod
    def setUpClass(cls):
        cls.room = tempfile.TemporaryDirectory()
        cls.library = power.build(Path(cls.room.name))

    @classmethod
    def tearDownClass(cls):
        cls.room.cleanup()

    def setUp(self):
        self.folder = Path(tempfile.mkdtemp(dir=self.room.name)) / "disk"
        self.power = power.Power(self.library, self.folder)

    def begin(self, program):
        words = [sys.executable, "-S", "-c", BEGIN + program + END, str(self.folder)]
        pipes = dict.fromkeys(("stdin", "stdout", "stderr"), subprocess.PIPE)
        return subprocess.Popen(words, env=self.power.environment(), **pipes)

    def end(self, child):
        """Waits until a program has killed itself, and returns its output."""
        said, complaints = child.communicate(timeout=HANG_S)
        self.assertEqual((child.returncode, complaints.decode()), (-signal.SIGKILL, ""))
        return said.decode().split()

    def run_program(self, program):
        return self.end(self.begin(program))

    def held(self):
        """Returns the files of the disk."""
        return {str(it.relative_to(self.folder)): it.read_bytes() for it in self.folder.rglob("*") if it.is_file()}


class Bytes(PowerCase):
    def test_a_kill_takes_nothing_back(self):
        self.run_program("write('a', b'one')")
        self.assertEqual(self.held(), {"a": b"one"})

    def test_what_was_not_synced_is_gone(self):
        self.run_program("synced('a', b'one'); write('a', b'two', os.O_APPEND)")
        self.assertEqual(self.held(), {"a": b"onetwo"})
        self.power.cut()
        self.assertEqual(self.held(), {"a": b"one"})

    def test_what_was_synced_stays(self):
        self.run_program("synced('a', b'one'); file = write('a', b'two', os.O_APPEND); os.fdatasync(file)")
        self.power.cut()
        self.assertEqual(self.held(), {"a": b"onetwo"})

    def test_overwritten_bytes_come_back(self):
        self.run_program(
            "synced('a', b'0123456789'); file = opened('a'); os.pwrite(file, b'abc', 3); os.write(file, b'xy')"
        )
        self.assertEqual(self.held(), {"a": b"xy2abc6789"})
        self.power.cut()
        self.assertEqual(self.held(), {"a": b"0123456789"})

    def test_parts_of_a_write_that_goes_beyond_the_end(self):
        self.run_program(
            "synced('a', b'0123'); file = opened('a'); os.lseek(file, 2, 0); os.writev(file, [b'ab', b'cd'])"
        )
        self.assertEqual(self.held(), {"a": b"01abcd"})
        self.power.cut()
        self.assertEqual(self.held(), {"a": b"0123"})

    def test_what_was_cut_off_comes_back(self):
        self.run_program(
            "synced('a', b'0123456789'); file = opened('a'); os.ftruncate(file, 4); os.pwrite(file, b'x', 6)"
        )
        self.assertEqual(self.held(), {"a": b"0123\0\0x"})
        self.power.cut()
        self.assertEqual(self.held(), {"a": b"0123456789"})

    def test_a_file_that_was_opened_to_be_emptied(self):
        self.run_program("synced('a', b'0123'); os.write(os.open('a', os.O_WRONLY | os.O_TRUNC), b'new')")
        self.power.cut()
        self.assertEqual(self.held(), {"a": b"0123"})

    def test_a_file_that_cannot_be_read_by_its_writer(self):
        self.run_program("synced('a', b'0123'); os.pwrite(os.open('a', os.O_WRONLY), b'x', 1)")
        self.power.cut()
        self.assertEqual(self.held(), {"a": b"0123"})

    def test_what_an_earlier_program_did_not_sync(self):
        self.run_program("synced('a', b'one'); write('a', b'two', os.O_APPEND)")
        self.run_program("write('a', b'three', os.O_APPEND)")
        self.power.cut()
        self.assertEqual(self.held(), {"a": b"one"})

    def test_a_sync_is_for_what_an_earlier_program_wrote(self):
        self.run_program("synced('a', b'one'); write('a', b'two', os.O_APPEND)")
        self.run_program("sync('a')")
        self.power.cut()
        self.assertEqual(self.held(), {"a": b"onetwo"})

    def test_what_is_written_during_a_sync_is_not_synced(self):
        self.power.slow_syncs(300)
        child = self.begin(
            "file = write('a', b'one'); it = threading.Thread(target=os.fsync, args=(file,)); it.start()\n"
            "sys.stdin.readline(); os.write(file, b'two'); it.join(); sync()"
        )
        while self.power.counts().begun == 0 and child.poll() is None:
            time.sleep(0.01)
        child.stdin.write(b"\n")
        self.end(child)
        self.power.cut()
        self.assertEqual(self.held(), {"a": b"one"})

    def test_a_part_of_what_was_not_synced(self):
        whole = b"".join(b"%d" % number * 9 for number in range(1, 9))
        seen = set()
        for seed in range(8):
            self.run_program(
                "synced('a', b''); file = opened('a', os.O_TRUNC)\n"
                "for n in range(1, 9): os.write(file, b'%d' % n * 9)"
            )
            self.assertEqual(self.held(), {"a": whole})
            self.power.cut(random.Random(seed))
            left = self.held()["a"].rstrip(b"\0")
            self.assertTrue(whole.startswith(left))
            seen.add(len(left) % 9)
        self.assertGreater(len(seen), 1)

    def test_a_sector_is_written_whole_or_not_at_all(self):
        for seed in range(6):
            self.run_program("synced('a', b'0' * 600); os.pwrite(opened('a'), b'1' * 20, 8)")
            self.power.cut(random.Random(seed))
            self.assertIn(self.held()["a"][8:28], (b"0" * 20, b"1" * 20))

    def test_a_database(self):
        self.run_program(
            "base = sqlite3.connect('base', isolation_level=None)\n"
            "base.execute('PRAGMA journal_mode=WAL'); base.execute('PRAGMA synchronous=FULL')\n"
            "base.execute('CREATE TABLE t (n)')\n"
            "for n in range(300): base.execute('INSERT INTO t VALUES (?)', (n,))\n"
            "base.execute('PRAGMA synchronous=OFF')\n"
            "for n in range(300, 400): base.execute('INSERT INTO t VALUES (?)', (n,))\n"
        )
        self.power.cut()
        said = self.run_program(
            "base = sqlite3.connect('base'); print(*base.execute('SELECT count(*), max(n) FROM t').fetchone())"
        )
        self.assertEqual(said, ["300", "299"])


class Names(PowerCase):
    def test_a_new_name_that_was_not_synced(self):
        self.run_program("os.fsync(write('a', b'one'))")
        self.power.cut()
        self.assertEqual(self.held(), {})

    def test_a_new_name_whose_file_was_not_synced(self):
        self.run_program("write('a', b'one'); sync()")
        self.power.cut()
        self.assertEqual(self.held(), {"a": b""})

    def test_a_removed_file_comes_back(self):
        self.run_program("synced('a', b'one'); os.unlink('a')")
        self.assertEqual(self.held(), {})
        self.power.cut()
        self.assertEqual(self.held(), {"a": b"one"})

    def test_a_removed_file_whose_removal_was_synced(self):
        self.run_program("synced('a', b'one'); os.unlink('a'); sync()")
        self.power.cut()
        self.assertEqual(self.held(), {})
        self.assertEqual([it.name for it in self.folder.with_name("disk.shadow").iterdir()], ["control"])

    def test_a_removed_file_whose_folder_was_not_synced(self):
        self.run_program("os.mkdir('d'); sync(); synced('d/a', b'one'); sync('d'); os.unlink('d/a'); sync()")
        self.power.cut()
        self.assertEqual(self.held(), {"d/a": b"one"})

    def test_a_replaced_file_comes_back(self):
        self.run_program("synced('a', b'old'); os.fsync(write('b', b'new')); os.rename('b', 'a')")
        self.power.cut()
        self.assertEqual(self.held(), {"a": b"old"})

    def test_a_replaced_file_whose_name_was_synced(self):
        self.run_program("synced('a', b'old'); os.fsync(write('b', b'new')); os.rename('b', 'a'); sync()")
        self.power.cut()
        self.assertEqual(self.held(), {"a": b"new"})

    def test_a_replaced_file_that_was_not_synced(self):
        self.run_program("synced('a', b'old'); write('b', b'new'); os.rename('b', 'a'); sync()")
        self.power.cut()
        self.assertEqual(self.held(), {"a": b""})

    def test_a_rename_that_failed(self):
        self.run_program("synced('a', b'old'); refused(os.rename, 'b', 'a')")
        self.power.cut()
        self.assertEqual(self.held(), {"a": b"old"})

    def test_a_folder_that_was_not_synced(self):
        self.run_program("os.mkdir('d'); os.fsync(write('d/a', b'one')); sync('d')")
        self.power.cut()
        self.assertFalse((self.folder / "d").exists())

    def test_a_folder_that_was_synced(self):
        self.run_program("os.mkdir('d'); sync(); os.fsync(write('d/a', b'one')); sync('d')")
        self.power.cut()
        self.assertEqual(self.held(), {"d/a": b"one"})

    def test_a_folder_that_was_renamed(self):
        self.run_program("os.mkdir('d'); sync(); os.fsync(write('d/a', b'one')); sync('d'); os.rename('d', 'e')")
        self.power.cut()
        self.assertEqual(self.held(), {"d/a": b"one"})

    def test_a_new_name_in_a_folder_that_was_renamed(self):
        self.run_program("os.mkdir('d'); sync(); os.fsync(write('d/a', b'one')); os.rename('d', 'e'); sync()")
        self.power.cut()
        self.assertTrue((self.folder / "e").exists())
        self.assertEqual(self.held(), {})

    def test_a_file_that_went_to_another_folder(self):
        self.run_program("os.mkdir('d'); sync(); synced('a', b'one'); os.rename('a', 'd/a'); sync('d')")
        self.power.cut()
        self.assertEqual(self.held(), {"d/a": b"one"})

    def test_a_removed_file_whose_name_was_used_again(self):
        self.run_program("synced('a', b'one'); os.unlink('a'); os.fsync(write('a', b'two'))")
        self.power.cut()
        self.assertEqual(self.held(), {"a": b"one"})

    def test_a_folder_that_was_changed_without_the_library(self):
        self.run_program("write('a', b'one')")
        self.power.keep()
        self.power.cut()
        self.assertEqual(self.held(), {"a": b"one"})


class Model:
    """A folder with names and files, each in its current state and in the state after a power cut."""

    def __init__(self):
        self.names, self.synced = {}, {}

    def create(self, name):
        self.names[name] = [b"", b""]

    def write(self, name, at, data):
        now, _ = self.names[name]
        self.names[name][0] = now[:at].ljust(at, b"\0") + data + now[at + len(data) :]

    def resize(self, name, size):
        self.names[name][0] = self.names[name][0][:size].ljust(size, b"\0")

    def sync(self, name):
        self.names[name][1] = self.names[name][0]

    def rename(self, name, other):
        self.names[other] = self.names.pop(name)

    def remove(self, name):
        del self.names[name]

    def sync_names(self):
        self.synced = dict(self.names)

    def after_a_cut(self):
        return {name: synced for name, (_, synced) in self.synced.items()}


class ByChance(PowerCase):
    """Random changes, and a model of their state after a power cut."""

    PROGRAM = """
for deed, *words in DEEDS:
    if deed == 'create': os.close(opened(*words))
    elif deed == 'rename': os.rename(*words)
    elif deed == 'remove': os.unlink(*words)
    elif deed == 'sync_names': sync()
    else:
        file = opened(words[0])
        if deed == 'write': os.pwrite(file, words[2], words[1])
        elif deed == 'resize': os.ftruncate(file, words[1])
        else: os.fsync(file)
        os.close(file)
"""

    def deed(self, chance, names):
        """Returns a random change, for a folder with these names."""
        free = [name for name in "abcdefgh" if name not in names]
        if free and (not names or chance.random() < 0.15):
            return "create", chance.choice(free)
        name = chance.choice(sorted(names))
        deed = chance.choice(("write", "write", "write", "resize", "sync", "sync", "rename", "remove", "sync_names"))
        more = {
            "write": (chance.randrange(40), bytes(chance.choices(b"0123456789", k=chance.randint(1, 20)))),
            "resize": (chance.randrange(50),),
            "rename": (chance.choice([it for it in "abcdefgh" if it != name]),),
        }
        return (deed,) if deed == "sync_names" else (deed, name, *more.get(deed, ()))

    def test_changes_by_chance(self):
        for seed in range(5):
            chance, model = random.Random(seed), Model()
            for _ in range(2):
                deeds = []
                for _ in range(150):
                    deed, *words = self.deed(chance, model.names)
                    getattr(model, deed)(*words)
                    deeds.append((deed, *words))
                self.run_program(f"DEEDS = {deeds!r}\n{self.PROGRAM}")
                self.assertEqual(self.held(), {name: now for name, (now, _) in model.names.items()})
            self.power.cut()
            self.assertEqual(self.held(), model.after_a_cut(), f"seed {seed}")
            for path in self.folder.iterdir():
                path.unlink()
            self.power.keep()


class Faults(PowerCase):
    def test_a_full_disk(self):
        self.power.fill(5)
        said = self.run_program(
            "file = opened('a'); print(os.write(file, b'0123456789')); refused(os.write, file, b'x')\n"
            "print(os.pwrite(file, b'ab', 1)); refused(opened, 'b'); refused(os.mkdir, 'd')"
        )
        self.assertEqual(said, ["5", "ENOSPC", "2", "ENOSPC", "ENOSPC"])
        self.assertEqual(self.held(), {"a": b"0ab34"})
        self.assertEqual(self.power.counts().refused, 3)

    def test_room_again(self):
        self.power.fill()
        child = self.begin("refused(opened, 'a'); print('full', flush=True); sys.stdin.readline(); write('a', b'one')")
        self.assertEqual(child.stdout.readline(), b"ENOSPC\n")
        self.assertEqual(child.stdout.readline(), b"full\n")
        self.assertEqual(self.held(), {})
        self.power.free()
        child.stdin.write(b"\n")
        self.end(child)
        self.assertEqual(self.held(), {"a": b"one"})

    def test_what_is_removed_gives_room(self):
        self.power.fill(4)
        said = self.run_program(
            "os.write(opened('a'), b'0123'); os.unlink('a'); print(os.write(opened('b'), b'012345'))"
        )
        self.assertEqual(said, ["4"])

    def test_a_sync_that_fails(self):
        self.power.fail_syncs(1)
        said = self.run_program("file = write('a', b'one'); refused(os.fsync, file); os.fsync(file); sync()")
        self.assertEqual(said, ["EIO"])
        self.power.cut()
        self.assertEqual(self.held(), {"a": b"one"})

    def test_syncs_that_all_fail(self):
        self.run_program("synced('a', b'')")
        self.power.fail_syncs()
        said = self.run_program(
            "file = write('a', b'one'); refused(os.fsync, file); refused(os.fdatasync, file); refused(sync)"
        )
        self.assertEqual(said, ["EIO", "EIO", "EIO"])
        self.assertEqual(self.power.counts().failed, 3)
        self.power.cut()
        self.assertEqual(self.held(), {"a": b""})

    def test_a_slow_sync_that_is_healed_at_once(self):
        self.power.slow_syncs(250)
        begun = time.monotonic()
        child = self.begin(
            "file = write('a', b'one'); os.fsync(file); print('done', flush=True); sys.stdin.readline(); os.fsync(file)"
        )
        self.assertEqual(child.stdout.readline(), b"done\n")
        self.assertGreater(time.monotonic() - begun, 0.25)
        # (longer than this test waits for the program)
        self.power.slow_syncs(int(2000 * HANG_S))
        self.power.heal()
        child.stdin.write(b"\n")
        self.end(child)

    def test_other_files_have_no_faults(self):
        self.power.fill()
        self.power.fail_syncs()
        other = self.folder.with_name("other")
        self.run_program(f"file = write({str(other)!r}, b'one'); os.fsync(file)")
        self.assertEqual(other.read_bytes(), b"one")
