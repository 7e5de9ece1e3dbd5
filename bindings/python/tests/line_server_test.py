"""The lines of examples/line_server.py: one that isn't a request is refused, and the next one gets its answer."""

import io
import json
import os
import random
import time
import unittest
from contextlib import closing
from pathlib import Path

from antientropy import Replica

from tests.store_case import SqliteStore, StoreCase
from tests.store_process import StoreProcess, run

from line_server import LineServer

BAD_LINES = [
    "",
    "put",
    "{}",
    "[]",
    "null",
    "7",
    '"put"',
    '{"put": []}',
    "[" * 100_000,
    '["put", "61", "62", []',
    '["nothing"]',
    "[7]",
    "[null]",
    '[["put"], "61", "62", []]',
    '["run"]',
    '["__init__"]',
    '["put"]',
    '["put", "61", "62"]',
    '["put", "61", "62", [], []]',
    '["put", "6", "62", []]',
    '["put", "zz", "62", []]',
    '["put", 61, "62", []]',
    '["put", null, "62", []]',
    '["put", "61", 62, []]',
    '["put", "61", "62", null]',
    '["put", "61", "62", 7]',
    '["put", "61", "62", [1, 2]]',
    '["put", "61", "62", [[1]]]',
    '["put", "61", "62", [[1, 2, 3]]]',
    '["put", "61", "62", [[1, -2]]]',
    '["put", "61", "62", [[1, 2.0]]]',
    '["put", "61", "62", [[1, true]]]',
    '["put", "61", "62", [[1, "2"]]]',
    '["put", "61", "62", [[1, 18446744073709551616]]]',
    '["put", "61", "62", [[1, %s]]]' % ("9" * 10_000),
    '["put", "61", "62", {"1": 2}]',
    '["put", NaN, "62", []]',
    '["get"]',
    '["get", ["61"]]',
    '["accept", "61", [], 7]',
    '["accept", "61", "62", []]',
    '["entries"]',
    '["entries", -1]',
    '["entries", 0.5]',
    '["entries", "0"]',
    '["entries", true]',
    '["entries", 18446744073709551616]',
    '["serve"]',
    '["serve", "61"]',
    '["serve", ["6"]]',
    '["serve", [7]]',
    '["sync", 2]',
    '["sync", "2", "61"]',
    '["sync", -2, "61"]',
    '["sync", 2, 61]',
    '["offer", 1]',
    '["renew", 1]',
    "\ufffd\x00",
]

REFUSED = [
    ('["put", "", "62", []]', "BadKey"),
    ('["put", "61", "62", [[0, 1]]]', "BadClock"),
    ('["put", "61", "62", [[1, 1], [1, 2]]]', "BadClock"),
    ('["accept", "61", [[70000, 1]], "62"]', "BadClock"),
    ('["entries", 9]', "BadPosition"),
    ('["serve", ["61"]]', "NoOffer"),
    ('["sync", 2, "61"]', "BadMessage"),
    ('["sync", 70000, "OFFER"]', "BadClock"),
]


class LineServerTest(StoreCase):
    def setUp(self):
        super().setUp()
        with Replica() as partner:
            partner.put(2, b"a", b"x")
            with partner.snapshot() as snapshot:
                self.offer = snapshot.offer(1).hex()

    def answers(self, lines):
        """The answers of a store to lines, without the first."""
        output = io.StringIO()
        LineServer(self.open(limit=10_000), (line + "\n" for line in lines), output).run()
        first, *answers = map(json.loads, output.getvalue().splitlines())
        self.assertEqual(first, 1)
        return answers

    def test_bad_lines(self):
        lines = [line for bad in BAD_LINES for line in (bad, '["get", "61"]')]
        for line, *answers in zip(BAD_LINES, *[iter(self.answers(lines))] * 2):
            self.assertEqual(answers, [{"refused": "BadLine"}, []], line[:80])

    def test_refused_lines(self):
        answers = self.answers(line.replace("OFFER", self.offer) for line, _ in REFUSED)
        self.assertEqual(answers, [{"refused": name} for _, name in REFUSED])

    def test_bad_answers_within_a_sync(self):
        """Each loses the ask, and bytes that aren't an answer are bad. At a bound the sync ends: a request follows."""
        for bad in ("", "7", "{}", "[", "[]", "[7]", '["6"]', "[null]", '["61"]', "[" * 100_000):
            rounds = 9 if bad == '["61"]' else 257
            answers = self.answers([f'["sync", 2, "{self.offer}"]', *[bad] * rounds, '["get", "61"]'])
            self.assertEqual([type(answer) for answer in answers], [list] * rounds + [int, list], bad[:80])
            self.assertEqual(answers[-2:], [0, []])
            self.doCleanups()
            self.setUp()

    def test_random_lines(self):
        """Each line has one answer. None of them syncs, since that would take the next ones as its partner's."""
        seed = int(os.environ.get("SEED", time.time_ns() % 1_000_000))
        print(f"SEED={seed}")
        chosen = random.Random(seed)
        calls = {"put": 3, "get": 1, "accept": 3, "offer": 0, "serve": 1, "entries": 1, "renew": 0, "no": 1}
        args = ["61", "62", "6", "", "ff" * 20, 0, 1, -1, 0.5, 1 << 64, None, True, {}]
        args += [[], [1], [[1, 1]], [[2, 1], [3, 2]]]
        lines = []
        for _ in range(3000):
            call, count = chosen.choice([*calls.items()])
            count = count if chosen.random() < 0.8 else chosen.randrange(5)
            line = json.dumps([call, *chosen.choices(args, k=count)])
            if chosen.random() < 0.2:
                place = chosen.randrange(len(line))
                line = line[:place] + chosen.choice('[]{},"\\x0\x00é ') + line[place + chosen.randrange(2) :]
            lines.append(line)
        answers = self.answers(lines)
        self.assertEqual(len(answers), len(lines))
        self.assertGreater(sum(answer == {"refused": "BadLine"} for answer in answers), 300)
        self.assertGreater(sum(not isinstance(answer, dict) for answer in answers), 300)


class ProcessTest(StoreCase):
    def test_bytes_that_are_no_text(self):
        process = StoreProcess(self.path, 100)
        self.assertEqual(process.start(), 1)
        process._process.stdin.buffer.write(b'\xff\xfe["get"\n')
        process._process.stdin.buffer.flush()
        self.assertEqual(process.read(), {"refused": "BadLine"})
        self.assertEqual(process.ask("get", "61"), [])
        self.assertEqual(process.end(), (0, ""))

    def test_starts_that_are_refused(self):
        """The store prints the reason in one line. A new life takes the readable versions."""
        with closing(SqliteStore(self.path)) as store:
            store.put(b"a", b"x")
        path, new = self.path, self.path.with_name("2.db")
        Path(f"{path}-noted").unlink()
        doubt = f"{path} is in doubt, and its number isn't used again: the note is missing\n"
        for words, status, said in (
            (["serve", path], 1, doubt),
            (["create", path, "1"], 1, f"{path}: {path} is there\n"),
            (["renumber", path, new, "1"], 1, f"{path}: 1 was used: {path} has it\n"),
            (["renumber", path, new, "2"], 0, f"{new} has 1 versions of {path}\n"),
            (["serve", new], 0, "2\n"),
        ):
            self.assertEqual(run(path, *words), (status, said))


if __name__ == "__main__":
    unittest.main()
