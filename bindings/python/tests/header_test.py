"""The package's declarations match the header."""

import re
import unittest
from ctypes import c_bool, c_char_p, c_size_t, c_uint8, c_uint32, c_uint64, c_void_p
from pathlib import Path

import antientropy
from antientropy import _calls, _checkpoint, _values

HEADER = Path(__file__).resolve().parents[3] / "include/antientropy.h"
PROJECT = Path(__file__).resolve().parents[1] / "pyproject.toml"
TEXT = re.sub(r"/\*.*?\*/", "", HEADER.read_text(encoding="utf-8"), flags=re.S)
SCALARS = {"uint8_t": c_uint8, "uint32_t": c_uint32, "uint64_t": c_uint64, "size_t": c_size_t, "bool": c_bool}
STRUCTS = {"receipt": _values.Receipt, "spot": _values.Spot, "offer_parts": _values.OfferParts,
           "verdict": _values.Verdict, "progress": _values.Progress,
           "counts": _values.Counts, "bytes": _values.ByteCounts, "about": _values.About,
           "hint_counts": _values.HintCounts, "slot_counts": _values.SlotCounts}


def argument(text):
    """The ctypes type of an argument."""
    words = text.split()
    if "*" not in text:
        return SCALARS[words[0]]
    return c_char_p if text.startswith("const uint8_t *") else c_void_p


def declared():
    """The types of each call in the header."""
    calls = {}
    for result, name, arguments in re.findall(r"^(uint32_t|void) antientropy_(\w+)\((.*?)\);", TEXT, re.M | re.S):
        types = () if arguments == "void" else tuple(argument(text.strip()) for text in arguments.split(","))
        calls[name] = (None if result == "void" else c_uint32, types)
    return calls


def constants():
    """The numbers of enums and limits in the header."""
    enums = re.findall(r"ANTIENTROPY_(\w+) = (\d+)", TEXT)
    return {name: int(number) for name, number in enums + re.findall(r"#define ANTIENTROPY_(\w+) (\d+)", TEXT)}


def fields(struct):
    """The names of a struct's fields in the header."""
    body = re.search(r"struct antientropy_%s \{(.*?)\};" % struct, TEXT, re.S).group(1)
    return tuple(re.findall(r"(\w+)(?:\[\w+\])?;", body))


class HeaderTest(unittest.TestCase):
    def test_names(self):
        self.assertEqual(set(declared()), set(_calls.CALLS))

    def test_reads(self):
        inline = re.findall(r"^static inline uint32_t antientropy_(\w+)\(\s*const struct", TEXT, re.M)
        self.assertEqual(set(inline), _calls.READS)

    def test_types(self):
        for name, types in declared().items():
            with self.subTest(name):
                self.assertEqual(_calls.CALLS[name], types)

    def test_structs(self):
        for struct, value in STRUCTS.items():
            with self.subTest(struct):
                self.assertEqual(fields(struct), value._fields)
        self.assertEqual((*fields("bounds"), "plain"), _values.Bounds._fields)
        self.assertEqual(fields("reading"), ("versions", "pairs", "bytes", "kind"))
        self.assertEqual(fields("loaded"), ("taken", "known", "offset"))
        self.assertEqual(fields("percentile"), ("found", "micros"))
        self.assertEqual(fields("pair"), ("node", "counter"))
        self.assertEqual(fields("node"), ("depth", "index"))
        handle = tuple(name for name, _ in _calls.HandleStruct._fields_)
        self.assertEqual(fields("hints"), handle)
        for struct in ("replica", "renewal", "snapshot", "portion", "exchange", "slots"):
            self.assertEqual(fields(struct), handle[:2])

    def test_enums(self):
        numbers = constants()
        for enum in (antientropy.Kind, antientropy.Source, antientropy.Order):
            for member in enum:
                self.assertEqual(numbers[member.name], member.value)
        for prefix, enum in (("VERDICT_", antientropy.VerdictKind), ("REPORT_", antientropy.Report)):
            members = {prefix + member.name: member.value for member in enum}
            self.assertEqual(members, {name: numbers[name] for name in numbers if name.startswith(prefix)})

    def test_limits(self):
        numbers = constants()
        self.assertEqual(_calls.CLOCK_MAX, numbers["CLOCK_MAX"])
        self.assertEqual(_calls.KEY_MAX, numbers["KEY_MAX"])
        self.assertEqual(_calls.ROOT_LEN, numbers["ROOT_LEN"])
        self.assertEqual(_calls.ASK_LEN, numbers["ASK_LEN"])
        self.assertEqual(_calls.ENTRY_MAX, numbers["ENTRY_MAX"])
        self.assertEqual(_checkpoint._LEAVES, {1: numbers["LEAVES_1"], 2: numbers["LEAVES_2"]})
        self.assertEqual(antientropy.version()[0], numbers["VERSION_MAJOR"])

    def test_version_of_the_package(self):
        (version,) = re.findall(r'^version = "(.*)"$', PROJECT.read_text(encoding="utf-8"), re.M)
        parts = [str(constants()[f"VERSION_{part}"]) for part in ("MAJOR", "MINOR", "PATCH")]
        self.assertEqual(version, ".".join(parts))

    def test_refusals_have_the_names_of_the_header(self):
        causes = re.search(r"enum \{\s*ANTIENTROPY_OK = 0,(.*?)\};", TEXT, re.S).group(1)
        numbers = re.findall(r"ANTIENTROPY_(\w+) = (\d+)", causes)
        names = {int(number): name.title().replace("_", "") for name, number in numbers}
        classes = {each.__name__: each for each in antientropy.AntientropyError.__subclasses__()}
        self.assertEqual({f"{name}Error" for name in names.values()}, set(classes))
        for number, name in names.items():
            self.assertIs(getattr(antientropy, f"{name}Error"), classes[f"{name}Error"])
            self.assertIn(f"{name}Error", antientropy.__all__)
            self.assertEqual(antientropy._library.current().names[number], name)
            self.assertIs(type(antientropy._library.current().refusal("put", number)), classes[f"{name}Error"])


if __name__ == "__main__":
    unittest.main()
