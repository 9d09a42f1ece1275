"""The structures and statuses of `labrun.machine` are those of include/labrun_bay.h. (Its calls are compared by scripts/make_calls.)"""

import os
import re
import unittest

from labrun import machine
from tests.test_runs import TOP

# The structures, each packed by a format.
FORMATS = {name: getattr(machine, f"_{name.upper()}") for name in ("class", "terms", "asked", "outcome", "standing")}
FORMATS["bay"] = machine._HANDLE
LETTERS = {"uint64_t": "Q", "uint64_t[2]": "QQ", "uint32_t": "I", "uint8_t[32]": "32s", "void *": "Q"}
# Those whose fields have names in Python, too.
TUPLES = {"terms": machine.Terms, "standing": machine.Standing, "outcome": machine.Told}
# What the header calls otherwise.
CALLED = {"BAY_NUMBER": "NUMBER", "BAY_STOPPED": "STOPPED", "BAY_OWNER": "OWNER", "STOPPED": "WAS_STOPPED"}


def header() -> str:
    with open(os.path.join(TOP, "include/labrun_bay.h"), encoding="utf-8") as file:
        return re.sub(r"/\*.*?\*/", "", file.read(), flags=re.DOTALL)


def fields_of(body: str) -> list[tuple[str, str]]:
    """The fields of a structure, each with its type; one of several with how many."""
    found = re.findall(r"(\w+ \*|\w+) ?(\w+)(\[\d+\])?;", body)
    return [(name, kind + many) for kind, name, many in found]


class Header(unittest.TestCase):
    def test_structures(self) -> None:
        there = dict(re.findall(r"struct lab_(\w+) \{(.*?)\};", header(), re.DOTALL))
        self.assertEqual(set(there), set(FORMATS))
        for name, packed in FORMATS.items():
            fields = fields_of(there[name])
            letters = "".join(LETTERS[kind] for _, kind in fields)
            # (what isn't used is last, and is left out of what is read)
            self.assertIn(packed.format, ("=" + letters, f"={letters[:-1]}4x"), name)
            if name in TUPLES:
                self.assertEqual(list(TUPLES[name]._fields), [it for it, _ in fields if it != "unused"], name)

    def test_numbers(self) -> None:
        """Each status, and each thing that an ask is told."""
        there = re.findall(r"#define LAB_(\w+) (\d+)u\b", header())
        self.assertGreater(len(there), 20)
        for name, number in there:
            self.assertEqual(getattr(machine, CALLED.get(name, name.removeprefix("BAY_"))), int(number), name)


if __name__ == "__main__":
    unittest.main()
