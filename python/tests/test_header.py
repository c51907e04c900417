"""The calls of the library as this module declares them, beside include/kcore.h."""

import ctypes
import importlib.util
import re
import unittest

from kcore import _library

from .test_kcore import TOP

HEADER = re.sub(r"/\*.*?\*/", "", (TOP / "include" / "kcore.h").read_text("utf-8"), flags=re.DOTALL)
STRUCTS = {"struct kcore_edge": _library.Edge, "struct kcore_answer": _library.Answer}
NUMBERS = {"uint32_t": ctypes.c_uint32, "size_t": ctypes.c_size_t}
#: What a call gives back that gives nothing.
NOTHING = {"void": None}


def reader_of_header():
    """c/check_header.py, which compares the header with the crates."""
    named = importlib.util.spec_from_file_location("check_header", TOP / "c" / "check_header.py")
    module = importlib.util.module_from_spec(named)
    named.loader.exec_module(module)
    return module


def in_python(declared):
    """What stands for a type of the header: a pointer is one to anything."""
    return ctypes.c_void_p if declared.endswith("*") else {**NUMBERS, **STRUCTS, **NOTHING}[declared]


class Header(unittest.TestCase):
    def test_each_call_has_the_types_of_the_header(self):
        wanted = {
            name: (in_python(result), [in_python(given) for given in types])
            for name, (result, types) in reader_of_header().functions_of_header(HEADER).items()
        }
        kind = type(_library._library.kcore_version)
        declared = [value for value in [*vars(_library).values(), _library._library.kcore_version] if isinstance(value, kind)]
        self.assertGreater(len(declared), 20)
        for function in declared:
            self.assertEqual((function.restype, list(function.argtypes)), wanted[function.__name__], function.__name__)

    def test_the_structs_are_those_of_the_header(self):
        fields = reader_of_header().structs_of_header(HEADER)
        for name, struct in STRUCTS.items():
            wanted = [(field, NUMBERS[of]) for of, field in fields[name.partition(" ")[2]]]
            self.assertEqual(struct._fields_, wanted, name)

    def test_the_statuses_are_those_of_the_header(self):
        named = re.findall(r"KCORE_(\w+) = (\d+)", HEADER)
        here = {name: value for name, value in vars(_library).items() if name.isupper() and isinstance(value, int)}
        for name, number in named:
            if name in here:
                self.assertEqual(here[name], int(number), name)
        self.assertLessEqual({"DONE", "NOT_A_VERTEX", "NO_MEMORY", "TOO_MANY_VERTICES"}, {name for name, _ in named} & set(here))


if __name__ == "__main__":
    unittest.main()
