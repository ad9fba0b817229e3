"""Looks whether the package has what someip.h has.

Nothing else does: ctypes takes numbers, structs and functions as the
module says them.
"""
import ctypes
import os
import re
import unittest

import someip
from someip import node

HEADER = os.path.join(os.path.dirname(os.path.abspath(__file__)),
                      "../../crates/someip_c/include/someip.h")
STRUCTS = {"someip_handle": node._Handle,
           "someip_endpoint": node._Endpoint,
           "someip_output": node._Output}
# What a type of the header is in the module.
TYPES = {"bool": ctypes.c_bool, "void *": ctypes.c_void_p,
         "uint8_t": ctypes.c_uint8, "uint16_t": ctypes.c_uint16,
         "uint32_t": ctypes.c_uint32, "uint64_t": ctypes.c_uint64,
         "size_t": ctypes.c_size_t, "uint8_t *": ctypes.c_char_p,
         "uint64_t *": ctypes.POINTER(ctypes.c_uint64),
         "uint32_t *": ctypes.POINTER(ctypes.c_uint32),
         "uint16_t *": ctypes.POINTER(ctypes.c_uint16),
         "size_t *": ctypes.POINTER(ctypes.c_size_t),
         "uint8_t[4]": ctypes.c_uint8 * 4, **STRUCTS,
         **{f"{it} *": ctypes.POINTER(kind) for it, kind in STRUCTS.items()}}


def declared(text):
    """The name and the module's type of what the header declares."""
    found = re.fullmatch(r"(?:const )?(.*?)(\w+)(\[\d+\])?",
                         " ".join(text.split()))
    return found[2], TYPES[found[1].strip() + (found[3] or "")]


def plain(kind):
    """A type of the module, or that of ctypes which it is made of."""
    return kind.__base__ if kind.__base__ in TYPES.values() else kind


class TestHeader(unittest.TestCase):
    maxDiff = None

    def setUp(self):
        with open(HEADER, encoding="utf-8") as file:
            self.header = re.sub(r"/\*.*?\*/", "", file.read(), flags=re.S)
        self.numbers = {name: int(number) for name, number in re.findall(
            r"\bSOMEIP_(\w+) = (\d+)", self.header)
            if not name.startswith("AT_")}

    def test_the_numbers_are_those_of_the_header(self):
        names = {error.name: error.number for error in someip.ERRORS.values()}
        for number, kind in enumerate(someip.KINDS, 1):
            name = re.sub(r"(?<=[a-z])(?=[A-Z])", "_", kind.__name__)
            names[name.upper()] = number
        self.assertEqual({"DONE": 0, **names}, self.numbers)

    def test_the_version_is_that_of_the_header(self):
        version = re.search(r"#define SOMEIP_VERSION (\d+)", self.header)[1]
        self.assertEqual(someip.VERSION, int(version))

    def test_the_structs_are_those_of_the_header(self):
        for name, struct in STRUCTS.items():
            text = re.search(r"typedef struct \{([^}]*)\} %s;" % name,
                             self.header)[1]
            fields = [declared(it) for it in text.split(";") if it.strip()]
            self.assertEqual(fields, struct._fields_)

    def test_the_functions_are_those_of_the_header(self):
        functions = {
            name: [declared(it)[1] for it in arguments.split(",")
                   if it != "void"]
            for name, arguments in re.findall(
                r"^uint32_t (\w+)\((.*?)\);", self.header, re.M | re.S)}
        self.assertEqual({name: [plain(it) for it in types] for name, types
                          in someip.FUNCTIONS.items()}, functions)

    def test_a_wheel_has_each_module(self):
        top = os.path.join(os.path.dirname(os.path.abspath(__file__)), "..")
        with open(os.path.join(top, "backend.py"), encoding="utf-8") as file:
            listed = re.search(r"MODULES = \((.*?)\)", file.read(), re.S)[1]
        modules = {name for name in os.listdir(os.path.join(top, "someip"))
                   if name.endswith(".py")}
        self.assertEqual(set(re.findall(r'"(.*?)"', listed)), modules)


if __name__ == "__main__":
    unittest.main()
