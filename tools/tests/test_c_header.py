"""Reading a header of C, asking the compiler about it, and the constants for Fortran."""

from __future__ import annotations

import re
import unittest

from parts.c_header import Member, read_header
from parts.c_probe import probe
from parts.command import Fault
from parts.fortran_header import FORTRAN_HEADERS, fortran_text, read_constants
from tests.support import ROOT, InFolder, needs_command, run_tool

SMALL = """
#include <stddef.h>
#define SMALL_FIVE 5
#define SMALL_TYPE long long
#define SMALL_SUM(a, b) ((a) + (b))
#define SMALL_GONE 1
#undef SMALL_GONE
typedef struct _small { char *names[3]; int first, *second; unsigned low : 3, high : 5; } small_t;
typedef union { long whole; char bytes[8]; } small_u;
typedef enum { SMALL_A, SMALL_B = 7, } small_e;
typedef void (*small_f)(int one, void *two);
typedef unsigned long small_n;
const char *small_name(int number);
unsigned long small_call(void (*call)(int), small_t *values);
"""


@needs_command("cc", "a C compiler")
class Headers(InFolder):
    def setUp(self) -> None:
        super().setUp()
        self.write("small.h", SMALL)
        self.header = read_header("small.h", self.folder, "small")

    def test_functions(self) -> None:
        self.assertEqual(self.header.functions, {
            "small_name": "const char * (int number)",
            "small_call": "unsigned long (void (*call)(int), small_t *values)",
        })

    def test_types(self) -> None:
        small = self.header.composites["small_t"]
        self.assertEqual(small.tag, "struct _small")
        self.assertEqual(small.members, (
            Member("names", "char *[3]", None), Member("first", "int", None),
            Member("second", "int *", None),
            Member("low", "unsigned", 3), Member("high", "unsigned", 5),
        ))
        self.assertEqual(self.header.composites["small_u"].tag, "")
        self.assertEqual(
            self.header.typedefs,
            {
                "small_e": "unsigned int",
                "small_f": "void (*)(int one, void *two)",
                "small_n": "unsigned long",
            },
        )
        self.assertEqual(self.header.enumerators, ["SMALL_A", "SMALL_B"])

    def test_files(self) -> None:
        self.assertEqual(self.header.path, str(self.folder / "small.h"))
        self.assertIn("stddef.h", [name.rpartition("/")[2] for name in self.header.included])
        self.assertEqual(
            self.header.names() & {"small_call", "small_t", "small_n", "SMALL_B", "SMALL_SUM"},
            {"small_call", "small_t", "small_n", "SMALL_B", "SMALL_SUM"},
        )

    def test_macros(self) -> None:
        self.assertEqual(self.header.macros["SMALL_SUM"].parameters, ("a", "b"))
        self.assertNotIn("SMALL_GONE", self.header.macros)
        self.assertEqual(
            self.header.possible_constants(), ["SMALL_FIVE", "SMALL_TYPE", "SMALL_A", "SMALL_B"]
        )

    def test_an_enumeration_with_a_number_below_0(self) -> None:
        self.write(
            "small.h",
            "typedef enum { LOW = -1, HIGH } small_e;\ntypedef enum { NONE = 0, SOME } small_f;\n",
        )
        self.assertEqual(
            read_header("small.h", self.folder, "small").typedefs,
            {"small_e": "int", "small_f": "unsigned int"},
        )

    def test_what_can_not_be_read(self) -> None:
        for name, cause in (("none.h", "none.h"), ("small.h", "small.h")):
            self.write("small.h", "#error no\n")
            with self.assertRaisesRegex(Fault, f"^{name}: .*(No such file|error)"):
                read_header(name, self.folder, "small")

    def test_a_probe_that_fails(self) -> None:
        with self.assertRaisesRegex(Fault, "^the probe of small.h ends with 3$"):
            probe("small.h", self.folder, {"end": "return 3"})
        self.assertEqual(probe("small.h", self.folder, {"no": "CONSTANT(SMALL_NO)"}), {})
        with self.assertRaisesRegex(Fault, "^the probe of none.h is not built: .*none.h"):
            probe("none.h", self.folder, {"five": "CONSTANT(5)"})

    def test_another_form(self) -> None:
        self.write("small.h", "int small[4], (*other)(void);\n")
        with self.assertRaises(Fault):
            read_header("small.h", self.folder, "small")

    def test_probe(self) -> None:
        rows = {
            "five": "CONSTANT(SMALL_FIVE)", "b": "CONSTANT(SMALL_B)",
            "type": "CONSTANT(SMALL_TYPE)", "sum": "CONSTANT(SMALL_SUM(1, 2l))",
            "first": "PLACE(small_t, first)", "high": "BITS(small_t, high)",
            "name": "SAME(small_name, const char *(int))", "no": "CONSTANT(SMALL_NO)",
            "call": "SAME(small_call, long (void (*call)(int), small_t *values))",
            "tab": 'printf("a\\tb")', "size": "SIZE(small_u)",
        }
        self.assertEqual(probe("small.h", self.folder, rows), {
            "five": "5 int", "b": "7 int", "sum": "3 long", "first": "4 bytes at 24",
            "high": "40=f8 unsigned", "name": "that type", "call": "another type",
            "tab": "a\tb", "size": "8 bytes, aligned to 8",
        })


@needs_command("cc", "a C compiler")
class Interface(unittest.TestCase):
    def test_the_document_has_each_function(self) -> None:
        declared = set(read_header("papi.h", ROOT / "include").functions)
        table = (ROOT / "docs/C_FUNCTIONS.md").read_text(encoding="utf-8")
        named = [
            name for row in table.splitlines() if row.startswith("| `PAPI_")
            for name in re.findall(r"`(PAPI_\w+)`", row.split("|")[1])
        ]
        self.assertEqual(len(declared), 89)
        self.assertEqual(sorted(named), sorted(declared))


class Fortran(InFolder):
    def test_forms_read_back(self) -> None:
        values = {
            "PAPI_NULL": -1,
            "PAPI_OK": 0,
            "PAPI_L1_DCM": -(2**31),
            "PAPI_DOM_HWSPEC": 2**31,
            "PAPI_NATIVE_AND_MASK": 0xBFFFFFFF,
        }
        signed = {**values, "PAPI_DOM_HWSPEC": -(2**31), "PAPI_NATIVE_AND_MASK": 0xBFFFFFFF - 2**32}
        for file in FORTRAN_HEADERS:
            self.write(file, fortran_text(file, values))
            self.assertEqual(read_constants(self.folder / file), signed, file)

    def test_what_is_no_constant(self) -> None:
        self.write("fpapi.h", "! words\n#define A 1\n#define B two\n")
        with self.assertRaisesRegex(Fault, "^not a number: two$"):
            read_constants(self.folder / "fpapi.h")
        long = "PAPI_" + "X" * 60
        with self.assertRaisesRegex(
            Fault, f"^f77papi.h: a line has more than 72 columns: .*{long}"
        ):
            fortran_text("f77papi.h", {long: 1})
        self.assertIn(long, fortran_text("f90papi.h", {long: 1}))

    def test_more_than_32_bits(self) -> None:
        with self.assertRaises(Fault):
            fortran_text("fpapi.h", {"PAPI_WIDE": 2**32})

    @needs_command("cc", "a C compiler")
    def test_the_headers_are_up_to_date(self) -> None:
        done = run_tool("make_fortran", "--check")
        self.assertEqual((done.returncode, done.stderr), (0, ""))
        self.assertEqual(read_constants(ROOT / "include/f90papi.h")["PAPI_VER_CURRENT"], 0x07000000)
