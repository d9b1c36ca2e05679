"""The library of a process: its files, its events, the codes of its errors, and where the shared
library is found."""

from __future__ import annotations

import json
import re
import shutil
import subprocess
import unittest

from shared_library import EXAMPLES, ROOT, UNIT, OverLibrary, WithPython

import kistalub
from kistalub import Library
from kistalub.errors import BY_CODE

PRESETS = EXAMPLES / "lab.presets"


class Files(OverLibrary):
    def test_what_is_wrong_is_said(self) -> None:
        faulty = self.stream("COMPONENT,cpu,lab", "COUNTER,P0,99,P", name="faulty.unit")
        cases = (
            (
                f"Library({str(self.folder / 'none.unit')!r})",
                f"papi: no such file: {self.folder}/none.unit",
            ),
            (f"Library({str(faulty)!r})", f"papi: {faulty}: row 2: width out of range"),
        )
        for call, line in cases:
            ran = self.run_python(
                "-c",
                (
                    f"import kistalub\ntry: kistalub.{call}.__enter__()\n"
                    "except kistalub.ESYS as error: print(error.name)"
                ),
            )
            self.assertEqual((ran.stdout, ran.stderr), ("PAPI_ESYS\n", f"{line}\n"), call)

    def test_a_faulty_line_of_a_stream(self) -> None:
        stream = self.stream("0 c0 00 u 1 1", "0 c0 00 u x 1")
        text = (
            f"import kistalub\nwith kistalub.Library({str(UNIT)!r}, stream={str(stream)!r}):\n"
            " try: kistalub.go()\n except kistalub.ESYS: print(kistalub.go())"
        )
        ran = self.run_python("-c", text)
        self.assertEqual((ran.stdout, ran.stderr), ("0\n", "papi: stream 0: line 2: bad field\n"))

    def test_files_of_the_environment(self) -> None:
        variables = {
            "KISTALUB_UNIT": str(UNIT),
            "KISTALUB_STREAM": str(EXAMPLES / "c/first.stream"),
            "KISTALUB_STEP": "3",
        }
        text = (
            "import kistalub\nwith kistalub.Library(), kistalub.EventSet('CYCLES') as events:\n"
            " events.start()\n print(events.stop())"
        )
        ran = self.run_python("-c", text, **variables)
        self.assertEqual((ran.stdout, ran.stderr), ("{'CYCLES': 7}\n", ""))

    def test_other_files_need_a_unit(self) -> None:
        self.assertRaises(ValueError, Library, stream="some.stream")


class Events(OverLibrary):
    def test_native_events_are_those_of_the_unit_file(self) -> None:
        names, masks, component = [], [], ""
        for line in UNIT.read_text(encoding="ascii").splitlines():
            row = line.split(",")
            if row[0] == "COMPONENT":
                component = row[2]
            elif row[0] == "EVENT":
                names.append(f"{component}::{row[1]}")
                masks.append(names[-1])
            elif row[0] == "UMASK":
                masks.append(f"{names[-1]}:{row[1]}")
        with Library(UNIT):
            self.assertEqual(kistalub.native_events(), names)
            self.assertEqual(kistalub.native_events(umasks=True), masks)
            self.assertEqual((kistalub.preset_events(), kistalub.user_events()), ([], []))

    def test_presets_are_those_that_papi_avail_has(self) -> None:
        """PAPI_L1_DCM has no native event here, and PAPI_FP_OPS no formula that can be read."""
        wanted = {
            "PAPI_TOT_INS", "PAPI_TOT_CYC", "PAPI_BR_INS", "PAPI_BR_MSP", "PAPI_RES_STL",
            "PAPI_LST_INS", "PAPI_BR_PRC",
        }
        with Library(UNIT, presets=PRESETS, cpu="lab2"):
            self.assertEqual(set(kistalub.preset_events()), wanted)

    def test_user_events_are_those_that_the_unit_has(self) -> None:
        """MISSES has no native event here, and lab2 no user event at all."""
        for cpu, wanted in (("lab1", ["STALL2"]), ("lab2", [])):
            with Library(UNIT, presets=EXAMPLES / "user_events.presets", cpu=cpu):
                self.assertEqual(
                    (kistalub.preset_events(), kistalub.user_events()),
                    (["PAPI_TOT_INS"] if cpu == "lab1" else [], wanted),
                )

    def test_a_description_is_whole(self) -> None:
        """The short one has 63 letters at most (PAPI_MIN_STR_LEN), and this one has 80."""
        text = "x" * 40 + "y" * 40
        unit = self.stream(
            "COMPONENT,cpu,lab", "COUNTER,P0,40,P", "COMPONENT,net,wire", "COUNTER,N0,40,P",
            f"EVENT,SEEN,01,N0,{text}", name="long.unit",
        )
        with Library(unit):
            info = kistalub.describe("seen")
        self.assertEqual(
            (info.name, info.description, info.component, info.derived, info.formula, info.natives),
            ("wire::SEEN", text, 1, "", "", ()),
        )

    def test_what_is_told_of_an_event(self) -> None:
        with Library(UNIT, presets=PRESETS, cpu="lab2"):
            info = kistalub.describe("PAPI_BR_PRC")
            self.assertEqual(
                (info.name, info.derived, info.formula),
                ("PAPI_BR_PRC", "DERIVED_POSTFIX", "N0|N1|-|"),
            )
            self.assertEqual(info.natives, ("lab::BR_INST:ALL", "lab::BR_MISP"))
            self.assertEqual(
                (kistalub.describe("PACKETS").component, kistalub.describe("PACKETS").natives),
                (1, ()),
            )
            self.assertIn("Packets seen", kistalub.describe("wire::PACKETS").description)
            self.assertRaises(kistalub.ENOEVNT, kistalub.describe, "NO_SUCH")


class Codes(OverLibrary):
    def test_each_code_of_the_header_has_its_exception(self) -> None:
        """PAPI_ESBSTR is an old name of PAPI_ECMP."""
        text = (ROOT / "include/papi_constants.h").read_text(encoding="ascii")
        codes = {
            name: int(number)
            for name, number in re.findall(r"#define PAPI_(E[A-Z_]+) (-\d+)\n", text)
            if name != "ESBSTR"
        }
        self.assertGreater(len(codes), 20)
        self.assertEqual({kind.__name__: code for code, kind in BY_CODE.items()}, codes)
        self.assertEqual(
            {name: getattr(kistalub, name) for name in codes},
            {name: BY_CODE[code] for name, code in codes.items()},
        )


REMEDY = (
    "bin/install PREFIX makes one, and KISTALUB_LIBRARY=PREFIX/lib/kistalub/libpapi.so.7.0 in the "
    "environment says where it is"
)


class Finding(WithPython):
    """What is said where there is no library, or another one: what to do."""

    def told(self, library: str, before: str = "") -> str:
        ran = self.run_python(
            "-c", f"import kistalub\nimport kistalub.binding as binding\n{before}\nkistalub.go()",
            KISTALUB_LIBRARY=library,
        )
        self.assertEqual((ran.returncode, ran.stdout), (1, ""))
        return ran.stderr.splitlines()[-1]

    def test_where_there_is_none(self) -> None:
        told = self.told("", "binding.PREFIXES = ('/no/such/prefix',)")
        self.assertEqual(told, "FileNotFoundError: kistalub: no libpapi.so.7.0 in lib/kistalub "
                               f"under /no/such/prefix: {REMEDY}")

    def test_a_path_that_leads_nowhere(self) -> None:
        for path in ("/no/such.so", str(self.folder)):
            self.assertEqual(
                self.told(path),
                (
                    f"FileNotFoundError: kistalub: KISTALUB_LIBRARY is {path}, and there is no "
                    f"such file: {REMEDY}"
                ),
            )

    def test_one_beside_the_module(self) -> None:
        """A wheel may have the library with it, and it comes before those of a prefix."""
        package = self.folder / "kistalub"
        shutil.copytree(ROOT / "python/kistalub", package)
        shutil.copy(ROOT / "VERSION", package)
        (package / "libpapi.so.7.0").write_text("words\n", encoding="ascii")
        ran = self.run_python(
            "-c", "import kistalub\nkistalub.go()", KISTALUB_LIBRARY="", PYTHONPATH=str(self.folder)
        )
        self.assertIn(f"OSError: kistalub: {package}/libpapi.so.7.0 is no shared library that can "
                      "be loaded here", ran.stderr)

    def test_a_file_that_is_no_library(self) -> None:
        path = self.folder / "text.so"
        path.write_text("words\n", encoding="ascii")
        told = self.told(str(path))
        self.assertTrue(
            told.startswith(
                f"OSError: kistalub: {path} is no shared library that can be loaded here ("
            ),
            told,
        )
        self.assertTrue(told.endswith(f"): {REMEDY}"), told)

    def test_another_library(self) -> None:
        self.assertEqual(
            self.told("libc.so.6"),
            f"ImportError: kistalub: libc.so.6 is not Kistalub's library: {REMEDY}",
        )

    @unittest.skipUnless(shutil.which("cc"), "a C compiler is not installed")
    def test_a_library_that_is_older(self) -> None:
        path = self.folder / "old.so"
        subprocess.run(
            ["cc", "-shared", "-fPIC", "-x", "c", "-", "-o", str(path)],
            input="int kistalub_go(void) { return 0; }\n", text=True, check=True,
        )
        self.assertEqual(
            self.told(str(path)),
            (
                f"ImportError: kistalub: {path} has no PAPI_library_init: it is older than this "
                f"module. {REMEDY}"
            ),
        )


class Beginning(OverLibrary):
    def test_one_that_never_began_warns(self) -> None:
        ran = self.run_python("-c", f"import kistalub\nkistalub.Library({str(UNIT)!r})")
        self.assertIn("RuntimeWarning: kistalub: this Library never began: with "
                      "kistalub.Library(..): begins it", ran.stderr)
        for quiet in (
            "with kistalub.Library({0!r}): pass", "kistalub.Library({0!r}).__enter__()",
            "try: kistalub.Library(stream='x')\nexcept ValueError: pass",
        ):
            ran = self.run_python("-c", f"import kistalub\n{quiet.format(str(UNIT))}")
            self.assertEqual((ran.returncode, ran.stderr), (0, ""), quiet)

    def test_a_number_of_a_thread_that_is_none(self) -> None:
        for number in (-1, 1 << 32):
            with self.assertRaisesRegex(ValueError, f"^not a number of a thread: {number}$"):
                kistalub.thread(number)

    def test_a_set_without_one_says_what_to_do(self) -> None:
        with self.assertRaises(kistalub.ENOINIT) as raised:
            kistalub.EventSet("INST_RETIRED")
        self.assertTrue(
            str(raised.exception).endswith(
                " (no library is begun here: with kistalub.Library(unit, stream=..): begins one)"
            ),
            raised.exception,
        )

    def test_one_that_is_not_left_ends_with_the_process(self) -> None:
        """The library is shut down once, by leaving it or at the end."""
        text = "import kistalub, kistalub.library as library\nreal = library.loaded()\n" \
            "class Loaded:\n def PAPI_shutdown(self): print('shut down'); real.PAPI_shutdown()\n" \
            "library.loaded = lambda: Loaded()\nmade = kistalub.Library({0!r})\n{1}"
        for use in ("made.__enter__()", "with made: pass", "with made:\n  pass\nprint('left')"):
            ran = self.run_python("-c", text.format(str(UNIT), use))
            self.assertEqual(
                (ran.stdout.replace("left\n", ""), ran.stderr), ("shut down\n", ""), use
            )

    def test_a_missing_file_says_where_to_look(self) -> None:
        ran = self.run_python(
            "-c",
            f"import kistalub\nwith kistalub.Library({str(self.folder / 'none.unit')!r}): pass",
        )
        self.assertTrue(
            ran.stderr.endswith(" (a line on standard error says which file, and why)\n"),
            ran.stderr,
        )


class Regions(OverLibrary):
    TEXT = """
import kistalub
with kistalub.region("outer"):
    try:
        with kistalub.region("inner"):
            raise KeyError
    except KeyError:
        pass
try:
    with kistalub.region("\\0"):
        pass
except ValueError as error:
    print(error)
"""

    def test_what_they_count_is_written_when_the_process_ends(self) -> None:
        """Before each reading five occurrences happen: there is one where a region ends, and in the
        outer one there are three."""
        stream = self.stream(*["0 c0 00 u 1 1"] * 100)
        variables = {
            "KISTALUB_UNIT": str(UNIT),
            "KISTALUB_STREAM": str(stream),
            "KISTALUB_STEP": "5",
            "PAPI_EVENTS": "INST_RETIRED",
            "PAPI_OUTPUT_DIRECTORY": str(self.folder),
        }
        ran = self.run_python("-c", self.TEXT, **variables)
        self.assertEqual((ran.stdout, ran.stderr), ("a text with a NUL: '\\x00'\n", ""))
        told = json.loads((self.folder / "papi_hl_output/rank_000000.json").read_text())
        regions = told["threads"]["0"]["regions"].values()
        self.assertEqual(
            [(each["name"], each["parent_region_id"], each["INST_RETIRED"]) for each in regions],
            [("outer", "-1", "15"), ("inner", "0", "5")],
        )


class Examples(OverLibrary):
    def test_each_prints_what_is_expected(self) -> None:
        paths = sorted((EXAMPLES / "python").glob("*.py"))
        self.assertGreater(len(paths), 1)
        for path in paths:
            ran = self.run_python(str(path))
            self.assertEqual(
                (ran.stdout, ran.stderr),
                (path.with_suffix(".expected").read_text(encoding="utf-8"), ""), path.name,
            )

    def test_the_estimates_of_slices_are_those_of_the_definition(self) -> None:
        """The count in the turns of the first of two groups, scaled by the whole time over the time
        of these turns, rounded down (docs/FORMATS.md)."""
        weights = ([9, 0] * 100 + [1, 0] * 100) * 50
        lines = (EXAMPLES / "python/slices.expected").read_text(encoding="ascii").splitlines()
        self.assertEqual(lines[0], f"BR_INST: exactly {sum(weights):,}")
        for line in lines[2:]:
            ticks, estimate = (int(word.replace(",", "")) for word in line.split()[:2])
            own = [weight for tick, weight in enumerate(weights) if tick // ticks % 2 == 0]
            self.assertEqual(estimate, sum(own) * len(weights) // len(own), line)
