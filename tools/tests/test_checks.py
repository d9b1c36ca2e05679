"""docs/DIFFERENCES.md and the cases of checks/differences have the same rows. Tests of tests: none
looks at each of nothing, and checks/mutants changes all programs."""

from __future__ import annotations

import re
import subprocess
import sys
import time
import unittest

from cases import CALLS, PRESETS, read_tables
from mutant_c import Programs
from mutant_changes import changes_of
from mutant_parts import PARTS, without_part
from running import processor_of, session_is_held_up
from seen_lines import Seen, instrument, lines_of_statements, module_lines
from tests.support import ROOT, InFolder, all_of, some


class Document(unittest.TestCase):
    def test_each_row_has_a_case(self) -> None:
        calls, presets, names = read_tables(ROOT / "docs/DIFFERENCES.md")
        self.assertEqual(set(calls), set(CALLS))
        self.assertEqual(set(presets), set(PRESETS))
        for table in (calls, presets, names):
            self.assertTrue(all_of(table.values(), lambda cells: len(cells) == 2))


class Tests(unittest.TestCase):
    def test_none_looks_at_each_of_nothing(self) -> None:
        """`all` holds of nothing, so a test takes all_of. This file names it."""
        files = some(
            path for folder in ("tools/tests", "python/tests")
            for path in (ROOT / folder).glob("test_*.py") if path.name != "test_checks.py"
        )
        bare = [
            f"{path.name}:{number}" for path in files
            for number, line in enumerate(path.read_text(encoding="utf-8").splitlines(), 1)
            if re.search(r"\ball\(", line)
        ]
        self.assertEqual(bare, [])

    def test_the_helper_refuses_nothing(self) -> None:
        with self.assertRaisesRegex(AssertionError, "nothing to look at"):
            all_of([], bool)
        self.assertEqual((all_of([1, 2], bool), all_of([1, 0], bool)), (True, False))


MODULE = """from __future__ import annotations

MOST = 3


def double(number: int) -> int:
    if number > MOST:
        return 0
    return (
        2 *
        number
    )


def never() -> None:
    pass
"""
TESTS = """import subprocess, sys, unittest

sys.path.append("parts")

class One(unittest.TestCase):
    def test_here(self):
        import some
        self.assertEqual(some.double(1), 2)

    def test_in_another_process(self):
        subprocess.run([sys.executable, "-I", "-S", "-c", "import sys; sys.path.append('parts'); import some; some.double(9)"], check=True, env={})

    def test_nothing(self):
        pass

    def test_with_little_room_for_files(self):
        limit = "import resource, sys; resource.setrlimit(resource.RLIMIT_FSIZE, (40, 40)); sys.path.append('parts'); import some; some.double(9)"
        subprocess.run([sys.executable, "-I", "-S", "-c", limit], check=True)
"""


class Mutants(InFolder):
    def test_each_program_has_a_part_and_each_part_its_files_and_tests(self) -> None:
        self.assertEqual(without_part(), ["tools/check"])  # which runs the tests
        for name, part in PARTS.items():
            self.assertTrue(all_of(part.files, lambda file: (ROOT / file).is_file()), name)
            self.assertTrue(part.tests or part.command, name)
            modules = [module.split(".")[0] for module in part.tests.split()]
            missing = [
                module
                for module in modules
                if not (
                    ROOT
                    / part.folder
                    / ("tests" if part.folder == "tools" else "")
                    / f"{module}.py"
                ).exists()
            ]
            self.assertEqual(missing, [], name)

    def test_which_tests_run_which_lines(self) -> None:
        """In other processes too, whatever their options and environment."""
        (self.folder / "parts").mkdir()
        self.write("parts/some.py", MODULE)
        self.write("test_some.py", TESTS)
        seen = self.folder / "seen"
        seen.mkdir()
        instrument(self.folder, ["parts/some.py"], seen)
        words = [
            sys.executable, "-B", str(ROOT / "checks/mutant_tests.py"), "result", str(seen),
            "test_some",
        ]
        self.assertEqual(
            subprocess.run(words, cwd=self.folder, capture_output=True, text=True).returncode, 0
        )
        rows = [line.split("\t") for line in (self.folder / "result").read_text().splitlines()]
        names = [row[2] for row in rows]
        self.assertEqual(
            ([row[0] for row in rows], names),
            (
                ["passed"] * 4,
                [
                    f"test_some.One.test_{name}"
                    for name in (
                        "here", "in_another_process", "nothing", "with_little_room_for_files",
                    )
                ],
            ),
        )
        tests = Seen.read(seen, names)
        content = MODULE.encode()
        of_line = {
            line: [name.rpartition("_")[2] for name in tests.of_lines("parts/some.py", lines)]
            for line, lines in lines_of_statements(content).items()
        }
        self.assertEqual(
            [of_line[line] for line in (3, 7, 8, 10, 11, 16)],
            [
                ["here", "process", "files"], ["here", "process", "files"], ["process", "files"],
                ["here"], ["here"], [],
            ],
        )
        self.assertEqual(tests.of_functions("parts/some.py", content), [*names[:2], names[3]])
        self.assertEqual(
            module_lines(content) & set(range(1, 18)), {1, 2, 3, 4, 5, 6, 13, 14, 15, 17}
        )

    def test_the_first_test_that_fails_is_the_last(self) -> None:
        self.write("test_some.py", "import unittest\nclass One(unittest.TestCase):\n"
                                   " def test_a(self): pass\n def test_b(self): self.fail()\n"
                                   " def test_c(self): pass\n")
        done = subprocess.run(
            [
                sys.executable, "-B", str(ROOT / "checks/mutant_tests.py"), "result", "-",
                "test_some",
            ],
            cwd=self.folder,
        )
        rows = (self.folder / "result").read_text().splitlines()
        self.assertEqual(
            (done.returncode, [row.split("\t")[0] for row in rows]), (1, ["passed", "failed"])
        )

    def test_comments_are_not_changed_and_quotes_only_where_they_count(self) -> None:
        self.write("some.c", "/* 1 == 2\n   3 */\nint x = 4; /* 5 \u00e4 */\n")
        self.write("some.sh", 'a="$b"\n# exit 1\necho "$c" >&2\n')
        self.write("some.py", "import sys\nsys.dont_write_bytecode = True\nx[0] = 7\n")
        for name, wanted in (
            ("some.c", [(3, "constant", "5")]), ("some.sh", [(3, "escape", "$c")]),
            ("some.py", [(3, "constant", "(0 + 1)"), (3, "constant", "(7 + 1)")]),
        ):
            self.assertEqual(
                [
                    (change.line, change.kind, change.new)
                    for change in changes_of(self.folder, name)
                ],
                wanted,
            )

    def test_what_waits_for_a_processor_has_more_time(self) -> None:
        for text, seconds, wanted in (
            ("while True: pass", 1000.0, True), ("while True: pass", 0.0, False),
            ("time.sleep(60)", 1000.0, False),
        ):
            with subprocess.Popen(
                [sys.executable, "-c", f"import time\nprint(flush=True)\n{text}"],
                stdout=subprocess.PIPE, start_new_session=True,
            ) as child:
                assert child.stdout
                child.stdout.readline()
                while text.startswith("time") and processor_of(child.pid)[1]:
                    time.sleep(0.01)
                self.assertEqual(session_is_held_up(child.pid, seconds), wanted, text)
                child.kill()

    def test_which_programs_run_a_line_of_c(self) -> None:
        """A line without code is all programs' that run anything of the file, and one that leaves
        no word is asked about each line."""
        programs = Programs(
            self.folder, ["one", "two", "silent"],
            Seen({"one": {("c/a.c", 3)}, "two": {("c/a.c", 4)}, "silent": {("", 0)}}),
            {("c/a.c", 3), ("c/a.c", 4), ("c/a.c", 5)},
        )
        self.assertEqual(
            [
                programs.near(file, line)
                for file, line in (("c/a.c", 3), ("c/a.c", 5), ("c/a.c", 1), ("c/b.c", 1))
            ],
            [["one", "silent"], ["silent"], ["one", "two", "silent"], ["silent"]],
        )

    def test_each_reason_is_of_a_change_that_is_made(self) -> None:
        names = [
            line.rpartition("  # ")[0]
            for line in (ROOT / "checks/mutants.reasons").read_text(encoding="utf-8").splitlines()
        ]
        files = sorted({name.partition(": ")[0] for name in some(names)})
        made = {
            change.named((ROOT / file).read_bytes()) for file in files
            for change in changes_of(ROOT, file)
        }
        self.assertEqual([name for name in names if name not in made], [])
        self.assertEqual(names, list(dict.fromkeys(names)))

    def test_the_changes_of_a_file(self) -> None:
        self.write("some.py", "def f(a, b):\n    if a < b:\n        g(a, b)\n    return 1\n")
        found = sorted(
            {
                (change.line, change.kind, change.new)
                for change in changes_of(self.folder, "some.py")
            }
        )
        self.assertEqual(
            found,
            [
                (2, "comparison", "a <= b"), (2, "condition", "not (a < b)"),
                (3, "dropped call", "pass"), (3, "swapped arguments", "b, a"),
                (4, "constant", "(1 + 1)"), (4, "result", "None"),
            ],
        )
