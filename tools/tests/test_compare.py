"""tools/compare: what differs by whole, function and region, and the limits that are passed."""

from __future__ import annotations

import json
import os
import subprocess
from typing import Any

from parts.command import Fault
from parts.compare.limits import read_limit
from tests.comparing import HUGE, INS, MISSES, Comparing, counts, function, rank, region
from tests.support import needs_command, run_tool

from kistalub import limits  # found once tests.support is imported

PAPI_REGIONS = """
#include <papi.h>
#include <pthread.h>
static void *work(void *none) {
    for (int i = 0; i < 3; i++) {
        PAPI_hl_region_begin("inner");
        PAPI_hl_read("inner");
        PAPI_hl_region_end("inner");
    }
    return none;
}
int main(void) {
    pthread_t thread;
    PAPI_hl_region_begin("outer");
    work(0);
    PAPI_hl_region_end("outer");
    pthread_create(&thread, 0, work, 0);
    return pthread_join(thread, 0);
}
"""


class Limits(Comparing):
    def over(self, base: int, new: int, *limits: str) -> list[str]:
        words = [word for limit in limits for word in ("--limit", limit)]
        passed: list[str] = self.rows(counts(**{INS: base}), counts(**{INS: new}), *words)[
            ("", INS)
        ][3]
        return passed

    def test_per_cent_and_amounts_to_the_digit(self) -> None:
        cases: tuple[tuple[int, int, list[str], list[str]], ...] = (
            (100, 102, ["2%"], []),
            (100, 103, ["2%"], ["2%"]),
            (1000, 1005, ["0.5%"], []),
            (1000, 1006, ["0.5%"], ["0.5%"]),
            (100, 100, ["0%"], []),
            (100, 101, ["0%"], ["0%"]),
            (100, 1, ["0%", "+0"], []),
            (7, 1007, ["+1000"], []),
            (7, 1008, ["+1000"], ["+1000"]),
            (0, 0, ["0%"], []),
            (0, 1, ["500%"], ["500%"]),
            (0, 1, ["+1"], []),
            (-5, -5, ["0%"], []),
            (-5, -4, ["50%"], ["50%"]),
            (50 * HUGE, 51 * HUGE, ["2%"], []),
            (50 * HUGE, 51 * HUGE + 1, ["2%"], ["2%"]),
            (HUGE, HUGE + 1, ["+0"], ["+0"]),
            (100, 103, [f"{INS}=5%"], []),
            (100, 103, ["2%", f"{INS}=5%"], []),
            (100, 103, ["2%", "+2"], ["2%", "+2"]),
        )
        for base, new, limits, wanted in cases:
            self.assertEqual(self.over(base, new, *limits), wanted, (base, new, limits))

    def test_of_other_events_is_not_looked_at(self) -> None:
        base, new = counts(**{INS: 100, MISSES: 10}), counts(**{INS: 200, MISSES: 10})
        self.assertEqual(self.compare(base, new, "--limit", f"{MISSES}=1%").returncode, 0)
        self.assertEqual(self.compare(base, new, "--limit", f"{INS}=1%").returncode, 1)
        self.assertEqual(self.compare(base, new, "--limit", "1%", "--events", MISSES).returncode, 0)
        self.assertEqual(self.compare(base, new).returncode, 0)

    def test_a_name_of_an_event_may_have_an_equals_sign(self) -> None:
        limit = read_limit("INST:e=1:c=2=0.25%")
        self.assertEqual(
            (limit.event, limit.text, 400 * (limit.percent or 0)), ("INST:e=1:c=2", "0.25%", 100)
        )

    def test_others_are_refused(self) -> None:
        for text in (
            "",
            "%",
            "2",
            "-2%",
            "+",
            "+2%",
            "1e3%",
            "2 %",
            "=2%",
            "A=",
            "A=2",
            "+-1",
            "٣%",
            "1." + "9" * 21 + "%",
        ):
            with self.assertRaisesRegex(
                Fault, r": a limit is EVENT=2%, EVENT=\+1000, or 2% or \+1000 for all events$"
            ):
                read_limit(text)
        done = self.compare(counts(A=1), counts(A=1), "--limit", "\x1b[2J")
        self.assertEqual((done.returncode, "\x1b" in done.stderr), (2, False))

    def test_of_an_event_that_is_not_compared_is_refused(self) -> None:
        one = counts(A=1, B=1)
        self.assert_apart(
            one, one, "base.json and new.json: no event C: there are A, B", "--limit", "C=2%"
        )
        self.assert_apart(
            one, one, "base.json and new.json: no event C: there are A, B", "--events", "A,C"
        )
        self.assert_apart(
            one, one, "a limit of B, which --events leaves out", "--events", "A", "--limit", "B=2%"
        )

    def test_the_module_for_python_reads_limits_in_the_same_way(self) -> None:
        for text in ("2%", "0.5%", "+1000", "+0", "", "2", "-2%", "+2%", "2 %", "1e3%", "٣%"):
            try:
                mine = read_limit(text)
            except Fault:
                self.assertRaises(ValueError, limits.checked, text)
                continue
            for base, new in ((100, 102), (1000, 1006), (0, 1), (7, 1008), (HUGE, HUGE + 1)):
                passed = limits.is_over(limits.checked(text), base, new)
                self.assertEqual(passed, mine.is_passed(base, new), (text, base, new))


class Functions(Comparing):
    def profile(self, *functions: dict[str, Any]) -> dict[str, Any]:
        return {
            **counts(**{INS: sum(each["own"][INS] for each in functions)}),
            "functions": list(functions),
            "lines": [],
        }

    def test_own_and_inclusive_counts(self) -> None:
        base = self.profile(function("main", 10, 110), function("sort", 100, 100))
        new = self.profile(function("main", 10, 130), function("sort", 120, 120))
        self.assertEqual(
            self.rows(base, new, "--by", "function", "--limit", "15%"),
            {("main", INS): (10, 10, 0, []), ("sort", INS): (100, 120, 20, ["15%"])},
        )
        self.assertEqual(
            self.rows(base, new, "--by", "inclusive", "--limit", "15%"),
            {("main", INS): (110, 130, 18.18, ["15%"]), ("sort", INS): (100, 120, 20, ["15%"])},
        )
        self.assertEqual(self.rows(base, new), {("", INS): (110, 130, 18.18, [])})

    def test_one_that_one_side_alone_has(self) -> None:
        base = self.profile(function("main", 10, 110), function("old", 100, 100))
        new = self.profile(function("main", 10, 110), function("new", 100, 100))
        done = self.compare(base, new, "--by", "function", "--limit", "2%")
        wanted = [
            "function  event         base  new  difference  per cent",
            "old       PAPI_TOT_INS   100    -        -100         -  only in BASE",
            "new       PAPI_TOT_INS     -  100        +100         -  only in NEW, over 2%",
            "function old: only in BASE",
            "function new: only in NEW",
            "1 function with the same counts left out",
            "3 counts: 1 over its limit",
        ]
        self.assertEqual(
            (done.stdout.splitlines()[-2], done.stdout.splitlines()[:5], done.returncode),
            (wanted[-2], wanted[:5], 1),
        )
        self.assertEqual(done.stdout.splitlines(), wanted)

    def test_where_a_function_is(self) -> None:
        """Folders of a build may differ; the file of a static function and a library do not."""
        base = self.profile(
            function("f", 1, 1, file="/one/a.c"),
            function("f", 2, 2, file="/one/b.c"),
            function("f", 4, 4, object="/lib/libc.so.6"),
            function("f", 8, 8, file="/one/a.c"),
        )
        new = self.profile(
            function("f", 9, 9, file="/two/x/a.c"),
            function("f", 2, 2, file="b.c"),
            function("f", 4, 4, object="/usr/lib/libc.so.6"),
        )
        self.assertEqual(
            self.rows(base, new, "--by", "function"),
            {
                ("f (a.c)", INS): (9, 9, 0, []),
                ("f (b.c)", INS): (2, 2, 0, []),
                ("f (libc.so.6)", INS): (4, 4, 0, []),
            },
        )

    def test_those_that_differ_most_come_first(self) -> None:
        base = self.profile(*(function(name, 100, 100) for name in "abcd"))
        new = self.profile(function("a", 103, 1), function("b", 50, 1), function("d", 110, 1))
        done = self.compare(base, new, "--by", "function")
        self.assertEqual([line[0] for line in done.stdout.splitlines()[1:5]], ["c", "b", "d", "a"])

    def test_the_same_functions_are_left_out_with_what_they_call_too(self) -> None:
        base = self.profile(function("main", 1, 3), function("f", 2, 2))
        done = self.compare(base, base, "--by", "inclusive")
        wanted = ["2 functions with the same counts left out", "2 counts, and no limit"]
        self.assertEqual(done.stdout.splitlines()[1:], wanted)

    def test_without_a_profile(self) -> None:
        self.assert_apart(
            counts(A=1),
            counts(A=1),
            "base.json: there are no counts by function, but by whole",
            "--by",
            "function",
        )
        empty = {**counts(A=1), "functions": []}
        self.assert_apart(empty, empty, "base.json: functions: there is none")


class Regions(Comparing):
    def test_regions_of_all_threads_by_their_way(self) -> None:
        base = rank(
            [
                region("main", -1, PAPI_TOT_INS="100"),
                region("loop", 0, PAPI_TOT_INS="30"),
                region("loop", 0, PAPI_TOT_INS="30"),
            ],
            [region("loop", -1, PAPI_TOT_INS="7")],
        )
        new = rank(
            [
                region("main", -1, PAPI_TOT_INS="110"),
                region("loop", 0, PAPI_TOT_INS={"region_value": "63", "read_1": "5"}),
            ],
            [region("loop", -1, PAPI_TOT_INS="7")],
        )
        self.assertEqual(
            self.rows(base, new, "--limit", "6%"),
            {
                ("main", INS): (100, 110, 10, ["6%"]),
                ("main > loop", INS): (60, 63, 5, []),
                ("loop", INS): (7, 7, 0, []),
            },
        )
        self.assertEqual(self.rows(base, new, "--by", "whole"), {("", INS): (107, 117, 9.35, [])})
        self.assertIn(
            "entries of main > loop: 2 in BASE, 1 in NEW\n", self.compare(base, new).stdout
        )

    def test_times_are_compared_only_if_they_are_named(self) -> None:
        base, new = (
            rank([region("r", -1, PAPI_TOT_INS="1", cycles=cycles, real_time_nsec="1")])
            for cycles in ("100", "200")
        )
        self.assertEqual(list(self.rows(base, new, "--limit", "1%")), [("r", INS)])
        self.assertEqual(
            self.rows(base, new, "--limit", "cycles=1%")[("r", "cycles")], (100, 200, 100, ["1%"])
        )
        self.assertEqual(
            self.rows(base, new, "--events", "cycles", "--limit", "1%"),
            {("r", "cycles"): (100, 200, 100, [])},
        )

    def test_a_folder_has_all_ranks(self) -> None:
        """Also the second file of a rank, and the folder around papi_hl_output."""
        for number, (name, count) in enumerate(
            (
                ("rank_000000.json", 1),
                ("rank_000010.json", 20),
                ("rank_000010-2.json", 300),
                ("rank_1.json.old", 5000),
                ("x.json", 5000),
            )
        ):
            self.file(f"a/papi_hl_output/{name}", rank([region("r", -1, PAPI_TOT_INS=str(count))]))
        self.file("b/rank_000000.json", rank([region("r", -1, PAPI_TOT_INS="1000")]))
        for base in ("a", "a/papi_hl_output"):
            done = run_tool("compare", base, "b", "--limit", "300%", folder=self.folder)
            wanted = [
                "region  event         base    new  difference   per cent",
                "r       PAPI_TOT_INS   321  1,000        +679  +211.53 %",
                "ranks: 3 in BASE, 1 in NEW",
                "threads: 3 in BASE, 1 in NEW",
                "entries of r: 3 in BASE, 1 in NEW",
                "1 count: 0 over their limits",
            ]
            self.assertEqual(
                (done.returncode, done.stderr, done.stdout.splitlines()), (0, "", wanted)
            )

    @needs_command("cc", "a C compiler")
    def test_what_papi_itself_writes(self) -> None:
        """Regions within another one, with readings, and of two threads: by PAPI 7.0's library."""
        source, program = self.write("regions.c", PAPI_REGIONS), str(self.folder / "regions")
        built = subprocess.run(
            ["cc", source, "-o", program, "-lpapi", "-lpthread"], capture_output=True
        )
        if built.returncode:
            self.skipTest("libpapi-dev is not installed")
        for name in ("a", "b"):
            events = {
                "PAPI_OUTPUT_DIRECTORY": str(self.folder / name),
                "PAPI_EVENTS": "perf::PAGE-FAULTS",
            }
            subprocess.run([program], env={**os.environ, **events}, check=True, capture_output=True)
        if not list((self.folder / "a").rglob("rank_*.json")):
            self.skipTest("PAPI counts nothing here")
        done = self.run_words(
            f"{self.folder}/a", f"{self.folder}/b", "--json", "--events", "cycles"
        )
        self.assertEqual((done.returncode, done.stderr), (0, ""))
        rows = {row["name"]: row["base"] for row in json.loads(done.stdout)["rows"]}
        self.assertEqual(list(rows), ["outer", "outer > inner", "inner"])
        self.assertTrue(rows["outer"] > rows["outer > inner"] > 0 < rows["inner"], rows)

    def test_folders_that_can_not_be_used(self) -> None:
        good = rank([region("r", -1, PAPI_TOT_INS="1")])
        self.file("good/rank_000000.json", good)
        self.file("mixed/rank_000000.json", good)
        self.file("mixed/rank_000001.json", rank([region("r", -1, A="1")], A="delta"))
        (self.folder / "odd").mkdir()
        os.mkfifo(self.folder / "odd/rank_000000.json")
        for name, line in (
            (
                "mixed",
                "mixed/rank_000001.json: other events or another processor than in the first file "
                "of the folder",
            ),
            ("odd", "odd/rank_000000.json: not a regular file"),
        ):
            done = run_tool("compare", "good", name, folder=self.folder)
            self.assertEqual(
                (done.returncode, done.stdout, done.stderr), (2, "", f"compare: {line}\n")
            )

    def test_regions_that_can_not_be_compared(self) -> None:
        base = rank([region("r", -1, PAPI_TOT_INS="1")])
        deep = rank([region(f"r{place}", place - 1, PAPI_TOT_INS="1") for place in range(100)])
        cases: tuple[tuple[object, str], ...] = (
            (
                rank([region("r", -1, PAPI_TOT_INS="1")], cpu="Other"),
                "base.json and new.json can't be compared: processor: Model, and Other",
            ),
            (
                rank([region("r", -1, PAPI_TOT_INS="1")], PAPI_TOT_INS="instant"),
                "base.json and new.json can't be compared: kind of PAPI_TOT_INS: delta of cpu, "
                "and instant of cpu",
            ),
            (
                rank([region("s", -1, PAPI_TOT_INS="1")]),
                "base.json and new.json: no region is in both",
            ),
            (rank(), "new.json: there is no region"),
            (rank([region("r", -1)]), "new.json: threads: 0: regions: 0: there is no PAPI_TOT_INS"),
            (
                rank([region("r", 0, PAPI_TOT_INS="1")]),
                "new.json: region r: in over 64 others, or in itself",
            ),
            (deep, "new.json: region r65: in over 64 others, or in itself"),
            (
                rank([region("r", -1, PAPI_TOT_INS="1.5")]),
                "new.json: threads: 0: regions: 0: PAPI_TOT_INS: not a count",
            ),
            ({**base, "threads": [{}]}, "new.json: threads: not an object"),
        )
        for new, line in cases:
            self.assert_apart(base, new, line)
