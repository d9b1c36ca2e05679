"""The fixture for pytest, over a stream of which each reading takes five occurrences."""

from __future__ import annotations

import json
import os
import subprocess
import sys
import unittest
from functools import lru_cache
from pathlib import Path

from shared_library import EXAMPLES, ROOT, OverLibrary, WithPython

PYTHONS = (sys.executable, "/usr/bin/python3")
BLOCK = "def test_one(counting):\n    with counting('PAPI_TOT_INS'{}):\n        pass\n"
LINE = "0 c0 00 u {} 1"
PROBED = 5  # occurrences that go by where one sees whether something counts


@lru_cache(maxsize=None)
def with_pytest() -> str:
    """A Python that has pytest. Skips the tests if there is none."""
    for python in PYTHONS:
        if (
            Path(python).exists()
            and not subprocess.run([python, "-c", "import pytest"], capture_output=True).returncode
        ):
            return python
    raise unittest.SkipTest("pytest is not installed")


class Running(WithPython):
    def pytest(self, text: str, *words: str, **variables: str) -> subprocess.CompletedProcess[str]:
        """A file of tests, run by pytest with the plugin, in a folder of its own."""
        (self.folder / "test_it.py").write_text(text, encoding="utf-8")
        environment = {
            "PYTHONPATH": str(ROOT / "python"), "PYTHONHASHSEED": "0", "HOME": str(self.folder),
            "PATH": os.environ["PATH"], "PYTHONDONTWRITEBYTECODE": "1", **variables,
        }
        command = [
            with_pytest(), "-m", "pytest", "-p", "kistalub.pytest_plugin", "-p", "no:cacheprovider",
            "-q", "-rs", "--rootdir", str(self.folder), *words,
        ]
        return subprocess.run(
            command, cwd=self.folder, env=environment, capture_output=True, text=True, timeout=120
        )


class Files(WithPython):
    """A baseline, without pytest."""

    PUT = "import sys; from pathlib import Path; from kistalub.baseline import Baseline\n" \
        "for each in sys.argv[2:]: Baseline(Path(sys.argv[1])).put(each, {'A': 1})\n"

    def test_processes_side_by_side_lose_nothing(self) -> None:
        path, names = str(self.folder / "counts.json"), [f"{number:02}" for number in range(40)]
        environment = {**os.environ, "PYTHONPATH": str(ROOT / "python")}
        started = [
            subprocess.Popen(
                [sys.executable, "-B", "-c", self.PUT, path, *names[first::8]], env=environment
            )
            for first in range(8)
        ]
        self.assertEqual([each.wait() for each in started], [0] * 8)
        self.assertEqual(list(json.loads(Path(path).read_text())["counts"]), names)
        self.assertEqual(os.listdir(self.folder), ["counts.json"])

    def test_a_file_that_can_not_be_written_leaves_the_old_one_alone(self) -> None:
        path = self.folder / "counts.json"
        self.run_python("-c", self.PUT, str(path), "a")
        before = path.read_text()
        limited = (
            f"import resource; resource.setrlimit(resource.RLIMIT_FSIZE, (20, 20))\n{self.PUT}"
        )
        ran = self.run_python("-c", limited, str(path), "b")
        self.assertNotEqual(ran.returncode, 0)
        self.assertEqual((path.read_text(), os.listdir(self.folder)), (before, ["counts.json"]))


class Nothing(Running):
    def test_without_a_library_a_test_is_skipped_with_the_reason(self) -> None:
        done = self.pytest(BLOCK.format(""), KISTALUB_LIBRARY="/no/such.so")
        self.assertIn(
            "kistalub: KISTALUB_LIBRARY is /no/such.so, and there is no such file", done.stdout
        )
        self.assertIn("1 skipped", done.stdout)
        self.assertEqual((done.returncode, (self.folder / "counts.json").exists()), (0, False))

    def test_a_test_without_the_fixture_asks_for_no_library(self) -> None:
        done = self.pytest("def test_two():\n    pass\n", KISTALUB_LIBRARY="/no/such.so")
        self.assertIn("1 passed", done.stdout)


class Counting(OverLibrary, Running):
    def count(
        self, text: str, *words: str, weights: tuple[int, ...] = (1,), **variables: str
    ) -> subprocess.CompletedProcess[str]:
        """After the look each occurrence retires so many instructions, one weight after the
        other."""
        lines = [LINE.format(1)] * PROBED + [
            LINE.format(weights[place % len(weights)]) for place in range(100)
        ]
        environment = {
            "KISTALUB_LIBRARY": os.environ["KISTALUB_LIBRARY"],
            "KISTALUB_UNIT": str(EXAMPLES / "lab.unit"),
            "KISTALUB_PRESETS": str(EXAMPLES / "lab.presets"),
            "KISTALUB_CPU": "lab2", "KISTALUB_STREAM": str(self.stream(*lines)),
            "KISTALUB_STEP": "5", **variables,
        }
        return self.pytest(
            text, *words, **{name: value for name, value in environment.items() if value}
        )

    def baseline(self) -> dict[str, dict[str, int]]:
        content = json.loads((self.folder / "counts.json").read_text())
        self.assertEqual((content["format"], content["version"]), ("kistalub-baseline", 1))
        counts: dict[str, dict[str, int]] = content["counts"]
        return counts

    def test_a_baseline_is_written_and_kept_to(self) -> None:
        first = self.count(BLOCK.format(""))
        self.assertEqual(first.returncode, 1)
        self.assertIn(
            "counts.json has no counts for test_it.py::test_one: --update-counts writes them",
            first.stdout,
        )
        self.assertEqual(
            self.count(BLOCK.format(""), "--update-counts", weights=(20,)).returncode, 0
        )
        self.assertEqual(self.baseline(), {"test_it.py::test_one": {"PAPI_TOT_INS": 100}})
        for weights, status in (
            ((20,), 0), ((20, 20, 20, 20, 22), 0), ((20, 20, 20, 20, 23), 1), ((1,), 0),
        ):
            done = self.count(BLOCK.format(""), weights=weights)
            self.assertEqual(done.returncode, status, done.stdout)
        done = self.count(BLOCK.format(""), weights=(23, 20, 20, 20, 20))
        self.assertIn(f"test_it.py::test_one costs more than in {self.folder}/counts.json, which "
                      "is of Python 3.", done.stdout)
        self.assertIn("PAPI_TOT_INS: 100 before, 103 now: +3, +3.00 %, over 2%", done.stdout)
        self.assertEqual(self.baseline(), {"test_it.py::test_one": {"PAPI_TOT_INS": 100}})

    def test_a_baseline_of_other_events_is_none(self) -> None:
        self.count(BLOCK.format(""), "--update-counts")
        for events in ("'PAPI_TOT_INS', 'PAPI_TOT_CYC'", "'PAPI_TOT_CYC'"):
            done = self.count(BLOCK.format("").replace("'PAPI_TOT_INS'", events))
            self.assertEqual(done.returncode, 1)
            self.assertIn(
                "has counts of other events for test_it.py::test_one: --update-counts writes them",
                done.stdout,
            )

    def test_limits(self) -> None:
        self.count(BLOCK.format(""), "--update-counts", weights=(20,))
        worse = (23, 20, 20, 20, 20)
        cases = (
            (", limit='3%'", 0), (", limit='+3'", 0), (", limit='+2'", 1),
            (", limits={'PAPI_TOT_INS': '3%'}, limit='0%'", 0),
            (", limits={'PAPI_TOT_INS': '+2'}", 1),
        )
        for words, status in cases:
            self.assertEqual(
                self.count(BLOCK.format(words), weights=worse).returncode, status, words
            )
        for words in (("-o", "counts_limit=3%"), ("-o", "counts_file=none.json")):
            self.assertEqual(
                self.count(BLOCK.format(""), *words, weights=worse).returncode,
                int("none" in words[1]), words,
            )
        for words, said in (
            (", limit='2'", "'2' is no limit: a limit is '2%' or '+1000'"),
            (", limits={'OTHER': '2%'}", "limits are of these"),
        ):
            done = self.count(BLOCK.format(words))
            self.assertEqual(done.returncode, 1)
            self.assertIn(said, done.stdout)

    def test_several_blocks_of_a_test_have_names(self) -> None:
        text = (
            "def test_one(counting):\n    for name in ('', {!r}):\n"
            "        with counting('PAPI_TOT_INS', name=name) as counts:\n"
            "            assert counts == {{}}\n        assert counts == {{'PAPI_TOT_INS': 5}}\n"
        )
        self.assertEqual(self.count(text.format("more"), "--update-counts").returncode, 0)
        self.assertEqual(
            self.baseline(),
            {
                "test_it.py::test_one": {"PAPI_TOT_INS": 5},
                "test_it.py::test_one more": {"PAPI_TOT_INS": 5},
            },
        )
        self.assertIn("test_it.py::test_one is counted twice", self.count(text.format("")).stdout)

    def test_garbage_is_collected_outside_of_blocks(self) -> None:
        text = (
            "import gc\ndef test_one(counting):\n    with counting('PAPI_TOT_INS'):\n"
            "        assert not gc.isenabled()\n    assert gc.isenabled()\n    gc.disable()\n"
            "    try:\n        with counting('PAPI_TOT_INS', name='b'):\n            1 / 0\n"
            "    except ZeroDivisionError: pass\n    assert not gc.isenabled()\n"
        )
        done = self.count(text, "--update-counts")
        self.assertEqual(done.returncode, 0, done.stdout)
        # a block that raises counts nothing
        self.assertEqual(list(self.baseline()), ["test_it.py::test_one"])

    def test_a_baseline_that_is_none_is_left_as_it_is(self) -> None:
        for content in (
            "{", "[]", '{"format": "kistalub-baseline", "version": 2, "python": "3", "counts": {}}',
            (
                '{"format": "kistalub-baseline", "version": 1, "python": "3", "counts": {"a": '
                '{"b": 1.5}}}'
            ),
        ):
            (self.folder / "counts.json").write_text(content)
            for words in ((), ("--update-counts",)):
                done = self.count(BLOCK.format(""), *words)
                self.assertEqual(done.returncode, 1, content)
                self.assertIn(
                    "counts.json: no baseline of counts (kistalub-baseline, version 1)", done.stdout
                )
            self.assertEqual((self.folder / "counts.json").read_text(), content)

    def test_where_nothing_counts_a_test_is_skipped(self) -> None:
        """Without a step no occurrence happens; and the unit may lack the event that tells."""
        done = self.count(BLOCK.format(""), KISTALUB_STEP="")
        self.assertIn(
            "nothing counts here: tools/count python3 -m pytest counts what Python does",
            done.stdout,
        )
        self.assertEqual(done.returncode, 0)
        done = self.count(BLOCK.format(""), KISTALUB_PRESETS="", KISTALUB_CPU="")
        self.assertIn("the unit has no PAPI_TOT_INS", done.stdout)

    def test_the_seed_of_hashes_is_warned_of(self) -> None:
        said = "counts move with the hashes of texts: run with PYTHONHASHSEED=0"
        self.assertIn(said, self.count(BLOCK.format(""), PYTHONHASHSEED="random").stdout)
        self.assertNotIn(said, self.count(BLOCK.format("")).stdout)

    def test_a_library_that_a_test_begins_is_its_own(self) -> None:
        text = (
            "import kistalub\ndef test_own(counting):\n    with counting('PAPI_TOT_INS'):\n"
            "        pass\n    assert kistalub.library.is_begun()\n"
        )
        self.assertEqual(self.count(text, "--update-counts").returncode, 0)


