"""Files of counts and of regions for the tests of tools/compare, and the tool over them."""

from __future__ import annotations

import io
import json
import subprocess
from contextlib import redirect_stderr, redirect_stdout
from typing import Any

from parts import command
from parts.compare.words import compare_words, work
from tests.support import InFolder

SUM = "ab" * 32
INS, MISSES = "PAPI_TOT_INS", "PAPI_L1_DCM"
HUGE = 10**30 + 1  # no float has it


def counts(**total: int) -> dict[str, Any]:
    """A file of counts of one process with one thread."""
    return {
        "format": "kistalub-counts",
        "version": 1,
        "command": ["./sort", "9"],
        "unit": {"name": "skl.unit", "sha256": SUM},
        "presets": None,
        "cpu": None,
        "machine": {"l1d": "512,8,64"},
        "tool": {"kistalub": "1.0.0", "valgrind": "3.19.0"},
        "events": list(total),
        "functions_counted": [],
        "ended": {"status": 0},
        "total": total,
        "uncounted_children": 0,
        "processes": [
            {
                "number": 1,
                "parent": 0,
                "program": "./sort",
                "total": total,
                "threads": [{"number": 1, "counts": total}],
            }
        ],
    }


def function(name: str, own: int, inclusive: int, **more: object) -> dict[str, Any]:
    return {
        "name": name,
        "object": "/b/sort",
        "file": None,
        "line": None,
        "calls": 1,
        "own": {INS: own},
        "inclusive": {INS: inclusive},
        **more,
    }


def region(name: str, parent: int, **values: object) -> dict[str, Any]:
    return {"name": name, "parent_region_id": str(parent), **values}


def rank(*threads: list[dict[str, Any]], cpu: str = "Model", **kinds: str) -> dict[str, Any]:
    """A file of PAPI's regions: of each thread its regions, numbered from 0."""
    events = {
        event: {"component": "cpu", "type": kind}
        for event, kind in (kinds or {INS: "delta"}).items()
    }
    return {
        "papi_version": "7.0.0.0",
        "cpu_info": cpu,
        "max_cpu_rate_mhz": "1000",
        "min_cpu_rate_mhz": "1000",
        "event_definitions": events,
        "threads": {
            str(number): {"regions": {str(place): each for place, each in enumerate(regions)}}
            for number, regions in enumerate(threads)
        },
    }


class Comparing(InFolder):
    def file(self, name: str, content: object) -> str:
        path = self.folder / name
        path.parent.mkdir(parents=True, exist_ok=True)
        path.write_text(
            content if isinstance(content, str) else json.dumps(content), encoding="utf-8"
        )
        return str(path)

    def run_words(self, *words: str) -> subprocess.CompletedProcess[str]:
        """The tool with these words, in this process."""
        with redirect_stdout(io.StringIO()) as output, redirect_stderr(io.StringIO()) as errors:
            status = command._status_of(
                "compare", lambda: work(compare_words("compare").parse_args(words), "compare")
            )
        return subprocess.CompletedProcess(words, status, output.getvalue(), errors.getvalue())

    def compare(self, base: object, new: object, *words: str) -> subprocess.CompletedProcess[str]:
        return self.run_words(self.file("base.json", base), self.file("new.json", new), *words)

    def rows(
        self, base: object, new: object, *words: str
    ) -> dict[tuple[str, str], tuple[Any, ...]]:
        """By name and event: both counts, the difference in per cent, the limits passed."""
        done = self.compare(base, new, *words, "--json")
        self.assertIn(done.returncode, (0, 1), done.stderr)
        made = json.loads(done.stdout)
        self.assertEqual(
            (made["format"], made["version"], made["over"]),
            ("kistalub-comparison", 1, sum(bool(row["over"]) for row in made["rows"])),
        )
        self.assertEqual(done.returncode, min(made["over"], 1))
        return {
            (row["name"], row["event"]): (row["base"], row["new"], row["percent"], row["over"])
            for row in made["rows"]
        }

    def assert_apart(self, base: object, new: object, line: str, *words: str) -> None:
        """The two are not compared, for this reason."""
        done = self.compare(base, new, *words)
        said = done.stderr.replace(f"{self.folder}/", "")
        self.assertEqual((done.returncode, done.stdout, said), (2, "", f"compare: {line}\n"))
