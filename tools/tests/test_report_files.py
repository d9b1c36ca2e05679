"""tools/report over odd files: those that a tool refuses or that can be read once alone, scripts
without room for questions, and a signal in the middle."""

from __future__ import annotations

import os
import shutil
import signal
import subprocess
import sys
import time
from pathlib import Path

from formats.scripts import calls_of
from parts.report.probe import MOST_CALLS, probe_of
from parts.report.replies import Step
from parts.report.story import tell_story
from tests.support import ROOT, TOOLS, InFolder, needs_program, run_tool
from tests.test_hints import PLACE, make_tree

EXAMPLES = ROOT / "examples"
LAB = str(EXAMPLES / "lab.unit")
NOT_TWICE = "not a file that can be read twice"


@needs_program
class Files(InFolder):
    def test_regions_that_are_refused(self) -> None:
        for events, line in (
            ("NOPE", "report: NOPE: PAPI_ENOEVNT"),
            ("BR_INST,BR_MISP", "report: BR_MISP: PAPI_ECNFLCT lab::BR_INST:ALL lab::BR_MISP / P0"),
            ("CYCLES,CYCLES", "report: CYCLES: PAPI_EINVAL"),
        ):
            done = run_tool(
                "report", "-U", LAB, "--regions", "regions.script", "--events", events,
                "first.script", "first.stream", folder=EXAMPLES,
            )
            self.assertEqual((done.returncode, done.stdout), (1, ""), events)
            self.assertIn(line, done.stderr.splitlines())
            self.assertNotIn("Traceback", done.stderr)

    def test_files_that_can_be_read_once(self) -> None:
        os.mkfifo(self.folder / "fifo")
        fifo, script = str(self.folder / "fifo"), str(EXAMPLES / "first.script")
        for words in (
            ("-U", LAB, fifo), ("-U", LAB, script, fifo), ("-U", fifo, script),
            ("-U", LAB, "--regions", fifo, "--events", "CYCLES", script),
            ("-U", LAB, "-M", fifo, script),
        ):
            done = subprocess.run(
                [str(TOOLS / "report"), *words], stdin=subprocess.DEVNULL, capture_output=True,
                text=True, timeout=60,
            )
            self.assertEqual(
                (done.returncode, done.stdout, done.stderr),
                (1, "", f"report: {fifo}: {NOT_TWICE}\n"),
            )

    def test_comments_of_any_bytes(self) -> None:
        for comment in (b"# \xff\n", b"# a\rb\n", b"# \xe2\x80\xa8\x0c\x85\n"):
            script = self.folder / "script"
            script.write_bytes(comment + b"0 create\r\n0 add 0 CYCLES\n")
            done = run_tool("report", "-U", LAB, str(script))
            self.assertEqual(done.returncode, 0, done.stderr)
            self.assertIn('id="line-3"', done.stdout)


class NoRoom(InFolder):
    def test_a_script_without_room_has_its_events_all_the_same(self) -> None:
        lines = [
            "0 create", "0 add 0 x", "0 add 0 Y", "0 add 0 Z", "0 remove 0 Y", "0 start 0",
            *["0 state 0"] * (MOST_CALLS - 10), "0 run 5", "0 read 0", "0 run 5", "0 stop 0",
        ]
        results = {
            "create": ("0",),
            "run": ("5", "0"),
            "read": ("1", "2"),
            "stop": ("3", "4"),
            "state": ("0x02",),
        }
        steps = [Step(call, "PAPI_OK", results.get(call.name, ())) for call in calls_of(lines)]
        probe = probe_of(steps, None)
        self.assertEqual((probe.lines, probe.asks), (lines, False))
        story = tell_story(
            steps, probe.origins, [], {"x": "pmu::X", "Y": "pmu::Y", "Z": "pmu::Z"}.__getitem__
        )
        span = story.spans[0]
        self.assertEqual((span.setup.events, span.start, span.end), (("pmu::X", "pmu::Z"), 0, 10))
        self.assertEqual(
            [(reading.position, reading.values) for reading in span.readings],
            [(0, (0, 0)), (5, (1, 2)), (10, (3, 4))],
        )
        self.assertEqual(
            [story.names[line] for line in (MOST_CALLS - 2, MOST_CALLS)], [("pmu::X", "pmu::Z")] * 2
        )


class Ended(InFolder):
    def test_a_signal_ends_the_tools_and_leaves_nothing(self) -> None:
        tree, temporary = self.folder / "tree", self.folder / "temporary"
        temporary.mkdir()
        make_tree(tree)
        shutil.copytree(TOOLS, tree / "tools", ignore=shutil.ignore_patterns("__pycache__"))
        place = self.write(
            "tree/" + PLACE, f'#!/bin/sh\necho "$$" >"{self.folder}/process"\nexec sleep 60\n'
        )
        os.chmod(place, 0o755)
        script = self.write("script", "0 create\n")
        child = subprocess.Popen(
            [str(tree / "tools/report"), "-U", LAB, script], stdout=subprocess.DEVNULL,
            stderr=subprocess.DEVNULL, env={**os.environ, "TMPDIR": str(temporary)},
        )
        process = self.folder / "process"
        for _ in range(2000):
            if process.exists() and process.read_text().endswith("\n"):
                break
            time.sleep(0.01)
        child.send_signal(signal.SIGTERM)
        self.assertEqual(child.wait(60), 128 + signal.SIGTERM)
        for _ in range(500):
            if (
                not list(temporary.iterdir())
                and not Path(f"/proc/{process.read_text().strip()}/exe").exists()
            ):
                break
            time.sleep(0.01)
        self.assertEqual(list(temporary.iterdir()), [])
        self.assertFalse(Path(f"/proc/{process.read_text().strip()}/exe").exists())

    def test_a_signal_while_the_folder_is_made(self) -> None:
        code = "\n".join(
            (
                "import os, tempfile", "from parts.command import end_by_termination, end_with",
                "from parts.report.asking import Tables, Tools", "end_by_termination()",
                "make = tempfile.mkdtemp", "def interrupted(**words):", "  made = make(**words)",
                "  os.kill(os.getpid(), 15)", "  return made", "tempfile.mkdtemp = interrupted",
                "end_with('it', lambda: Tools(Tables('unit')))",
            )
        )
        temporary = self.folder / "temporary"
        temporary.mkdir()
        done = subprocess.run(
            [sys.executable, "-B", "-c", code],
            env={**os.environ, "PYTHONPATH": str(TOOLS), "TMPDIR": str(temporary)},
            capture_output=True, text=True,
        )
        self.assertEqual(
            (done.returncode, done.stderr, list(temporary.iterdir())),
            (128 + signal.SIGTERM, "", []),
        )
