"""Counts of a whole program as files for programs: JSON and CSV (docs/FORMATS.md, Counts)."""

from __future__ import annotations

import csv
import hashlib
import io
import json
import os
import subprocess
from pathlib import Path
from typing import Any, Mapping

from parts.command import read_bytes
from parts.machine import Machine
from parts.whole_counts import WholeCounts

FORMAT, VERSION = "kistalub-counts", 1
ALL = "all"
VERSION_FILE = Path(__file__).resolve().parent.parent.parent / "VERSION"


def file_told(path: str) -> dict[str, str]:
    return {"name": os.path.basename(path), "sha256": hashlib.sha256(read_bytes(path)).hexdigest()}


def _machine(machine: Machine) -> dict[str, str | int]:
    shapes = {
        name: shape.option(name) if shape else "none" for name, shape in machine.shapes.items()
    }
    return {**shapes, "predictor": machine.predictor, "costs": ",".join(map(str, machine.costs))}


def _tool() -> dict[str, str]:
    version = (
        subprocess.run(["valgrind", "--version"], capture_output=True, text=True)
        .stdout.strip()
        .removeprefix("valgrind-")
    )
    return {"kistalub": VERSION_FILE.read_text(encoding="ascii").strip(), "valgrind": version}


def as_json(
    counts: WholeCounts, files: Mapping[str, str], machine: Machine, further: Mapping[str, Any] = {}
) -> str:
    """The files are those of the unit, the presets and the processor."""
    whole = {
        "format": FORMAT,
        "version": VERSION,
        "command": list(counts.command),
        "unit": file_told(files["KISTALUB_UNIT"]),
        "presets": file_told(files["KISTALUB_PRESETS"]),
        "cpu": files["KISTALUB_CPU"],
        "machine": _machine(machine),
        "tool": _tool(),
        "events": list(counts.events),
        "functions_counted": list(counts.functions),
        "ended": {"status": counts.status} if counts.status >= 0 else {"signal": -counts.status},
        "total": dict(counts.total),
        "processes": [
            {
                "number": process.number,
                "parent": process.parent,
                "program": process.program,
                "total": dict(process.total),
                "threads": [
                    {"number": thread.number, "counts": dict(thread.counts)}
                    for thread in process.threads
                ],
            }
            for process in counts.processes
        ],
        "uncounted_children": counts.uncounted_children,
        **further,
    }
    return json.dumps(whole, indent=2) + "\n"


def as_csv(counts: WholeCounts) -> str:
    text = io.StringIO()
    rows = csv.writer(text, lineterminator="\n")
    rows.writerow(("process", "thread", "event", "count"))
    for process in counts.processes:
        for thread in process.threads:
            rows.writerows(
                (process.number, thread.number, event, thread.counts[event])
                for event in counts.events
            )
        rows.writerows(
            (process.number, ALL, event, process.total[event]) for event in counts.events
        )
    rows.writerows((ALL, ALL, event, counts.total[event]) for event in counts.events)
    return text.getvalue()
