"""The sides that are compared: PAPI 7, libpfm4 and the program."""

from __future__ import annotations

import os
import subprocess
import sys
import tempfile
from pathlib import Path

from cases import CALLS, NAMES_OF_CODES, PRESET_CODES, PRESETS, STREAM, UNIT
from parts.libpfm4 import Libpfm4, Refused
from parts.unit_of_pmu import Converter

PAPI7 = Path(__file__).resolve().parent / "papi7.py"
CODES_ROW = "codes of the presets that the program knows"
FAULT_WORDS = {
    "event not found": "NOTFOUND",
    "invalid event attribute": "ATTR",
    "attribute value already set": "ATTR_SET",
    "invalid event attribute value": "ATTR_VAL",
    "invalid combination of model specific features": "FEATCOMB",
    "invalid or missing unit mask": "UMASK",
}


class Missing(Exception):
    """What a side needs is not installed, or does not work here."""


def preset_calls(symbol: str) -> list[str]:
    return ["create", f"add 0 {symbol}", "start 0", "run 10", "stop 0"]


def preset_value(row: str, replies: list[str]) -> str:
    """The value if the row is about a value, and else whether the preset counts."""
    if len(replies) < 5 or not replies[1].startswith("PAPI_OK"):
        return "not available"
    return replies[4].removeprefix("PAPI_OK ") if row.endswith(" formula") else "counts"


def code_words(replies: list[str]) -> str:
    return (
        "their codes" if replies == [f"PAPI_OK {symbol}" for symbol in PRESET_CODES]
        else "other codes"
    )


class Papi7Side:
    """PAPI 7 in a process of its own for each row, since it may be ended by an assertion."""

    def __init__(self) -> None:
        replies = self._replies(["create", *CALLS["start of a set that runs"].script[1:3]], {})
        if replies != ["PAPI_OK"] * 3:
            raise Missing("no software event can be counted here")
        self.processors = [pmu.name for pmu in Libpfm4().pmus() if pmu.kind == "core"]

    def call(self, row: str) -> str:
        case = CALLS[row]
        return case.shown(self._replies(list(case.script), {}) or ["the program is ended"])

    def preset(self, row: str) -> str:
        if row == CODES_ROW:
            return code_words(self._replies(list(NAMES_OF_CODES), {}) or [])
        upper = "".join(f"CPU,{name}\n" for name in self.processors)
        other = "".join(f"CPU,{name.upper()}\n" for name in self.processors)
        case = PRESETS[row]
        with tempfile.NamedTemporaryFile("w", suffix=".csv") as presets:
            presets.write(case.text.format(CPU=upper, cpu=other))
            presets.flush()
            replies = self._replies(
                preset_calls(case.symbol), {"PAPI_CSV_EVENT_FILE": presets.name}
            )
        return "the program is ended" if replies is None else preset_value(row, replies)

    def _replies(self, script: list[str], environment: dict[str, str]) -> list[str] | None:
        """One reply for each line, or nothing if the process was ended."""
        words = [sys.executable, "-B", str(PAPI7)]
        text = "\n".join(script) + "\n"
        done = subprocess.run(
            words, input=text, capture_output=True, text=True, env={**os.environ, **environment}
        )
        if done.returncode > 0:
            raise Missing(done.stderr.strip().removeprefix("papi7: "))
        return done.stdout.split("\n")[: len(script)] if done.returncode == 0 else None


class Libpfm4Side:
    def __init__(self) -> None:
        self.library = Libpfm4()

    def name(self, row: str) -> str:
        try:
            return f"{self.library.encode(row)[0]:#x}"
        except Refused as refusal:
            return FAULT_WORDS.get(str(refusal), str(refusal))


class Here:
    """The program of this project."""

    def __init__(self, program: Path):
        if not program.exists():
            raise Missing(f"{program} is not built (cd crates/papi && rt run -- papi_soak 1)")
        self.program = str(program)
        self.folder = tempfile.TemporaryDirectory()
        self._write("unit", UNIT)
        self._write("stream", STREAM)
        library = Libpfm4()
        self._write(
            "skl.unit", "\n".join(Converter(library, library.pmu("skl")).unit().rows()) + "\n"
        )

    def call(self, row: str) -> str:
        return CALLS[row].shown(self._replies(list(CALLS[row].script), []))

    def preset(self, row: str) -> str:
        if row == CODES_ROW:
            return code_words(self._replies(list(NAMES_OF_CODES), []))
        self._write("presets", PRESETS[row].text.format(CPU="CPU,lab\n", cpu="CPU,LAB\n"))
        replies = self._replies(preset_calls(PRESETS[row].symbol), ["-P", "presets", "-C", "lab"])
        return replies[0] if len(replies) == 1 else preset_value(row, replies)

    def name(self, row: str) -> str:
        first, last = self._run("papi_encode", "-U", "skl.unit", row).stdout.split()
        return last if last.startswith("0x") and first != "ATTR" else first

    def _write(self, name: str, text: str) -> None:
        (Path(self.folder.name) / name).write_text(text, encoding="utf-8")

    def _run(self, *words: str) -> subprocess.CompletedProcess[str]:
        return subprocess.run(
            [self.program, *words], capture_output=True, text=True, cwd=self.folder.name
        )

    def _replies(self, script: list[str], presets: list[str]) -> list[str]:
        """One reply for each line, or the cause of a refused file alone."""
        self._write("script", "".join(f"0 {line}\n" for line in script))
        done = self._run("papi_run", "-U", "unit", *presets, "script", "stream")
        if done.returncode != 0:
            return [done.stderr.strip().rsplit(": ", 1)[1]]
        return [line.split(" ", 3)[3] for line in done.stdout.splitlines()]
