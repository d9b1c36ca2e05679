"""Which tests run which lines of the Python programs: `mutants` tries a change with the tests that
run its place."""

from __future__ import annotations

import ast
from dataclasses import dataclass, field
from pathlib import Path

FUTURE = "from __future__ import annotations"
# What an instrumented file does first. It depends on no environment and no path, and its descriptor
# is none that a test looks at.
TRACER = """
import os, sys
if "kistalub_tracer" not in sys.modules:
    import fcntl, threading, types
    FOLDER, ENDS = {folder!r}, frozenset({ends!r})
    tracer = sys.modules["kistalub_tracer"] = types.ModuleType("kistalub_tracer")
    state = {{"out": None, "number": "", "known": set(), "names": {{}}}}

    def forget():
        if state["out"] is not None:
            os.close(state["out"])
        state["out"] = None
        state["known"] = set()

    def opened(name, more):
        return os.open(FOLDER + "/" + name, os.O_WRONLY | os.O_CREAT | os.O_CLOEXEC | more, 0o666)

    def written(row):
        try:
            return os.write(state["out"], row) == len(row)
        except OSError:
            return False

    def tell(key):
        state["known"].add(key)
        row = key[0] + "\\t" + str(key[1])
        try:
            if state["out"] is None:
                with open(FOLDER + "/current") as file:
                    state["number"] = file.read()
                low = opened(state["number"], os.O_APPEND)
                state["out"] = fcntl.fcntl(low, fcntl.F_DUPFD_CLOEXEC, 300)
                os.close(low)
            if not written(("\\n" + row).encode()):
                # no file may grow here, so an empty one has the row as its name
                os.close(opened(state["number"] + "." + row.replace("/", "%"), 0))
        except OSError:
            pass

    def end_of(name):
        if name not in state["names"]:
            end = "/".join(name.split("/")[-2:])
            state["names"][name] = end if end in ENDS else None
        return state["names"][name]

    def each_line(frame, event, argument):
        key = (end_of(frame.f_code.co_filename), frame.f_lineno)
        if key not in state["known"]:
            tell(key)
        return each_line

    def each_call(frame, event, argument):
        return each_line if end_of(frame.f_code.co_filename) else None

    tracer.forget, tracer.each_line = forget, each_line
    threading.settrace(each_call)
    sys.settrace(each_call)
sys._getframe(1).f_trace = sys.modules["kistalub_tracer"].each_line
"""


def end_of(file: str) -> str:
    """The last two parts of the name of a file in a folder, by which it is known in a copy of a
    copy too."""
    return "/".join(file.split("/")[-2:])


def is_python(path: Path) -> bool:
    return path.name.endswith(".py") or path.read_bytes().startswith(b"#!/usr/bin/env python3")


def instrument(top: Path, files: list[str], folder: Path) -> None:
    """Lets the files of a copy write into a folder which of their lines run."""
    python = [file for file in files if is_python(top / file)]
    tracer = folder / "tracer"
    tracer.write_text(TRACER.format(folder=str(folder), ends=sorted(map(end_of, python))))
    begin = f"{FUTURE}; exec(compile(open({str(tracer)!r}).read(), 'tracer', 'exec'), {{}})"
    for file in python:
        text = (top / file).read_text(encoding="utf-8")
        (top / file).write_text(text.replace(FUTURE, begin, 1), encoding="utf-8")


def lines_of_statements(content: bytes) -> dict[int, range]:
    """For each line the lines of the innermost statement that it belongs to, without those of the
    statements within."""
    found: dict[int, range] = {}
    for node in ast.walk(ast.parse(content)):  # the outer ones come first
        if isinstance(node, ast.stmt):
            within = [
                each for each in ast.iter_child_nodes(node)
                if isinstance(each, (ast.stmt, ast.ExceptHandler))
            ]
            last = min(
                (each.lineno for each in within), default=(node.end_lineno or node.lineno) + 1
            )
            own = range(node.lineno, max(last, node.lineno + 1))
            found.update({line: own for line in own})
    return found


def module_lines(content: bytes) -> set[int]:
    """The lines of what runs when a file is read: no function's."""
    inside: set[int] = set()
    for node in ast.walk(ast.parse(content)):
        if isinstance(node, (ast.FunctionDef, ast.AsyncFunctionDef)):
            inside.update(range(node.body[0].lineno, (node.end_lineno or node.lineno) + 1))
    return set(range(1, content.count(b"\n") + 2)) - inside


@dataclass
class Seen:
    """For each test, by its place in the order, the lines that it runs: name of the file and
    number."""

    tests: dict[str, set[tuple[str, int]]] = field(default_factory=dict)

    @classmethod
    def read(cls, folder: Path, names: list[str]) -> Seen:
        files = sorted(path.name for path in folder.iterdir())
        seen = cls()
        for number, name in enumerate(names, 1):
            path = folder / str(number)
            rows = path.read_text().splitlines() if path.exists() else []
            rows += [
                file.partition(".")[2].replace("%", "/") for file in files
                if file.startswith(f"{number}.")
            ]
            parts = [row.partition("\t") for row in rows]
            # a row may have been cut
            seen.tests[name] = {(end, int(line)) for end, _, line in parts if line.isdigit()}
        return seen

    def of_lines(self, file: str, lines: range) -> list[str]:
        """The tests that run one of the lines."""
        wanted = {(end_of(file), line) for line in lines}
        return [name for name, rows in self.tests.items() if rows & wanted]

    def of_functions(self, file: str, content: bytes) -> list[str]:
        """The tests that run a function of the file."""
        end, outside = end_of(file), module_lines(content)
        return [
            name for name, rows in self.tests.items()
            if any(row[0] == end and row[1] not in outside for row in rows)
        ]
