"""The changes that `mutants` draws: from the syntax tree for Python, from lists of patterns for
shell and C. Each is a place in a file and what stands there instead."""

from __future__ import annotations

import ast
import re
from dataclasses import dataclass
from pathlib import Path
from typing import Iterator

COMPARED = {
    ast.Lt: "<=", ast.LtE: "<", ast.Gt: ">=", ast.GtE: ">", ast.Eq: "!=", ast.NotEq: "==",
    ast.In: "not in", ast.NotIn: "in", ast.Is: "is not", ast.IsNot: "is",
}
COMPUTED = {
    ast.Add: "-", ast.Sub: "+", ast.Mult: "//", ast.FloorDiv: "*", ast.Div: "*", ast.Mod: "*",
    ast.BitOr: "&", ast.BitAnd: "|", ast.LShift: ">>", ast.RShift: "<<",
}


PROSE = ("help", "description", "epilog", "metavar")  # what argparse tells, and no more
WRAPPED = re.compile(r"\{(\w+)\(((?:[^(){}'\"]|\([^()]*\))+)\)")  # a call in an f-string


@dataclass(frozen=True)
class Change:
    """What is changed in a file: from a byte to a byte, and the text that stands there then."""

    file: str
    line: int
    begin: int
    end: int
    new: str
    kind: str

    def applied(self, content: bytes) -> bytes:
        return content[: self.begin] + self.new.encode() + content[self.end :]

    def told(self, content: bytes) -> str:
        old = content[self.begin : self.end].decode("utf-8", "replace")
        return (
            f"{self.file}:{self.line}: {self.kind}: {short(old)} -> "
            f"{short(self.new) or '(nothing)'}"
        )

    def named(self, content: bytes) -> str:
        """What it is called in mutants.reasons: by the text of its line, since the line's number
        changes."""
        old = content[self.begin : self.end].decode("utf-8", "replace")
        line = content.splitlines()[self.line - 1].decode("utf-8", "replace")
        return f"{self.file}: {short(line)}: {short(old)} -> {short(self.new) or '(nothing)'}"


def short(text: str) -> str:
    one = " ".join(text.split())
    return one if len(one) <= 90 else one[:88] + ".."


class _Python(ast.NodeVisitor):
    """Gathers the changes of one file."""

    def __init__(self, name: str, content: bytes):
        self.name = name
        self.starts = [0]
        for line in content.splitlines(keepends=True):
            self.starts.append(self.starts[-1] + len(line))
        self.content = content
        self.changes: list[Change] = []

    def at(self, node: ast.AST) -> tuple[int, int]:
        assert (
            isinstance(node, (ast.expr, ast.stmt)) and node.end_lineno is not None
            and node.end_col_offset is not None
        )
        return (
            self.starts[node.lineno - 1] + node.col_offset,
            self.starts[node.end_lineno - 1] + node.end_col_offset,
        )

    def text(self, node: ast.AST) -> str:
        begin, end = self.at(node)
        return self.content[begin:end].decode()

    def add(self, kind: str, node: ast.AST, new: str) -> None:
        begin, end = self.at(node)
        line = node.lineno  # type: ignore[attr-defined]
        self.changes.append(Change(self.name, line, begin, end, new, kind))

    # What is not looked at: annotations, docstrings, imports, and the parts of f-strings, whose
    # places are not told.

    def visit_Assign(self, node: ast.Assign) -> None:
        # which the copy's environment says anyway
        if self.text(node.targets[0]) != "sys.dont_write_bytecode":
            self.generic_visit(node)

    def visit_AnnAssign(self, node: ast.AnnAssign) -> None:
        if node.value:
            self.visit(node.value)

    def visit_arguments(self, node: ast.arguments) -> None:
        for default in (*node.defaults, *(each for each in node.kw_defaults if each)):
            self.visit(default)

    def visit_JoinedStr(self, node: ast.JoinedStr) -> None:
        self.add("text", node, '""')
        text, begin = self.text(node), self.at(node)[0]
        for found in WRAPPED.finditer(text):
            start = begin + len(text[: found.start()].encode())
            self.changes.append(
                Change(
                    self.name, node.lineno, start, start + len(found[0].encode()), "{" + found[2],
                    "dropped wrapper",
                )
            )

    def visit_keyword(self, node: ast.keyword) -> None:
        if node.arg not in PROSE:
            self.visit(node.value)

    def visit_FunctionDef(self, node: ast.FunctionDef) -> None:
        self.visit(node.args)
        for each in node.body:
            self.visit(each)

    def visit_ClassDef(self, node: ast.ClassDef) -> None:
        for each in node.body:
            self.visit(each)

    def visit_Subscript(self, node: ast.Subscript) -> None:
        self.visit(node.value)
        self.visit(node.slice)

    def visit_Compare(self, node: ast.Compare) -> None:
        if len(node.ops) == 1:
            new = COMPARED.get(type(node.ops[0]))
            if new:
                self.add(
                    "comparison", node,
                    f"{self.text(node.left)} {new} {self.text(node.comparators[0])}",
                )
        self.generic_visit(node)

    def visit_BinOp(self, node: ast.BinOp) -> None:
        new = COMPUTED.get(type(node.op))
        if new and not isinstance(node.left, (ast.JoinedStr,)):
            self.add("operator", node, f"{self.text(node.left)} {new} {self.text(node.right)}")
        self.generic_visit(node)

    def visit_BoolOp(self, node: ast.BoolOp) -> None:
        word = " or " if isinstance(node.op, ast.And) else " and "
        self.add(
            "condition", node,
            "(" + word.join(f"({self.text(value)})" for value in node.values) + ")",
        )
        self.generic_visit(node)

    def visit_UnaryOp(self, node: ast.UnaryOp) -> None:
        if isinstance(node.op, ast.Not):
            self.add("condition", node, f"({self.text(node.operand)})")
        self.generic_visit(node)

    def visit_If(self, node: ast.If) -> None:
        self.add("condition", node.test, f"not ({self.text(node.test)})")
        self.generic_visit(node)

    def visit_IfExp(self, node: ast.IfExp) -> None:
        self.add("condition", node.test, f"not ({self.text(node.test)})")
        self.generic_visit(node)

    def visit_Constant(self, node: ast.Constant) -> None:
        if isinstance(node.value, bool):
            self.add("constant", node, str(not node.value))
        elif isinstance(node.value, int):
            self.add("constant", node, f"({node.value} + 1)")
        elif isinstance(node.value, str) and node.value:
            self.add("text", node, '""')

    def visit_Expr(self, node: ast.Expr) -> None:
        if isinstance(node.value, ast.Constant):
            return  # a docstring
        if isinstance(node.value, ast.Call):
            self.add("dropped call", node, "pass")
        self.generic_visit(node)

    def visit_Raise(self, node: ast.Raise) -> None:
        self.add("dropped raise", node, "pass")
        self.generic_visit(node)

    def visit_Return(self, node: ast.Return) -> None:
        if node.value and not (isinstance(node.value, ast.Constant) and node.value.value is None):
            self.add("result", node.value, "None")
        self.generic_visit(node)

    def visit_Call(self, node: ast.Call) -> None:
        is_symmetric = isinstance(node.func, ast.Name) and node.func.id in ("min", "max")
        if (
            len(node.args) >= 2 and not is_symmetric
            and not any(isinstance(each, ast.Starred) for each in node.args[:2])
        ):
            begin, end = self.at(node.args[0])[0], self.at(node.args[1])[1]
            self.changes.append(
                Change(
                    self.name, node.lineno, begin, end,
                    f"{self.text(node.args[1])}, {self.text(node.args[0])}", "swapped arguments",
                )
            )
        is_conversion = isinstance(node.func, ast.Name) and node.func.id in (
            "str", "Path", "list", "tuple",
        )
        if (
            len(node.args) == 1 and not node.keywords and not is_conversion
            and not isinstance(node.args[0], (ast.Starred, ast.GeneratorExp))
        ):
            self.add("dropped wrapper", node, f"({self.text(node.args[0])})")
        self.generic_visit(node)


def python_changes(name: str, content: bytes) -> list[Change]:
    visitor = _Python(name, content)
    visitor.visit(ast.parse(content))
    return [
        change for change in visitor.changes
        if content[change.begin : change.end] != change.new.encode()
        and b'if __name__ == "__main__"' not in content[change.begin - 40 : change.end]
    ]


# What is looked for in a line of shell, and what takes its place.
SHELL = [
    (r"\bexit [0-9]+", lambda found: "exit 0" if found[0] != "exit 0" else "exit 1", "status"),
    (r"\breturn [01]\b", lambda found: "return " + "10"[int(found[0][-1])], "status"),
    (r"^\s*trap '.*", lambda found: ":", "trap"), (r"&&", lambda found: "||", "condition"),
    (r"\|\|", lambda found: "&&", "condition"), (r"\[ -z ", lambda found: "[ -n ", "condition"),
    (r"\[ -n ", lambda found: "[ -z ", "condition"), (r"\[ ! ", lambda found: "[ ", "condition"),
    (r"\bif ! ", lambda found: "if ", "condition"),
    (r"(?<=\]) (?:==|=) ", lambda found: " != ", "condition"),
    (r"\[ -[fx] ", lambda found: "[ -e ", "condition"),
    (r" -(?:gt|le) ", lambda found: " -ge ", "bound"), (r" -ge ", lambda found: " -gt ", "bound"),
    (r"(?<=[=+ ])[0-9]+\b(?! ?[<>])", lambda found: str(int(found[0]) + 1), "bound"),
    (r" 2>/dev/null", lambda found: "", "escape"), (r" </dev/null", lambda found: "", "escape"),
    (r'(?<!=)"\$[@a-z_]\w*"', lambda found: found[0].strip('"'), "escape"),
    (r" -- ", lambda found: " ", "escape"), (r"\bset -eu\b", lambda found: "set -u", "status"),
    (r"\bexec ", lambda found: "", "status"),
    (
        r"^\s*(?:rm|mv|cp|ln|chmod|mkdir|shift|strip|gzip) .*[^\\]$", lambda found: ":",
        "dropped command",
    ),
]
CODE = [
    (r"(?<![<>=!-])<(?![<=])(?= )", lambda found: "<=", "bound"),
    (r"<=(?= )", lambda found: "<", "bound"),
    (r"(?<![<>=!-])>(?![>=])(?= )", lambda found: ">=", "bound"),
    (r">=(?= )", lambda found: ">", "bound"), (r" == ", lambda found: " != ", "condition"),
    (r" != ", lambda found: " == ", "condition"), (r" &&(?= |$)", lambda found: " ||", "condition"),
    (r" \|\|(?= |$)", lambda found: " &&", "condition"),
    (r"(?<=[(=+\- ])[0-9]+\b(?![.x])", lambda found: str(int(found[0]) + 1), "constant"),
    (r"\bPAPI_E[A-Z]+\b(?!_)", lambda found: "PAPI_OK", "status"),
    (r"^\s*(?:pthread_mutex_(?:un)?lock|free|kl_\w+)\(.*\);$", lambda found: ";", "dropped call"),
    (r"(?<=[(&| ])!(?=\w)", lambda found: "", "condition"), (r" \+ 1\b", lambda found: "", "bound"),
    (r" - 1\b", lambda found: "", "bound"),
]


def _without_comments(content: bytes) -> bytes:
    """A source of C with signs in place of its comments, so that nothing in them is changed."""
    return re.sub(
        rb"/\*.*?\*/", lambda found: re.sub(rb"[^\n]", b"\xff", found[0]), content, flags=re.DOTALL
    )


def _by_patterns(name: str, content: bytes, patterns: list, comment: str) -> Iterator[Change]:
    start = 0
    for number, raw in enumerate(content.splitlines(keepends=True), 1):
        line = raw.decode("latin-1")  # a character for each byte
        if not line.lstrip().startswith(comment) and not line.startswith("#"):
            code = re.split(r"\s" + comment, line.rstrip("\n"))[0]
            for pattern, new, kind in patterns:
                for found in re.finditer(pattern, code):
                    yield Change(
                        name, number, start + found.start(), start + found.end(), new(found), kind
                    )
        start += len(raw)


def changes_of(root: Path, name: str) -> list[Change]:
    """All changes of a file, each once."""
    content = (root / name).read_bytes()
    if name.endswith(".py") or content.startswith(b"#!/usr/bin/env python3"):
        return python_changes(name, content)
    if name.endswith((".c", ".h")):
        return list(_by_patterns(name, _without_comments(content), CODE, "//"))
    return list(_by_patterns(name, content, SHELL, "# "))
