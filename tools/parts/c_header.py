"""What a header of C declares: its functions, types, enumerators and macros, read out of what the
compiler's preprocessor writes."""

from __future__ import annotations

import re
from dataclasses import dataclass, field
from pathlib import Path
from typing import Iterator

from parts.command import Fault
from parts.compiler import compiler, cause, run_compiler


@dataclass(frozen=True)
class Member:
    """A member of a struct or union. `type` is its type without a name; a bit-field has its width
    in bits."""

    name: str
    type: str
    bits: int | None


@dataclass(frozen=True)
class Composite:
    """A struct or union. Its name is that of the typedef; a tag is `struct NAME`, or nothing."""

    name: str
    tag: str
    members: tuple[Member, ...]


@dataclass(frozen=True)
class Macro:
    """A macro: its parameters, or none, and its body."""

    name: str
    parameters: tuple[str, ...] | None
    body: str


@dataclass
class Header:
    functions: dict[str, str] = field(default_factory=dict)
    composites: dict[str, Composite] = field(default_factory=dict)
    typedefs: dict[str, str] = field(default_factory=dict)
    enumerators: list[str] = field(default_factory=list)
    macros: dict[str, Macro] = field(default_factory=dict)
    path: str = ""
    included: set[str] = field(default_factory=set)

    def possible_constants(self) -> list[str]:
        """The names that may be constants: macros without parameters, then enumerators."""
        return [
            *(
                name for name, macro in self.macros.items()
                if macro.parameters is None and macro.body
            ),
            *self.enumerators,
        ]

    def names(self) -> set[str]:
        return {*self.functions, *self.composites, *self.typedefs, *self.enumerators, *self.macros}


def preprocessed(name: str, folder: Path | None) -> str:
    """What the preprocessor writes of a header, with its macros and line marks."""
    where = ["-I", str(folder)] if folder else []
    done = run_compiler("-E", "-dD", *where, "-x", "c", "-", text=f"#include <{name}>\n")
    if done.returncode:
        raise Fault(f"{name}: {cause(done.stderr) or 'not read'}")
    return done.stdout


def read_header(name: str, folder: Path | None = None, of_header: str = "papi") -> Header:
    """The declarations of a header and of those that it includes whose file names begin with
    `of_header`, out of a folder or the system's."""
    header = Header()
    text: list[str] = []
    own = False
    for line in preprocessed(name, folder).splitlines():
        mark = re.match(r'# \d+ "([^"]*)"', line)
        if mark:
            file = Path(mark[1])
            own = file.name.startswith(of_header)
            if own and file.name == name:
                header.path = header.path or mark[1]
            elif not own and file.is_absolute():
                header.included.add(mark[1])
        elif own and line.startswith("#"):
            read_directive(line, header)
        elif own:
            text.append(line)
    for declaration in declarations("\n".join(text)):
        read_declaration(declaration, header)
    if not header.path:
        raise Fault(f"{name}: {' '.join(compiler())} gives nothing of it")
    return header


def read_directive(line: str, header: Header) -> None:
    define = re.match(r"#define (\w+)(?:\(([^)]*)\))?\s*(.*)$", line)
    if define:
        parameters = (
            None if define[2] is None
            else tuple(word.strip() for word in define[2].split(",") if word.strip())
        )
        header.macros[define[1]] = Macro(define[1], parameters, define[3].strip())
    undefined = re.match(r"#undef (\w+)", line)
    if undefined:
        header.macros.pop(undefined[1], None)


def declarations(text: str) -> Iterator[str]:
    """The declarations one by one, without their semicolons, each on one line."""
    depth, begin = 0, 0
    for at, sign in enumerate(text):
        depth += {"{": 1, "}": -1}.get(sign, 0)
        if sign == ";" and depth == 0:
            yield " ".join(text[begin:at].split())
            begin = at + 1


def read_declaration(declaration: str, header: Header) -> None:
    enum = re.fullmatch(r"(typedef )?enum(?: \w+)? ?\{(.*)\} ?(\w*)", declaration)
    composite = re.fullmatch(r"typedef (struct|union)( \w+)? ?\{(.*)\} ?(\w+)", declaration)
    function = re.fullmatch(r"(?:extern )?([\w* ]*?[ *])(\w+) ?(\(.*\))", declaration)
    pointer = re.fullmatch(r"typedef (.*)\(\* ?(\w+) ?\) ?(\(.*\))", declaration)
    typedef = re.fullmatch(r"typedef (.*[ *])(\w+)", declaration)
    if enum:
        header.enumerators += [
            item.split("=")[0].strip() for item in enum[2].split(",") if item.strip()
        ]
        if enum[3]:
            header.typedefs[enum[3]] = "int" if re.search(r"= ?-", enum[2]) else "unsigned int"
    elif composite:
        tag = f"{composite[1]}{composite[2]}" if composite[2] else ""
        header.composites[composite[4]] = Composite(composite[4], tag, tuple(members(composite[3])))
    elif pointer:
        header.typedefs[pointer[2]] = f"{pointer[1]}(*){pointer[3]}"
    elif typedef:
        header.typedefs[typedef[2]] = typedef[1].strip()
    elif function:
        header.functions[function[2]] = f"{function[1].strip()} {function[3]}"
    elif declaration:
        raise Fault(f"a declaration of another form: {declaration}")


DECLARATOR = r"(\w+) ?((?:\[[^\]]*\] ?)*)(?:: ?(\d+))?"


def members(body: str) -> Iterator[Member]:
    for declaration in declarations(body):
        first, *others = (item.strip() for item in declaration.split(","))
        parsed = re.fullmatch(r"(\w+(?: \w+)*?)([ *]+)" + DECLARATOR, first)
        further = [re.fullmatch(r"([ *]*)" + DECLARATOR, item) for item in others]
        if not parsed or not all(further):
            raise Fault(f"a member of another form: {declaration}")
        base = parsed[1]
        for stars, name, sizes, bits in (
            parsed.groups()[1:], *(item.groups() for item in further if item),
        ):
            yield Member(
                name, f"{base} {stars.strip()}{sizes.strip()}".strip(), int(bits) if bits else None
            )
