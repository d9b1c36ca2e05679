"""The definitions that a contract rests on: which there are in the specs of the crates, what each
says in a sentence, and which of them some names reach."""

from __future__ import annotations

import re
from dataclasses import dataclass, field
from pathlib import Path

from parts.command import Fault, read_file

HEAD = re.compile(r"^(?:(?:abbrev|unfoldable) pub|pub record|pub data) (\S+)")
USE = re.compile(r"^(?:pub |ghost )?use ([\w.]+?)(?:\.\{(.*)\})?(?: as (\w+))?;?$", re.DOTALL)
WORD = re.compile(r"[^\s(){}\[\];,:]+")
DECLARED = "declared"  # in a path: what follows is a type of the Rust code
CONSTANTS, VARIANTS = "TheConstants", "TheVariants"
COMMENTS = ("--", "//", "#[")
# of a region: it says nothing, and ends nothing
MARK = re.compile(r"\s*(?:--|//) tools/make_\w+: (?:begin|end)\b")
RUST_ITEM = r"^\s*(?:pub(?:\([a-z]+\))? )?(?:struct|enum|trait|const|type) {}\b"


@dataclass(frozen=True)
class Place:
    """Where a definition or a type stands: the path of its module, `Rattle.CRATE.specs.MODULE`, and
    its name."""

    module: str
    name: str

    @property
    def crate(self) -> str:
        return self.module.split(".")[1]


@dataclass
class Definition:
    place: Place
    file: Path
    line: int  # of its head, from 1
    sentence: str
    text: list[str] = field(default_factory=list)

    @property
    def lines(self) -> int:
        """Its lines without comments and empty ones."""
        return sum(
            1 for line in self.text if line.strip() and not line.lstrip().startswith(COMMENTS)
        )


@dataclass
class Module:
    """What stands in a file of specs: its definitions by name, and what it brings in."""

    path: str
    file: Path
    definitions: dict[str, Definition] = field(default_factory=dict)
    names: dict[str, Place] = field(default_factory=dict)  # what a plain name stands for
    modules: dict[str, str] = field(default_factory=dict)  # what the word before a point stands for


def statements(text: str) -> list[str]:
    """The lines that begin with `use`, each whole."""
    found, open_one = [], ""
    for line in text.splitlines():
        if open_one:
            open_one += " " + line.strip()
        elif re.match(r"(?:pub |ghost )?use ", line.strip()):
            open_one = line.strip()
        if open_one and open_one.count("{") == open_one.count("}"):
            found.append(open_one)
            open_one = ""
    return found


def take_uses(module: Module, text: str) -> None:
    for statement in statements(text):
        match = USE.match(statement)
        if not match:
            continue
        path, names, alias = match.groups()
        if names is None:
            module.modules[alias or path.rsplit(".", 1)[-1]] = path
            continue
        for item in filter(None, (part.strip() for part in names.split(","))):
            name, _, other = item.partition(" as ")
            module.names[other.strip() or name.strip()] = Place(path, name.strip())


def take_definitions(module: Module, text: str) -> None:
    comment: list[str] = []
    current: Definition | None = None
    for number, line in enumerate(text.splitlines(), 1):
        if MARK.match(line):
            continue
        head = HEAD.match(line)
        if head:
            current = Definition(
                Place(module.path, head[1]), module.file, number, sentence_of(comment)
            )
            module.definitions[head[1]] = current
        if line.startswith("--"):
            if current:
                current, comment = None, []
            comment.append(line)
        elif current:
            current.text.append(line)
            if not line.strip():
                comment = []
        elif not line.strip():
            comment = []


def sentence_of(comment: list[str]) -> str:
    """What the comment above a definition says, on one line; the comment above a group holds for
    each of it."""
    lines = [line.lstrip("-").strip() for line in comment if not line.startswith("-- ----")]
    return " ".join(lines)


def read_module(root: Path, file: Path) -> Module:
    parts = file.relative_to(root / "crates").with_suffix("").parts
    module = Module(".".join(("Rattle", *parts)), file)
    text = read_file(str(file))
    take_uses(module, text)
    take_definitions(module, text)
    return module


class Definitions:
    """All definitions of the repository's crates."""

    def __init__(self, root: Path):
        self.root = root
        files = sorted(root.glob("crates/*/specs/**/*.antt"))
        self.modules = {
            module.path: module for module in (read_module(root, file) for file in files)
        }
        self.types: dict[Place, Definition | None] = {}

    def place_of(self, module: Module, word: str) -> Place | None:
        """What a word of a module stands for, if it is one of the repository's own."""
        if word in module.definitions:
            return Place(module.path, word)
        if word in module.names:
            return self.owner(module.names[word])
        front, point, name = word.rpartition(".")
        if point and front in module.modules:
            return self.owner(Place(module.modules[front], name))
        return None

    def owner(self, place: Place) -> Place | None:
        """Where a name that a module hands out is defined, or the type of the Rust code that it
        belongs to."""
        if f".specs.{DECLARED}." in place.module + ".":
            return self.type_of(place) if (self.root / "crates" / place.crate).is_dir() else None
        if place.module in self.modules:
            module = self.modules[place.module]
            if place.name in module.definitions:
                return place
            if place.name in module.names:
                return self.owner(module.names[place.name])
        return None

    @staticmethod
    def type_of(place: Place) -> Place:
        """The type or constant of the Rust code that a declared name belongs to: its module is that
        of the Rust file."""
        head, _, rest = place.module.partition(f".specs.{DECLARED}.")
        parts = rest.split(".") if rest else []
        name = place.name
        if parts[-1:] == [VARIANTS]:
            name = parts[-2]
            parts = parts[:-2]
        elif parts[-1:] in ([CONSTANTS], [name]):
            parts = parts[:-1]
        return Place(".".join((head, "specs", DECLARED, *parts)), name)

    def definition(self, place: Place) -> Definition | None:
        if f".specs.{DECLARED}." in place.module + ".":
            if place not in self.types:
                self.types[place] = self.read_type(place)
            return self.types[place]
        return self.modules[place.module].definitions.get(place.name)

    def read_type(self, place: Place) -> Definition | None:
        """A type or a constant of the Rust code: its lines from the head to the end of its
        braces."""
        parts = place.module.split(".")[4:]
        source = self.root / "crates" / place.crate / "src"
        for file in ([source / Path(*parts).with_suffix(".rt")] if parts else []) + [
            source / "lib.rt"
        ]:
            if file.is_file():
                found = rust_item(file, place)
                if found:
                    return found
        return None

    def reached(self, starts: list[Place]) -> list[Definition]:
        """The definitions that these reach, each once, those that a reader meets first before the
        others."""
        order: dict[Place, Definition] = {}
        waiting = list(starts)
        while waiting:
            place = waiting.pop(0)
            definition = self.definition(place) if place not in order else None
            if definition is None:
                continue
            order[place] = definition
            waiting += self.cited(definition)
        return list(order.values())

    def cited(self, definition: Definition) -> list[Place]:
        """What a definition cites, in the order of its text."""
        module = self.modules.get(definition.place.module)
        if module is None:
            return []
        found: dict[Place, None] = {}
        for line in definition.text:
            for word in WORD.findall(line.split("--")[0]):
                place = self.place_of(module, word)
                if place and place != definition.place:
                    found[place] = None
        return list(found)


def rust_item(file: Path, place: Place) -> Definition | None:
    lines = read_file(str(file)).splitlines()
    head = re.compile(RUST_ITEM.format(re.escape(place.name)))
    for at, line in enumerate(lines):
        if not head.match(line):
            continue
        text, depth = [], 0
        for later in lines[at:]:
            text.append(later)
            depth += later.count("{") - later.count("}")
            if depth == 0 and later.rstrip().endswith(("}", ";")):
                break
        return Definition(place, file, at + 1, rust_sentence(lines, at), text)
    return None


def rust_sentence(lines: list[str], at: int) -> str:
    """The comment above an item, up to the end of its first paragraph."""
    above: list[str] = []
    for line in reversed(lines[:at]):
        if MARK.match(line):
            break
        if line.strip().startswith("//"):
            above.insert(0, line.strip().lstrip("/").strip())
        elif not line.strip().startswith("#["):
            break
    return " ".join(above[: above.index("")] if "" in above else above)


def contract_words(file: Path, function: str) -> tuple[Module, list[str]]:
    """The module that stands for a file of Rust code, with what its contracts bring in, and the
    words of a function's contract."""
    text = read_file(str(file))
    module = Module(str(file), file)
    take_uses(module, text)
    head = re.search(rf"\bfn {re.escape(function)}\b", text)
    if not head:
        raise Fault(f"{file}: no function {function}")
    clauses = re.search(r"\n\{[\n}]", text[head.start():])
    if not clauses:
        raise Fault(f"{file}: no end of the contract of {function}")
    contract = text[head.start() : head.start() + clauses.start()]
    return module, WORD.findall(contract)
