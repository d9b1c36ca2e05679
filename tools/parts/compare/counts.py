"""A file of counts, as tools/count --json writes it (docs/FORMATS.md)."""

from __future__ import annotations

import posixpath
from collections import defaultdict

from parts.compare.reading import Place
from parts.compare.sides import WHOLE, Counts, Rows, Side, Trait, traits, unfit

FORMAT, VERSION = "kistalub-counts", 1
OWN, INCLUSIVE = "own", "inclusive"
BY = {"function": OWN, "inclusive": INCLUSIVE}  # the words of --by
SHOWN_DIGITS = 12  # of a checksum


def is_counts(place: Place) -> bool:
    return place.has("format")


def read_counts(place: Place) -> Side:
    """A file of counts as a side."""
    if place.at("format").value != FORMAT:
        place.at("format").fault(f"not {FORMAT}")
    if type(place.at("version").value) is not int or place.at("version").value != VERSION:
        place.at("version").fault(f"not {VERSION}, which this program reads")
    events = tuple(each.text() for each in place.at("events").each())
    if not events or len(set(events)) < len(events):
        place.at("events").fault("no events" if not events else "an event that stands twice")
    rows: dict[str, Rows] = {"whole": {WHOLE: _counts(place.at("total"), events)}}
    if place.has("functions"):
        rows |= {word: _functions(place, kind, events) for word, kind in BY.items()}
    return Side(place.file, "counts", _same(place), _may_differ(place), events, (), rows)


def _counts(place: Place, events: tuple[str, ...]) -> Counts:
    """A count of each event, and of no other one."""
    found = {name: each.number() for name, each in place.items()}
    if set(found) != set(events):
        place.fault("not a count of each event")
    return {event: found[event] for event in events}


def _file(place: Place) -> Trait:
    """A file that decides what is counted: its content does, and not its name."""
    if place.value is None:
        return Trait("", "none")
    digest = place.at("sha256").text()
    return Trait(digest, f"{place.at('name').text()} (sha256 {digest[:SHOWN_DIGITS]})")


def _ended(place: Place) -> str:
    kind = "signal" if place.has("signal") else "status"
    return f"{kind} {place.at(kind).number()}"


def _same(place: Place) -> dict[str, Trait]:
    functions = sorted({each.text() for each in place.at("functions_counted").each()})
    words = {
        "cpu": place.at("cpu").text_or_none() or "none",
        "counted functions": ", ".join(functions) or "all",
        "end": _ended(place.at("ended")),
        **{f"machine: {name}": str(each.value) for name, each in place.at("machine").items()},
    }
    return {name: _file(place.at(name)) for name in ("unit", "presets")} | traits(words)


def _may_differ(place: Place) -> dict[str, str]:
    tool, processes = place.at("tool"), place.at("processes").each()
    threads = sum(len(process.at("threads").each()) for process in processes)
    return {
        "command": " ".join(word.text() for word in place.at("command").each()),
        "version of Kistalub": tool.at("kistalub").text(),
        "version of Valgrind": tool.at("valgrind").text(),
        "processes": str(len(processes)),
        "threads": str(threads),
        "children that are not counted": str(place.at("uncounted_children").number()),
    }


def _functions(place: Place, kind: str, events: tuple[str, ...]) -> Rows:
    """The counts by function. Clones, which have one name in one object and file, are added."""
    programs = {_base(process.at("program")) for process in place.at("processes").each()}
    rows: dict[str, Counts] = defaultdict(lambda: dict.fromkeys(events, 0))
    for each in place.at("functions").each():
        name, before = _function_name(each, programs), _counts(each.at(kind), events)
        rows[name] = {event: rows[name][event] + before[event] for event in events}
    if not rows:
        raise unfit(f"{place.file}: functions: there is none")
    return dict(rows)


def _base(place: Place) -> str:
    """The name of a file without its folders, which move from build to build."""
    return posixpath.basename(place.text())


def _function_name(place: Place, programs: set[str]) -> str:
    """The name, with the source file if that is known, and the object if it is not the program.
    Lines are left out, since they move with each change."""
    name, library = place.at("name").text(), _base(place.at("object"))
    where = [_base(place.at("file"))] if place.at("file").value is not None else []
    where += [library] if library not in programs else []
    return f"{name} ({', '.join(where)})" if where else name
