"""Which counters a unit file's rows allow a name, read by themselves, and how a set of names stands
on them (docs/FORMATS.md, The unit file)."""

from __future__ import annotations

import here  # noqa: F401

from formats.units import parts_of

FIXED = 32  # the numbers of fixed counters begin here


class UnitRows:
    """The counters of each event and umask in the order of their rows."""

    def __init__(self, text: str):
        self.order: dict[str, int] = {}
        self.allowed: dict[tuple[str, str], list[str]] = {}
        self.modified: set[tuple[str, str]] = set()
        self.default: dict[str, str] = {}
        self.programmable: set[str] = set()
        event = umask = ""
        for row in text.splitlines():
            kind, *fields = row.split(",")
            if kind == "COUNTER":
                self.order[fields[0]] = len(self.order)
                self.programmable |= {fields[0]} if fields[2] == "P" else set()
            elif kind == "EVENT":
                event = fields[0].upper()
                self.allowed[event, ""] = fields[2].split()
            elif kind == "UMASK":
                umask = fields[0].upper()
                self.allowed[event, umask] = self.allowed[event, ""]
                self.default.update({event: umask} if "d" in fields[2] else {})
            elif kind == "UMASK_COUNTERS":
                self.allowed[event, umask] = fields[0].split()
            elif kind == "UMASK_MODIFIERS":
                self.modified.add((event, umask))

    def counters(self, name: str) -> list[str]:
        """Those of a name with one umask or none, in the order in which the unit has them."""
        _, _, event, attributes = parts_of(name.upper())
        umasks = [attribute for attribute in attributes if (event, attribute) in self.allowed]
        key = event, umasks[0] if umasks else self.default.get(event, "")
        is_modified = key in self.modified or any(
            attribute.partition("=")[0] in ("E", "I", "C") for attribute in attributes
            if attribute not in umasks
        )
        return sorted(
            (
                counter for counter in self.allowed[key]
                if counter in self.programmable or not is_modified
            ),
            key=self.order.__getitem__,
        )

    def place(self, names: list[str]) -> list[int] | None:
        """The first assignment: of each name in turn the first counter with which the others find
        theirs. None if there is no assignment."""
        rows = [self.counters(name) for name in names]
        if not _fits(rows):
            return None
        for number, row in enumerate(rows):
            rows[number] = next(
                [counter] for counter in row
                if _fits([*rows[:number], [counter], *rows[number + 1 :]])
            )
        return [
            int(counter[1:]) + (0 if counter in self.programmable else FIXED) for (counter,) in rows
        ]


def _fits(rows: list[list[str]]) -> bool:
    """Whether each of these can have a counter of its own."""
    held: dict[str, int] = {}

    def place(row: int, seen: set[str]) -> bool:
        for counter in rows[row]:
            if counter in seen:
                continue
            seen.add(counter)
            if counter not in held or place(held[counter], seen):
                held[counter] = row
                return True
        return False

    return all(place(row, set()) for row in range(len(rows)))
