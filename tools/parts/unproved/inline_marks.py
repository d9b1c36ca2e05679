"""Which functions the sources mark as always or never to be taken into their callers. The module
that is compiled without a proof has lost these marks."""

from __future__ import annotations

import re
from collections import defaultdict
from pathlib import Path
from typing import Iterable

FUNCTION = re.compile(
    r"\s*(?:pub(?:\([a-z]+\))? +)?(?:const +)?(?:unsafe +)?(?:extern \"C\" +)?fn +(\w+)"
)
MARKS = {"#[inline(always)]": "alwaysinline", "#[inline(never)]": "noinline"}
NO_MARK = ""
Marks = dict[str, set[str]]  # of functions, by their names


class InlineMarks:
    """The marks of the functions of some crates. Functions of one name in a module are one here,
    and marked only if each is."""

    def __init__(self, roots: Iterable[tuple[str, Path]]):
        self._of_modules: dict[str, Marks] = {}
        self._of_crates: dict[str, Marks] = {}
        for crate, root in roots:
            for path in sorted(root.parent.glob("**/*.rt")):
                self._read(crate, _module(crate, root, path), path)

    def of(self, function: str) -> str:
        """The mark of a function by its name in the module that is compiled, or none. There
        `core::slice::slice+T::get::<#99dae71c>` is `get` of core's module `slice`."""
        *places, name = function.partition("::<")[0].split("::")
        for count in range(len(places), 0, -1):
            module = self._of_modules.get("::".join(places[:count]))
            if module is not None:
                if name in module:
                    return _settled(module[name])
                break
        return _settled(self._of_crates.get(places[0], {}).get(name, set())) if places else NO_MARK

    def _read(self, crate: str, module: str, path: Path) -> None:
        names = self._of_modules.setdefault(module, defaultdict(set))
        of_crate = self._of_crates.setdefault(crate, defaultdict(set))
        mark = NO_MARK
        for line in path.read_text(encoding="utf-8", errors="replace").splitlines():
            text = line.strip()
            function = FUNCTION.match(line)
            if text.startswith("#[inline"):
                mark = MARKS.get(text, NO_MARK)
            elif function:
                names[function[1]].add(mark)
                of_crate[function[1]].add(mark)
                mark = NO_MARK
            elif text and not text.startswith(("#", "//")):
                mark = NO_MARK


def _module(crate: str, root: Path, path: Path) -> str:
    if path == root:
        return crate
    places = path.relative_to(root.parent).with_suffix("").parts
    return "::".join([crate, *(places[:-1] if places[-1] == "mod" else places)])


def _settled(marks: set[str]) -> str:
    return next(iter(marks)) if len(marks) == 1 else NO_MARK
