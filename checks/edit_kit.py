"""The toolchain's own `rt`, as `edits` uses it: its crates, libraries and classes of edits.

It is read as a module, so that what it says of an edit is its own judgement."""

from __future__ import annotations

import importlib.machinery
import importlib.util
import json
import os
import shutil
import subprocess
import sys
from functools import lru_cache
from pathlib import Path
from types import ModuleType
from typing import Any, Optional

import here as here  # finds `parts`

from parts.command import Fault

USED = """must_fail read_edit unread checked Kept need free processors handles_of STORE
REFUSED AT_LIMIT BAD UNSURE""".split()
AT_LIMIT = "NOT TRIED: the prover met a limit (choose a change that it refuses sooner)"
UNUSABLE = 2  # the status of a run that can try nothing


@lru_cache(maxsize=None)
def rt() -> Any:
    """The module of `rt`, which has what this check uses of it."""
    found = shutil.which("rt")
    if found is None:
        raise Fault("there is no rt, which tries the edits", UNUSABLE)
    path = os.path.realpath(found)
    loader = importlib.machinery.SourceFileLoader("rt", path)
    spec = importlib.util.spec_from_loader("rt", loader)
    made = importlib.util.module_from_spec(spec) if spec else ModuleType("rt")
    sys.modules["rt"] = made
    try:
        loader.exec_module(made)
    except (OSError, SyntaxError) as error:
        raise Fault(f"{path} is not the rt that this check knows: {error}", UNUSABLE) from None
    for name in USED:
        if not hasattr(made, name):
            raise Fault(f"{path} is not the rt that this check knows: it lacks {name}", UNUSABLE)
    return made


def rattle() -> str:
    """The prover."""
    return str(rt().rtlib.RATTLE)


def crates_in(root: Path) -> list[Any]:
    """The crates of a repository as rt has them, lowest first."""
    if not (root / "crates.txt").is_file():
        raise Fault(f"{root} has no crates.txt", UNUSABLE)
    rt().Crate.allowed = rt().handles_of(str(root))
    return sorted(rt().rtlib.crates_below(str(root)), key=lambda crate: len(crate.below()))


def files_of(crate: Any) -> dict[str, Path]:
    """The files that a check of the crate reads, by their paths in it."""
    folder = Path(crate.folder)
    found = (path for part in rt().rtlib.PARTS for path in (folder / part).rglob("*"))
    return {str(path.relative_to(folder)): path for path in found if path.is_file()}


class Libraries:
    """The libraries that `rt ci` or a check left built. Each is held to the text that is there."""

    def __init__(self, crates: list[Any]):
        self.kept = rt().Kept(crates)
        self._known: dict[str, bool] = {}

    def key(self, crate: Any) -> str:
        """A checksum of all that a verdict on the crate rests on, if no library is lacking."""
        return str(self.kept.key(crate))

    def lacking(self, crate: Any) -> Optional[str]:
        """The first library below the crate that is not built of the text that is there."""
        return next((each.name for each in crate.below() if not self._is_settled(each)), None)

    def _is_settled(self, crate: Any) -> bool:
        if crate.name not in self._known:
            well = self.lacking(crate) is None and self._is_built(crate)
            if well:
                self.kept.is_built(crate)
            self._known[crate.name] = well
        return self._known[crate.name]

    def _is_built(self, crate: Any) -> bool:
        """Whether a library is there, built by a check, by `rt ci`, or when nothing was kept."""
        if crate.is_built():
            return True
        return self._is_of_gate(crate) if self.kept.at else self._is_newer(crate)

    def _is_of_gate(self, crate: Any) -> bool:
        """Whether `rt ci` made this library. One that it kept takes the place of another."""
        key = self.kept.key(crate)
        try:
            list_of_files = Path(self.kept.place(crate, False, key), "made.json")
            made = json.loads(list_of_files.read_text(encoding="utf-8"))
            if made["key"] == key and self._has(crate, made["files"]):
                return True
        except (OSError, ValueError, KeyError, TypeError):
            return False
        shutil.rmtree(Path(crate.folder, "out/rlib"), ignore_errors=True)
        return bool(self.kept.give(crate, False, key))

    def _has(self, crate: Any, files: list[list[str]]) -> bool:
        out, sum_of = f"{crate.folder}/out", rt().rtlib.sum_of
        if sorted(path for path, _ in files) != self.kept.made(crate, False):
            return False
        return all(sum_of(f"{out}/{path}") == wanted for path, wanted in files)

    def _is_newer(self, crate: Any) -> bool:
        """Whether a library was made after the last change of its text and of those below it."""
        made = [Path(each.rlib, "format") for each in (crate, *crate.below())]
        if not all(path.is_file() for path in made):
            return False
        own, *below = (path.stat().st_mtime for path in made)
        return all(time <= own for time in (*_times(crate), *below))


def _times(crate: Any) -> list[float]:
    return [path.stat().st_mtime for path in files_of(crate).values()]


def class_of(crate: Any, edit: Path, ended: subprocess.CompletedProcess[str]) -> tuple[str, str]:
    """What rt makes of an edit whose check ended so: its class, and what it says."""
    module = rt()
    before, module.checked = module.checked, lambda *_: ended
    try:
        kind, said = module.must_fail(crate, str(edit), [])
    finally:
        module.checked = before
    name, _, told = said.partition(": ")
    if kind == module.AT_LIMIT:
        kind, told = module.UNSURE, f"{AT_LIMIT}: {told.rpartition('): ')[2]}"
    return kind, f"{name.replace('must-fail ', '', 1)}: {told}"


def unreadable(crate: Any, edit: Path) -> Optional[tuple[str, str]]:
    """What rt says of an edit that it cannot apply."""
    if rt().read_edit(str(edit), crate.folder)[1] is None:
        return None
    return class_of(crate, edit, subprocess.CompletedProcess([], 0, ""))
