"""The parts of .ci/quick: what can be run without a proof, and what of it the gate runs after
the proofs."""

from __future__ import annotations

import re
import shutil
from pathlib import Path

from here import ROOT

from side_by_side import Part

PROGRAM, LIBRARY = "program", "library"
PLACES = {PROGRAM: "crates/papi/out/papi", LIBRARY: "crates/papi_c/out/libpapi_c.a"}
MAKERS = (
    "make_pages",
    "make_presets",
    "make_calls",
    "make_tools",
    "make_limits",
    "make_definitions",
)
TESTS = ("crate_tests", "tool_tests")
TRIED = re.compile(r"^test result: \w+\. (\d+) passed; (\d+) failed", re.MULTILINE)  # of rt try
LONG = 1200  # seconds


def left_out(folder: str, names: list[str]) -> list[str]:
    """What is not copied: what git keeps, what rt made, and what Python compiled."""
    is_crate = Path(folder).parent == ROOT / "crates"
    return [
        name for name in names if name in (".git", "__pycache__") or (is_crate and name == "out")
    ]


def copy_tree(to: Path) -> None:
    """Copies this checkout, so that nothing that is compiled without a proof stands where what is
    proved stands."""
    shutil.copytree(ROOT, to, symlinks=True, ignore=left_out)


def placed(tree: Path, name: str, said: str) -> None:
    """Puts what was compiled, of which the last line is the path, where the parts look for it."""
    target = tree / PLACES[name]
    target.parent.mkdir(parents=True, exist_ok=True)
    shutil.copy(
        said.rstrip("\n").rpartition("\n")[2], target
    )  # (after all sources, so it is the newest)


def compiled(tree: Path, name: str) -> Part:
    command = ("tools/compile_unproved", name)
    return Part(
        name, command, ROOT, counts=False, seconds=LONG, then=lambda said: placed(tree, name, said)
    )


def tested(tree: Path, crate: str) -> Part:
    return Part(crate, ("rt", "try", "--test"), tree / "crates" / crate, seconds=LONG, count=TRIED)


def over_program(tree: Path, processors: int, program: str, library: str) -> list[Part]:
    """What runs over the program and the library, which these parts make; the longest first."""
    jobs, half, path = str(processors), max(1, processors // 2), PLACES[PROGRAM]
    first, both = tuple(filter(None, [program])), tuple(filter(None, [program, library]))
    check = ("tools/check", "--jobs", jobs)
    rows = ("checks/rows", "--program", path, "--jobs", str(half))
    return [
        Part("tools/check", check, tree, both, seconds=LONG, processors=half),
        Part("examples/c/check", ("examples/c/check",), tree, both, seconds=LONG),
        Part("checks/rows", rows, tree, first, processors=half),
        Part("checks/docs", ("checks/docs", path), tree, first),
        Part("checks/papi_header", ("checks/papi_header",), tree, (library,)),
        Part("examples/check", ("examples/check", path), tree, first),
    ]


def over_files(tree: Path) -> list[Part]:
    """What needs no program."""
    return [
        *(
            Part(f"tools/{name} --check", (f"tools/{name}", "--check"), tree, counts=False)
            for name in MAKERS
        ),
        Part(
            "tools/draw_crates --check",
            ("tools/draw_crates", "--check", "docs/crates.svg"),
            tree,
            counts=False,
        ),
        Part("checks/clauses", ("checks/clauses",), tree),
        Part("checks/declarations", ("checks/declarations",), tree),
    ]


def unproved_parts(tree: Path, processors: int) -> list[Part]:
    """All that runs without a proof, over a copy of the checkout."""
    first = [
        compiled(tree, PROGRAM),
        *(tested(tree, crate) for crate in TESTS),
        compiled(tree, LIBRARY),
    ]
    return [*first, *over_program(tree, processors, PROGRAM, LIBRARY), *over_files(tree)]


def proved_parts(processors: int) -> list[Part]:
    """What the gate has not run yet, over what it proved."""
    archive = Part("c/archive", ("c/archive", "--after-gate"), ROOT, counts=False, seconds=LONG)
    return [archive, *over_program(ROOT, processors, "", archive.name), *over_files(ROOT)]
