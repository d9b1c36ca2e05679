"""A fixture for pytest: what a block counts beside a baseline. docs/PYTHON.md shows it.

    def test_sort(counting):
        with counting("PAPI_TOT_INS"):
            sorted(words)
"""

from __future__ import annotations

import gc
import os
import sys
import warnings
from contextlib import ExitStack, contextmanager
from pathlib import Path
from typing import Iterator, Mapping

import pytest

from .baseline import Baseline, FaultyBaseline
from .errors import ENOEVNT, PapiError
from .event_set import EventSet
from .library import Library, is_begun
from .limits import checked, is_over

OPTION = "--update-counts"
PROBE = "PAPI_TOT_INS"  # counts wherever something does
RUN = "tools/count python3 -m pytest counts what Python does (docs/PYTHON.md)"


def pytest_addoption(parser: pytest.Parser) -> None:
    group = parser.getgroup("kistalub", "counts of blocks")
    group.addoption(OPTION, action="store_true", help="write what blocks count to the baseline")
    parser.addini(
        "counts_file", "the baseline, from the root of the tests on", default="counts.json"
    )
    parser.addini(
        "counts_limit", "how much more a block may count (2%), as in tools/compare", default="2%"
    )


def _why_nothing_counts(stack: ExitStack) -> str:
    """Why nothing counts here, or an empty text. A library that is begun ends with the stack."""
    try:
        if not is_begun():
            stack.enter_context(Library())
        with EventSet(PROBE) as events, events.counting() as counts:
            for _ in range(100):
                pass
    except ENOEVNT:
        return f"the unit has no {PROBE}, by which one sees whether something counts"
    except (OSError, ImportError, PapiError) as error:
        return str(error)
    return "" if counts[PROBE] > 0 else f"nothing counts here: {RUN}"


@pytest.fixture(scope="session")
def _why_no_counts() -> Iterator[str]:
    """Why nothing counts. The library of the environment is begun for all tests."""
    with ExitStack() as stack:
        reason = _why_nothing_counts(stack)
        if not reason and sys.flags.hash_randomization:
            text = "kistalub: counts move with the hashes of texts: run with PYTHONHASHSEED=0"
            warnings.warn(pytest.PytestWarning(text))
        yield reason


class Counting:
    """Counts blocks of one test."""

    def __init__(self, test: str, config: pytest.Config):
        self._test = test
        self._update = bool(config.getoption(OPTION))
        self._limit = checked(str(config.getini("counts_limit")))
        self._baseline = Baseline(
            Path(os.path.join(config.rootpath, str(config.getini("counts_file"))))
        )
        self._names: set[str] = set()

    @contextmanager
    def __call__(
        self,
        *events: str,
        name: str = "",
        limit: str | None = None,
        limits: Mapping[str, str] | None = None,
    ) -> Iterator[dict[str, int]]:
        """Counts a block: `with counting("PAPI_TOT_INS") as counts:`, which `counts` has then.

        A block after the first one of a test has a `name`. `limit` is for all events, and `limits`
        for some of them. The test fails if a count is over its limit, or has no baseline. While
        the block runs, nothing collects garbage, which would come now in one block and now in
        another.
        """
        own = {event: checked(text) for event, text in (limits or {}).items()}
        usual = checked(limit) if limit is not None else self._limit
        block = f"{self._test} {name}".rstrip()
        if block in self._names:
            raise ValueError(
                f"kistalub: {block} is counted twice: counting(.., name=..) tells blocks apart"
            )
        self._names.add(block)
        if not events or not set(own) <= set(events):
            raise ValueError("kistalub: counting(..) names events, and limits are of these")
        counts: dict[str, int] = {}
        with EventSet(*events) as made, _without_collections():
            made.start()
            yield counts
            counts.update(made.stop())
        self._judge(block, counts, {event: own.get(event, usual) for event in events})

    def _judge(self, block: str, counts: dict[str, int], limits: dict[str, str]) -> None:
        try:
            if self._update:
                self._baseline.put(block, counts)
                return
            base = self._baseline.counts_of(block)
            python = self._baseline.python()
        except (FaultyBaseline, OSError) as error:
            pytest.fail(f"kistalub: {error}", pytrace=False)
        if base is None or set(base) != set(counts):
            have = "no counts" if base is None else "counts of other events"
            pytest.fail(
                f"kistalub: {self._baseline.path} has {have} for {block}: {OPTION} writes them",
                pytrace=False,
            )
        lines = [
            _line(event, base[event], counts[event], limits[event])
            for event in counts
            if is_over(limits[event], base[event], counts[event])
        ]
        if lines:
            pytest.fail(
                "\n".join(
                    [
                        f"kistalub: {block} costs more than in {self._baseline.path}, "
                        f"which is of Python {python}:",
                        *lines,
                    ]
                ),
                pytrace=False,
            )


def _line(event: str, base: int, new: int, limit: str) -> str:
    percent = f", {100 * (new - base) / base:+.2f} %" if base > 0 else ""
    return f"  {event}: {base:,} before, {new:,} now: {new - base:+,}{percent}, over {limit}"


@contextmanager
def _without_collections() -> Iterator[None]:
    """Nothing collects garbage in the block."""
    was_enabled = gc.isenabled()
    gc.collect()
    gc.disable()
    try:
        yield
    finally:
        if was_enabled:
            gc.enable()


@pytest.fixture
def counting(request: pytest.FixtureRequest, _why_no_counts: str) -> Counting:
    """Counts of `with` blocks beside a baseline. The test is skipped where nothing counts."""
    if _why_no_counts:
        pytest.skip(f"kistalub: {_why_no_counts}")
    return Counting(request.node.nodeid, request.config)
