"""checks/steps: what it draws, what it takes for a difference, and that none goes by without a
row."""

from __future__ import annotations

import contextlib
import io
import random
import shutil
import sys
import unittest
from importlib.machinery import SourceFileLoader
from importlib.util import module_from_spec, spec_from_loader
from pathlib import Path
from types import SimpleNamespace
from typing import Any, Callable
from unittest import mock

import step_sides
from formats.scripts import CALLS
from papi7 import NotInstalled
from step_kinds import KINDS, Difference, kind_of, outcome_of, read_kinds
from step_scripts import NATIVES, NO_EVENTS, WEIGHTS, Script, draw
from step_sides import CRASH, NO_END, Here, Papi, Reply, compared
from step_state import Model
from tests.support import ROOT, InFolder, all_of

OK = Reply("PAPI_OK")
INVALID = Reply("PAPI_EINVAL")
START: Script = ("0 create", "0 add 0 perf::TASK-CLOCK", "0 start 0")


def read_check() -> Any:
    loader = SourceFileLoader("steps", str(ROOT / "checks/steps"))
    spec = spec_from_loader("steps", loader)
    assert spec is not None
    module = module_from_spec(spec)
    sys.modules["steps"] = module
    loader.exec_module(module)
    return module


def reply(line: str) -> Reply:
    return Reply("PAPI_OK", "0") if " create" in line else OK


def replies(script: Script) -> list[Reply]:
    """Each call does its work; each thread has one set."""
    return [reply(line) for line in script]


def words_before(*lines: str) -> set[str]:
    """What is so at the last line, if all calls do their work."""
    model = Model()
    for line in lines[:-1]:
        model.after(line, False, "0")
    return model.words(lines[-1])


class Drawing(unittest.TestCase):
    def test_the_same_seed_draws_the_same_scripts(self) -> None:
        first = [draw(7, number) for number in range(20)]
        random.seed(1)
        self.assertEqual([draw(7, number) for number in range(20)], first)
        self.assertEqual(len(set(first)), 20)
        self.assertFalse(set(first) & {draw(8, number) for number in range(20)})

    def test_every_call_of_papi_is_drawn(self) -> None:
        self.assertEqual(set(CALLS) - set(WEIGHTS), {"assign", "raw"})
        drawn = {line.split()[1] for number in range(100) for line in draw(1, number)}
        self.assertEqual(drawn, set(WEIGHTS))

    def test_a_line_has_the_words_of_its_call(self) -> None:
        lines = [line.split() for number in range(50) for line in draw(2, number)]
        self.assertTrue(all_of(lines, lambda words: len(words) == 2 + len(CALLS[words[1]])))


class States(unittest.TestCase):
    def test_of_a_set(self) -> None:
        self.assertEqual(words_before("0 start 0"), {"absent"})
        self.assertEqual(words_before("0 create", "0 start 0"), {"known", "empty", "unbound"})
        self.assertEqual(words_before(*START, "0 stop 0"), {"known", "counting", "running"})
        stopped = words_before(*START, "0 stop 0", "0 multiplex 0 1", "0 read 0")
        self.assertEqual(stopped, {"known", "multiplexed"})
        emptied = words_before(*START[:2], "0 cleanup 0", "0 read 0")
        self.assertEqual(emptied, {"known", "empty", "unbound"})

    def test_of_an_event(self) -> None:
        add = ("0 create", "0 add 0 perf::PAGE-FAULTS")
        armed = (*add, "0 overflow 0 perf::PAGE-FAULTS 1000")
        self.assertIn("a member", words_before(*add, add[1]))
        self.assertIn("beside a threshold", words_before(*armed, "0 add 0 PAPI_TOT_INS"))
        own = words_before(*armed, "0 overflow 0 perf::PAGE-FAULTS 0")
        self.assertTrue({"with a threshold of its own", "zero"} <= own)
        self.assertNotIn("beside a threshold", own)
        self.assertIn("of another component", words_before(*add, "0 add 0 sde:::steps::ONE"))
        self.assertIn("derived", words_before("0 code SUM"))
        gone = words_before(*armed, "0 overflow 0 perf::PAGE-FAULTS 0", "0 read 0")
        self.assertNotIn("with a threshold", gone)

    def test_of_a_set_whose_events_move(self) -> None:
        two = ("0 create", "0 add 0 perf::CPU-CLOCK", "0 add 0 PAPI_TOT_INS")
        last = words_before(*two, "0 remove 0 PAPI_TOT_INS", "0 read 0")
        first = words_before(*two, "0 remove 0 perf::CPU-CLOCK", "0 read 0")
        self.assertEqual(("moved" in last, "moved" in first), (False, True))
        emptied = (*two, "0 remove 0 perf::CPU-CLOCK", "0 cleanup 0", "0 read 0")
        self.assertNotIn("moved", words_before(*emptied))
        own = words_before("0 create", "0 add 0 OWN", "0 remove 0 OWN", "0 read 0")
        self.assertIn("moved", own)

    def test_a_refused_event_binds_the_set_in_papi(self) -> None:
        model = Model()
        model.after("0 create", False, "0")
        model.after("0 add 0 PAPI_BR_INS", True)
        self.assertIn("bound by a refusal", model.words("0 add 0 sde:::steps::ONE"))

    def test_of_a_thread(self) -> None:
        model = Model()
        for line in (*START, "1 register", "1 unregister"):
            model.after(line, False, "0")
        self.assertEqual(model.lists(), ("0", ""))
        model.after("0 unregister", False)
        self.assertEqual(model.words("0 events 0"), {"lost", "counting", "running"})


class Comparing(unittest.TestCase):
    def differences(self, script: Script, place: int, papi: Reply, here: Reply) -> list[Difference]:
        """What differs if the call at a place has these replies."""
        one, other = replies(script), replies(script)
        one[place], other[place] = papi, here
        return outcome_of(script, one, other).found

    def test_a_made_up_code_is_seen(self) -> None:
        self.assertEqual(outcome_of(START, replies(START), replies(START)).found, [])
        (found,) = self.differences(START, 2, INVALID, OK)
        self.assertEqual((found.script, found.call, found.parts_ways), (START, "start", True))
        self.assertIsNone(kind_of(found))

    def test_what_a_call_gives_is_seen(self) -> None:
        script = (*START, "0 events 0")
        papi, here = Reply("PAPI_OK", "perf::TASK-CLOCK"), Reply("PAPI_OK", "perf::CPU-CLOCK")
        (found,) = self.differences(script, 3, papi, here)
        self.assertFalse(found.parts_ways)
        self.assertIsNone(kind_of(found))

    def test_a_kind_is_of_its_calls_its_codes_and_what_is_so(self) -> None:
        empty: Script = ("0 create", "0 start 0")
        (found,) = self.differences(empty, 1, Reply("PAPI_ENOCMP"), INVALID)
        kind = kind_of(found)
        assert kind is not None
        self.assertEqual(kind.row, "start of a set without events")
        for other in (Reply("PAPI_ECNFLCT"), Reply(CRASH)):
            (found,) = self.differences(empty, 1, other, INVALID)
            self.assertIsNone(kind_of(found))
        (found,) = self.differences(START, 2, Reply("PAPI_ENOCMP"), INVALID)
        self.assertIsNone(kind_of(found))

    def test_two_refusals_do_not_part_the_sides(self) -> None:
        for papi, parts in (
            (Reply("PAPI_ENOCMP"), False),
            (Reply(CRASH), True),
            (Reply(NO_END), True),
        ):
            (found,) = self.differences(("0 create", "0 start 0"), 1, papi, INVALID)
            self.assertEqual(found.parts_ways, parts)

    def test_each_list_of_threads_is_to_be_right(self) -> None:
        script: Script = ("0 create", "1 register", "1 threads")
        right = (Reply("PAPI_OK", "0 1"), Reply("PAPI_OK", "1"))
        for papi, here, is_told in (
            (*right, True),
            (right[1], right[0], False),
            (right[0], OK, False),
        ):
            (found,) = self.differences(script, 2, papi, here)
            self.assertEqual(kind_of(found) is not None, is_told)

    def test_counts_and_codes_of_native_events_are_not_compared(self) -> None:
        self.assertEqual(compared("run", "PAPI_OK", "3 0"), OK)
        self.assertEqual(
            compared("code", "PAPI_OK", "0x40000007"), compared("code", "PAPI_OK", "0x40000000")
        )
        self.assertEqual(compared("code", "PAPI_OK", "0x80000032").gives, "0x80000032")
        self.assertEqual(compared("read", "PAPI_EINVAL", "1"), INVALID)
        line = "3 0 read PAPI_OK 700 0".split()
        self.assertEqual(Here.reply(line), Reply("PAPI_OK", "2"))
        events = Here.reply("3 0 events PAPI_OK perf::CS steps::ONE".split())
        self.assertEqual(events.gives, "perf::CS sde:::steps::ONE")


class Kinds(unittest.TestCase):
    def test_each_line_is_read(self) -> None:
        (kind,) = read_kinds("# about\nrow; add stop; PAPI_OK|PAPI_ESYS; *; a, not b\n")
        self.assertTrue(kind.has("stop", "PAPI_ESYS", "PAPI_EINVAL", {"a", "c"}))
        refused = (
            ("start", "PAPI_OK", {"a"}),
            ("add", "PAPI_EBUG", {"a"}),
            ("add", "PAPI_OK", set()),
            ("add", "PAPI_OK", {"a", "b"}),
        )
        self.assertFalse(
            any([kind.has(call, papi, "PAPI_OK", words) for call, papi, words in refused])
        )

    def test_they_are_of_calls_that_are_drawn(self) -> None:
        self.assertTrue(all_of(KINDS, lambda kind: set(kind.calls.split()) <= set(WEIGHTS)))
        self.assertEqual(len(set(KINDS)), len(KINDS))


class Whole(InFolder):
    """The check over sides that are made up: each call does its work, but for what is said."""

    def setUp(self) -> None:
        super().setUp()
        self.check = read_check()

    def ended(self, odd: Callable[[Script, str], Reply | None], **words: object) -> tuple[int, str]:
        """The status and the output if our side replies something odd to some lines."""
        papi = SimpleNamespace(carry_out=lambda scripts: [replies(script) for script in scripts])
        ours = lambda script: [odd(script, line) or reply(line) for line in script]  # noqa: E731
        usual = {
            "seed": 1,
            "scripts": 3,
            "script": None,
            "jobs": 1,
            "examples": False,
            "document": self.check.DOCUMENT,
        }
        with contextlib.redirect_stdout(io.StringIO()) as said, self.assertRaises(
            SystemExit
        ) as end:
            self.check.work(
                SimpleNamespace(**{**usual, **words}), papi, SimpleNamespace(carry_out=ours)
            )
        return end.exception.code, said.getvalue()

    def test_sides_that_are_alike_pass(self) -> None:
        status, said = self.ended(lambda script, line: None)
        self.assertEqual(status, 0)
        self.assertRegex(said, r"\n[1-9]\d* passed, 0 failed\n$")
        self.assertNotIn("NO ROW", said)

    def test_a_difference_without_a_row_fails_and_is_shown_by_its_shortest_script(self) -> None:
        status, said = self.ended(
            lambda script, line: Reply("PAPI_EBUG") if " reset " in line else None, scripts=20
        )
        self.assertEqual(status, 1)
        self.assertRegex(
            said, r"NOT TOLD  reset \(.*\): PAPI_OK in PAPI, PAPI_EBUG here\n    \d reset \d+\n"
        )
        failed = int(said.rstrip().rsplit(" passed, ", 1)[1].split()[0])
        calls = sum(" reset " in line for number in range(1, 21) for line in draw(1, number))
        self.assertEqual(failed, calls)

    def test_the_shortest_script_has_what_the_difference_needs(self) -> None:
        """Here a set that was reset cannot be read."""

        def odd(script: Script, line: str) -> Reply | None:
            before = script[: script.index(line)]
            return (
                INVALID if " read " in line and any(" reset " in each for each in before) else None
            )

        _, said = self.ended(odd, scripts=20)
        self.assertRegex(said, r"NOT TOLD  read .*\n    \d reset \d+\n    \d read \d+\n *\d+  ")

    def test_what_comes_after_a_difference_is_compared(self) -> None:
        """Each call that differs is left out, and the others are compared without it."""
        script: Script = ("0 create", "0 read 0", "0 reset 0", "0 read 0", "0 stop 0")
        asked: list[Script] = []

        def carry(script: Script) -> object:
            asked.append(script)
            here = [INVALID if " read " in line else reply(line) for line in script]
            return outcome_of(script, replies(script), here)

        settled = self.check.settle(carry, script)
        self.assertEqual([len(each.script) for each in settled.found], [2, 3])
        self.assertEqual(asked[-1], ("0 create", "0 reset 0", "0 stop 0"))
        self.assertEqual(len(settled.words), len(script))

    def test_a_kind_without_a_row_fails(self) -> None:
        document = Path(self.write("document.md", "| Calls | PAPI 7 |\n"))
        status, said = self.ended(lambda script, line: None, document=document)
        self.assertEqual((status, said.count(" NO ROW\n")), (1, len(KINDS)))

    def test_without_papi_it_is_skipped(self) -> None:
        with mock.patch.object(self.check, "Papi", side_effect=NotInstalled("no PAPI")):
            with contextlib.redirect_stdout(io.StringIO()) as said:
                self.check.check(SimpleNamespace(program=None))
        self.assertEqual(said.getvalue(), "check: skipped: no PAPI\n")


class OfPapi(InFolder):
    def setUp(self) -> None:
        super().setUp()
        try:
            self.papi = Papi(self.folder)
        except NotInstalled as reason:
            self.skipTest(str(reason))

    def test_real_calls(self) -> None:
        script = (
            *START,
            "0 start 0",
            "0 read 0",
            "0 events 0",
            "0 state 0",
            "1 state 0",
            "0 threads",
        )
        (came,) = self.papi.carry_out([script])
        wanted = [
            "PAPI_OK 0",
            "PAPI_OK",
            "PAPI_OK",
            "PAPI_EISRUN",
            "PAPI_OK 1",
            "PAPI_OK perf::TASK-CLOCK",
        ]
        self.assertEqual(
            list(map(str, came)), [*wanted, "PAPI_OK 0x02", "PAPI_ENOEVST", "PAPI_OK 0"]
        )

    def test_each_script_begins_anew_and_a_crash_ends_one(self) -> None:
        crash: Script = ("0 create", "0 remove 0 perf::TASK-CLOCK", "0 create")
        came = self.papi.carry_out([crash, ("0 create",)])
        self.assertEqual(
            [[each.code for each in replies] for replies in came], [["PAPI_OK", CRASH], ["PAPI_OK"]]
        )

    def test_presets_user_events_and_software_defined_events(self) -> None:
        for event in (*NATIVES, "sde:::steps::TWO"):
            (came,) = self.papi.carry_out([("0 create", f"0 add 0 {event}", "0 events 0")])
            self.assertEqual(list(map(str, came)), ["PAPI_OK 0", "PAPI_OK", f"PAPI_OK {event}"])

    def test_names_of_no_event_are_refused(self) -> None:
        for event in NO_EVENTS:
            (came,) = self.papi.carry_out([("0 create", f"0 add 0 {event}")])
            self.assertNotEqual(came[1].code, "PAPI_OK", event)


class WithoutPapi(InFolder):
    def test_why_it_is_skipped(self) -> None:
        with mock.patch.object(step_sides, "HEADER", "/absent"), self.assertRaisesRegex(
            NotInstalled, "libpapi-dev|C compiler"
        ):
            Papi(self.folder)
        with mock.patch.object(shutil, "which", return_value=None), self.assertRaisesRegex(
            NotInstalled, "C compiler"
        ):
            Papi(self.folder)
