"""tools/plan: the fewest sets of events, beside minima known by hand and beside all ways to part
the events of drawn units."""

from __future__ import annotations

import json
import random
import subprocess
from itertools import combinations
from typing import Any, Iterator, Sequence
from unittest import mock

from parts.planning import fewest
from parts.planning.search import Steps, parted
from tests.support import ROOT, InFolder, all_of, run_tool, some
from tests.whole import needs_papi

LAB = ("--unit", str(ROOT / "examples/lab.unit"))
LAB_PRESETS = (*LAB, "--presets", str(ROOT / "examples/lab.presets"), "--cpu", "lab1")
SEED, UNITS = 20261202, 12

Natives = dict[str, frozenset[str]]  # of each event
Allowed = dict[str, frozenset[str]]  # counters of each native event


class Plans(InFolder):
    def plan(self, *words: str, status: int = 0) -> Any:
        done = run_tool("plan", "--json", *words)
        self.assertEqual(done.returncode, status, done.stderr)
        self.errors = done.stderr
        made = json.loads(done.stdout)
        self.assertEqual((made["format"], made["version"]), ("kistalub-plan", 1))
        return made

    def unit(self, counters: int, events: dict[str, Sequence[int]]) -> tuple[str, str]:
        """A unit with so many counters, and events on some of them."""
        rows = ["COMPONENT,cpu,x", *(f"COUNTER,C{number},48,P" for number in range(counters))]
        for code, (name, places) in enumerate(events.items()):
            on = " ".join(f"C{place}" for place in places)
            rows.append(f"EVENT,{name},{code % 256:02x},{on},Some event")
        return "--unit", self.write("x.unit", "\n".join(rows) + "\n")

    def presets(self, **natives: Sequence[str]) -> tuple[str, ...]:
        """User events that add these native events."""
        rows = (f"EVENT,{name},DERIVED_ADD,{','.join(some(natives[name]))}" for name in natives)
        return "--presets", self.write("x.presets", "\n".join(["CPU,x", *rows, ""])), "--cpu", "x"


def sizes(made: Any) -> list[list[int]]:
    return [[len(each["events"]) for each in run] for run in made["runs"]]


def events_of(made: Any) -> list[str]:
    return sorted(event for run in made["runs"] for each in run for event in each["events"])


@needs_papi
class ByHand(Plans):
    def check(self, made: Any, runs: int, at_least: int | None = None) -> None:
        found = (len(made["runs"]), made["least_runs"], made["is_least"])
        wanted = runs if at_least is None else at_least
        self.assertEqual(found, (runs, wanted, runs == wanted))
        self.assertEqual(events_of(made), sorted(made["events"]))

    def test_as_many_events_as_counters_and_one_more(self) -> None:
        """Any four fit on four counters, so 8 need 2 sets, 9 and 12 need 3, and 24 need 6."""
        words = self.unit(4, {f"E{number}": range(4) for number in range(24)})
        for events, runs in ((1, 1), (4, 1), (5, 2), (8, 2), (9, 3), (12, 3), (24, 6)):
            made = self.plan(*words, *(f"E{number}" for number in range(events)))
            self.check(made, runs)

    def test_what_one_after_another_misses(self) -> None:
        """Pairs of a path E0 - E1 - E2 - E3, each on one counter with the next one: E0 and E3 are
        added first and leave E1 and E2 one set each. Two sets are enough: E0 E2, E1 E3."""
        words = self.unit(3, {f"N{number}": [number] for number in range(3)} | {
            f"M{number}": [number] for number in range(3)
        })
        presets = self.presets(
            E0=["x::N0"], E1=["x::M0", "x::N1"], E2=["x::M1", "x::N2"], E3=["x::M2"]
        )
        made = self.plan(*words, *presets, "E0,E3", "E1", "E2")
        self.check(made, 2)
        sets = {frozenset(each["events"]) for run in made["runs"] for each in run}
        self.assertEqual(sets, {frozenset(("E0", "E2")), frozenset(("E1", "E3"))})

    def test_a_circle_of_five_needs_three(self) -> None:
        """Two neighbours share a counter, so two sets would colour a circle of odd length. No limit
        says that for itself."""
        words = self.unit(5, {f"N{place}_{side}": [place] for place in range(5) for side in (0, 1)})
        natives = {f"E{at}": [f"x::N{at}_0", f"x::N{(at + 1) % 5}_1"] for at in range(5)}
        made = self.plan(*words, *self.presets(**natives), *natives)
        self.check(made, 3)
        (component,) = made["components"]
        limits = component["reason"]["limits"]
        self.assertEqual(sorted(component["reason"]["events"]), sorted(natives))
        self.assertEqual(len(limits), 5)
        self.assertTrue(all_of(limits, lambda each: each["most"] == len(each["counters"]) == 1))

    def test_native_events_that_are_shared_count_once(self) -> None:
        """Four events of two native events each on two counters: all are made of the same two."""
        words = self.unit(2, {"A": [0, 1], "B": [0, 1]})
        same = {f"E{number}": ["x::A", "x::B"] for number in range(4)}
        self.check(self.plan(*words, *self.presets(**same), *same, "A", "B"), 1)

    def test_a_set_has_at_most_32_events(self) -> None:
        """One native event has room for all of them, and 33 events need two sets."""
        words = self.unit(1, {"A": [0]})
        presets = self.presets(**{f"E{number}": ["x::A"] for number in range(33)})
        made = self.plan(*words, *presets, *(f"E{number}" for number in range(33)))
        self.check(made, 2)
        (limit,) = made["components"][0]["reason"]["limits"]
        self.assertEqual((limit["most"], limit["counters"]), (32, []))
        self.check(self.plan(*words, *presets, *(f"E{number}" for number in range(32))), 1)

    def test_a_set_has_at_most_32_native_events(self) -> None:
        words = self.unit(32, {f"N{number}": range(32) for number in range(36)})
        natives = {f"E{at}": [f"x::N{4 * at + k}" for k in range(4)] for at in range(9)}
        made = self.plan(*words, *self.presets(**natives), *natives)
        self.check(made, 2)

    def test_components_count_at_one_time(self) -> None:
        made = self.plan(*LAB, "BR_INST", "BR_MISP", "PACKETS", "REF")
        self.check(made, 2)
        self.assertEqual(sizes(made), [[2, 1], [1]])
        self.assertEqual([each["component"] for each in made["runs"][0]], ["lab", "wire"])
        self.assertEqual(made["runs"][0][1]["counters"], {"wire::PACKETS": "M0"})

    def test_over_24_events_there_is_a_bound(self) -> None:
        """30 events of three native events each on four counters: one in a set. Ten each would be
        enough for the counters, so the bound of a limit for itself is lower."""
        words = self.unit(4, {f"N{number}": range(4) for number in range(90)})
        natives = {f"E{at}": [f"x::N{3 * at + k}" for k in range(3)] for at in range(30)}
        with mock.patch.object(fewest, "MOST_STEPS", 0):
            made = self.planned(*words, *self.presets(**natives), *natives)
        self.check(made, 30, 23)
        made = self.plan(*self.unit(4, {f"E{at}": range(4) for at in range(40)}), *(
            f"E{at}" for at in range(40)
        ))
        self.check(made, 10)

    def planned(self, unit: str, file: str, *words: str) -> Any:
        """In this process."""
        from parts.planning.output import as_json
        from parts.planning.plan import plan_of

        presets, events = words[:4], words[4:]
        plan = plan_of([f"-U{file}", f"-P{presets[1]}", f"-C{presets[3]}"], events)
        return json.loads(as_json(plan, file, presets[1], presets[3]))


@needs_papi
class Words(Plans):
    def test_refused_events(self) -> None:
        """The others are planned."""
        made = self.plan(*LAB_PRESETS, "PAPI_FOO", "CYCLES", "CYCLE", "PAPI_BR_PRC", status=1)
        self.assertEqual(made["events"], ["CYCLES"])
        codes = [(each["event"], each["code"]) for each in made["refused"]]
        wanted = [("PAPI_FOO", "PAPI_ENOEVNT"), ("CYCLE", "PAPI_ENOEVNT")]
        self.assertEqual(codes, [*wanted, ("PAPI_BR_PRC", "PAPI_ECNFLCT")])
        self.assertTrue(all_of(made["refused"], lambda each: each["hint"]))
        parts = ([each[name] for name in ("event", "code", "hint")] for each in made["refused"])
        lines = [": ".join(["plan", *part]) for part in parts]
        self.assertEqual(self.errors.splitlines(), lines)
        self.assertIn("(near: CYCLES)", lines[1])

    def test_all_are_refused(self) -> None:
        done = run_tool("plan", *LAB, "PAPI_TOT_INS")
        self.assertEqual((done.returncode, done.stdout), (1, ""))
        self.assertIn("PAPI_ENOEVNT", done.stderr)
        self.assertIn("--presets PRESETS and --cpu CPU name those", done.stderr)
        self.assertEqual(self.plan(*LAB, "PAPI_TOT_INS", status=1)["runs"], [])

    def test_over_ten_refused_events_have_hints(self) -> None:
        made = self.plan(*LAB, *(f"NO{number}" for number in range(12)), status=1)
        self.assertEqual(len(made["refused"]), 12)
        self.assertTrue(all_of(made["refused"], lambda each: each["hint"]))

    def test_names_of_one_event(self) -> None:
        made = self.plan(*LAB, "BR_INST", "lab::BR_INST:ALL", "BR_INST", "br_inst:all")
        self.assertEqual(made["events"], ["BR_INST"])
        same = {"lab::BR_INST:ALL": "BR_INST", "br_inst:all": "BR_INST"}
        self.assertEqual(made["same"], same)
        said = run_tool("plan", *LAB, "BR_INST", "BR_INST:ALL").stdout
        self.assertIn("BR_INST:ALL is BR_INST, and counted once\n", said)

    def test_words_and_files_that_are_refused(self) -> None:
        unit = self.write("bad.unit", "COMPONENT,cpu,x\nCOUNTER,C0,8,P\n")
        for words, line in (
            (("CYCLES",), "error: the following arguments are required: --unit"),
            ((*LAB, "--cpu", "x", "CYCLES"), "error: --presets and --cpu go together"),
            (("--unit", unit, "CYCLES"), f"plan: {unit}: row 2: width out of range"),
            (("--unit", "none.unit", "CYCLES"), "plan: no such file: none.unit"),
        ):
            done = run_tool("plan", *words)
            self.assertEqual((done.returncode, done.stdout), (2, ""), words)
            self.assertIn(line, done.stderr)
        for name in ("a b", "", "a,,b", "\u00e9"):
            done = run_tool("plan", *LAB, name)
            self.assertEqual((done.returncode, done.stdout), (1, ""), name)
            self.assertIn("is no name of an event", done.stderr)
        many = run_tool("plan", *LAB, ",".join(f"E{number}" for number in range(513)))
        self.assertEqual(many.stderr, "plan: 513 events, and at most 512 are planned\n")


@needs_papi
class Text(Plans):
    def test_what_to_set(self) -> None:
        """What is said of a program's environment is what the runs are."""
        core = str(ROOT / "examples/page/core.unit")
        names = ["INSTRUCTIONS", "MEMORY:LOADS", "MEMORY:STORES", "L1D_MISS", "BRANCH_ERRED"]
        lines = run_tool("plan", "--unit", core, *names).stdout.splitlines()
        self.assertEqual(lines[0], "5 events in 2 runs, and not in fewer")
        runs = [line.partition(": ")[2].split() for line in lines if line.startswith("run ")]
        self.assertEqual(sorted(sum(runs, [])), sorted(names))
        settings = [line for line in lines if line.startswith("  PAPI_EVENTS=")]
        self.assertEqual(settings, [f"  PAPI_EVENTS={','.join(run)}" for run in runs])
        self.assertEqual(lines[-1], f"  --events {','.join(names)}")
        events = "MEMORY:LOADS, MEMORY:STORES and L1D_MISS"
        why = lines.index(f"Not fewer: {events} need 2 sets. Of these native events a set takes")
        natives = "core::L1D_MISS:ALL, core::MEMORY:LOADS and core::MEMORY:STORES"
        allowed = "which are allowed P0 and P1 and no others"
        self.assertEqual(lines[why + 1], f"  at most 2 of {natives}, {allowed}")

    def test_a_set_of_each_component(self) -> None:
        said = run_tool("plan", *LAB, "CYCLES", "PACKETS").stdout
        self.assertIn("2 events in 1 run\n\nrun 1: CYCLES + PACKETS\n", said)
        self.assertIn("  PAPI_EVENTS=CYCLES,PACKETS\n", said)
        self.assertIn("of the events of that run, and one more behind each +\n", said)


class Drawn:
    """A unit that is drawn, and what fits over it, by trying all that there is."""

    def __init__(self, draws: random.Random):
        self.counters = draws.randint(1, 4)
        places = range(self.counters)
        self.allowed = {
            f"x::N{at}": frozenset(draws.sample(places, draws.randint(1, self.counters)))
            for at in range(draws.randint(2, 8))
        }
        self.natives = {
            f"E{at}": frozenset(draws.sample(sorted(self.allowed), draws.choice((1, 1, 2))))
            for at in range(draws.randint(1, 7))
        }

    def rows(self) -> dict[str, Sequence[int]]:
        return {name.partition("::")[2]: sorted(on) for name, on in self.allowed.items()}

    def fits(self, events: Sequence[str]) -> bool:
        natives = sorted(frozenset[str]().union(*(self.natives[event] for event in events)))
        return self._has_places(natives, frozenset())

    def _has_places(self, natives: Sequence[str], taken: frozenset[int]) -> bool:
        if not natives:
            return True
        free = self.allowed[natives[0]] - taken
        return any(self._has_places(natives[1:], taken | {place}) for place in free)

    def fewest(self, events: tuple[str, ...]) -> int:
        """The first event is in one of the sets, with some of the others."""
        if not events:
            return 0
        first, others = events[0], events[1:]
        return min(1 + self.fewest(rest) for rest in self._rests(first, others))

    def _rests(self, first: str, others: tuple[str, ...]) -> Iterator[tuple[str, ...]]:
        for count in range(len(others) + 1):
            for chosen in combinations(others, count):
                if self.fits([first, *chosen]):
                    yield tuple(event for event in others if event not in chosen)


@needs_papi
class BesideAllWays(Plans):
    def test_drawn_units(self) -> None:
        draws = random.Random(SEED)
        for number in range(UNITS):
            drawn = Drawn(draws)
            natives = {event: sorted(drawn.natives[event]) for event in drawn.natives}
            words = (*self.unit(drawn.counters, drawn.rows()), *self.presets(**natives))
            alone = tuple(event for event in natives if drawn.fits([event]))
            made = self.plan(*words, *natives, status=int(len(alone) < len(natives)))
            wanted = drawn.fewest(alone)
            told = (len(made["runs"]), made["least_runs"], made["is_least"])
            self.assertEqual(told, (wanted, wanted, True), (number, natives, drawn.allowed))
            self.assertEqual(events_of(made), sorted(alone))
            for (each,) in made["runs"]:
                self.assertTrue(drawn.fits(each["events"]))
                self.check_counters(drawn, each)
            if wanted > 1:
                self.check_reason(drawn, made["components"][0]["reason"], wanted)

    def check_counters(self, drawn: Drawn, each: Any) -> None:
        natives = frozenset[str]().union(*(drawn.natives[event] for event in each["events"]))
        self.assertEqual(set(each["counters"]), natives)
        on = {native: int(counter[1:]) for native, counter in each["counters"].items()}
        self.assertEqual(len(set(on.values())), len(natives))
        self.assertTrue(all_of(natives, lambda native: on[native] in drawn.allowed[native]))

    def check_reason(self, drawn: Drawn, reason: Any, wanted: int) -> None:
        """Its events need so many sets, and fewer do not; its limits are those of the counters."""
        events = tuple(reason["events"])
        self.assertEqual(drawn.fewest(events), wanted)
        for event in events:
            self.assertLess(drawn.fewest(tuple(each for each in events if each != event)), wanted)
        for limit in some(reason["limits"]):
            counters = {int(counter[1:]) for counter in limit["counters"]}
            self.assertEqual(len(counters), limit["most"])
            allowed = (drawn.allowed[native] for native in limit["natives"])
            self.assertTrue(all_of(allowed, lambda on: on <= counters))

    def test_a_bound_holds_also_where_few_ways_are_tried(self) -> None:
        from parts.planning.asking import Program

        draws = random.Random(SEED + 1)
        for _ in range(UNITS // 2):
            drawn = Drawn(draws)
            natives = {event: sorted(drawn.natives[event]) for event in drawn.natives}
            words = (*self.unit(drawn.counters, drawn.rows()), *self.presets(**natives))
            alone = {event: drawn.natives[event] for event in natives if drawn.fits([event])}
            if not alone:
                continue
            files = [f"-U{words[1]}", f"-P{words[3]}", "-Cx"]
            with mock.patch.multiple(fewest, MOST_EXACT=0, MOST_STEPS=2, MOST_ROUNDS=1):
                found = fewest.Component(Program(files), alone).fewest()
            wanted = drawn.fewest(tuple(alone))
            self.assertLessEqual(found.at_least, wanted)
            self.assertGreaterEqual(len(found.sets), wanted)


class Searches(InFolder):
    def test_pairs_that_are_not_in_one_set(self) -> None:
        """Each bit is a native event, each limit a counter: a circle of five, and one of four."""
        for length, sets in ((4, 2), (5, 3), (7, 3)):
            circle = [1 << 2 * at | 2 << 2 * ((at + 1) % length) for at in range(length)]
            limits = [(3 << 2 * at, 1) for at in range(length)]
            self.assertIsNone(parted(circle, limits, sets - 1, Steps()))
            found = parted(circle, limits, sets, Steps())
            assert found is not None
            self.assertEqual(sorted(sum(found, [])), list(range(length)))
            for places in found:
                self.assertTrue(all_of(places, lambda at: (at + 1) % length not in places))


@needs_papi
class AsTheProgramSays(Plans):
    def test_each_set_is_taken_as_a_script_makes_it(self) -> None:
        made = self.plan(*LAB_PRESETS, "CYCLES", "BR_INST", "BR_MISP", "CACHE", "MEM:LOADS",
                         "PAPI_TOT_INS", "PAPI_LST_INS")  # fmt: skip
        lines = []
        for number, run in enumerate(made["runs"]):
            lines += ["0 create", *(f"0 add {number} {event}" for event in run[0]["events"])]
        script = self.write("script", "".join(f"{line}\n" for line in lines))
        words = ["-U", LAB[1], "-P", LAB_PRESETS[3], "-C", "lab1", script]
        replies = subprocess.run(
            [str(ROOT / "bin/papi_run"), *words], capture_output=True, text=True
        ).stdout.splitlines()
        self.assertEqual(len(replies), len(lines))
        self.assertTrue(all_of(replies, lambda reply: " PAPI_OK" in reply))
