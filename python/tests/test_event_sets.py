"""Event sets: counts, refusals, handlers, turns, domains and threads, over the lab unit."""

from __future__ import annotations

import importlib.util
import pickle
import threading
import unittest
import weakref
from array import array

from shared_library import EXAMPLES, UNIT, OverLibrary

import kistalub
from kistalub import Domain, EventSet, Library

FIRST = EXAMPLES / "c/first.stream"  # two instructions, and seven cycles between them
# eight occurrences of 255 instructions, at the addresses 1 to 8
LARGE = EXAMPLES / "c/overflow.stream"


class Counting(OverLibrary):
    def test_counts_are_dictionaries_in_the_order_of_the_events(self) -> None:
        with Library(UNIT, stream=FIRST), EventSet("CYCLES", "INST_RETIRED") as events:
            events.start()
            self.assertTrue(events.running)
            self.assertEqual(kistalub.go(2), 2)
            self.assertEqual(list(events.read().items()), [("CYCLES", 7), ("INST_RETIRED", 1)])
            self.assertEqual(kistalub.go(), 1)
            self.assertEqual(events.stop(), {"CYCLES": 7, "INST_RETIRED": 2})
            self.assertFalse(events.running)

    def test_a_block_of_counting(self) -> None:
        with Library(UNIT, stream=FIRST), EventSet("INST_RETIRED") as events:
            with events.counting() as counts:
                kistalub.go(1)
                self.assertEqual(counts, {})
            self.assertEqual(counts, {"INST_RETIRED": 1})
            with self.assertRaises(KeyError), events.counting() as counts:
                kistalub.go()
                raise KeyError
            self.assertEqual((counts, events.running), ({"INST_RETIRED": 1}, False))

    def test_counts_are_added_and_zeroed(self) -> None:
        with Library(UNIT, stream=LARGE), EventSet("INST_RETIRED") as events:
            totals = {"INST_RETIRED": 1000, "other": 3}
            events.start()
            kistalub.go(2)
            events.accumulate(totals)
            self.assertEqual(totals, {"INST_RETIRED": 1510, "other": 3})
            kistalub.go(1)
            self.assertEqual(events.read(), {"INST_RETIRED": 255})
            events.reset()
            self.assertEqual(events.stop(), {"INST_RETIRED": 0})

    def test_events_of_a_set(self) -> None:
        with Library(UNIT, stream=FIRST), EventSet() as events:
            events.add("INST_RETIRED", "REF", "CYCLES")
            events.remove("REF")
            self.assertEqual(
                (len(events), list(events), "REF" in events, "CYCLES" in events),
                (2, ["INST_RETIRED", "CYCLES"], False, True),
            )
            with events.counting() as counts:
                kistalub.go()
            self.assertEqual(counts, {"INST_RETIRED": 2, "CYCLES": 7})
            self.assertEqual(repr(events), "EventSet('INST_RETIRED', 'CYCLES')")

    def test_domains(self) -> None:
        stream = self.stream("0 c0 00 u 3 1", "0 c0 00 k 5 2")
        for domain, wanted in (
            (None, 3), (Domain.USER, 3), (Domain.KERNEL, 5), (Domain.USER | Domain.KERNEL, 8),
        ):
            with Library(UNIT, stream=stream), EventSet("INST_RETIRED", domain=domain) as events:
                with events.counting() as counts:
                    kistalub.go()
                self.assertEqual(counts, {"INST_RETIRED": wanted}, domain)

    def test_a_multiplexed_set_estimates(self) -> None:
        """Branches and mispredictions by turns of two ticks: each group sees two of its four, in
        half of the time."""
        with Library(UNIT, stream=EXAMPLES / "c/multiplex.stream"), EventSet(
            "BR_INST", "BR_MISP", multiplexed=True, slice_ns=2
        ) as events:
            with events.counting() as counts:
                kistalub.go()
            self.assertEqual(counts, {"BR_INST": 4, "BR_MISP": 4})

    def test_presets(self) -> None:
        with Library(UNIT, presets=EXAMPLES / "lab.presets", cpu="lab2", stream=FIRST), EventSet(
            "PAPI_RES_STL"
        ) as events:
            with events.counting() as counts:
                kistalub.go()
            self.assertEqual(counts, {"PAPI_RES_STL": 5})  # cycles less instructions


class Names(OverLibrary):
    """Names are those of PAPI: in any case, with their component or without it."""

    def test_events_by_any_of_their_names(self) -> None:
        with Library(UNIT, stream=FIRST), EventSet("inst_retired", "lab::CYCLES") as events:
            for name in (
                "INST_RETIRED", "inst_retired", "lab::Inst_Retired", "cycles", "LAB::CYCLES",
            ):
                self.assertIn(name, events)
            for name in ("REF", "NO_SUCH", "INST_RETIRED:u", "", "CYCLES\0", 7, None):
                self.assertNotIn(name, events)
            events.remove("INST_RETIRED")
            with events.counting() as counts:
                kistalub.go()
            self.assertEqual((counts, list(events)), ({"lab::CYCLES": 7}, ["lab::CYCLES"]))

    def test_a_handler_is_told_the_name_of_the_set(self) -> None:
        told: list[str] = []
        with Library(UNIT, stream=LARGE), EventSet("inst_retired") as events:
            events.on_overflow("lab::INST_RETIRED", 2000, lambda name, address: told.append(name))
            events.start()
            kistalub.go()
            events.stop()
            events.end_overflow("INST_RETIRED")
        self.assertEqual(told, ["inst_retired"])

    def test_a_removed_event_has_no_handler_when_it_is_added_again(self) -> None:
        told: list[str] = []
        with Library(UNIT, stream=LARGE), EventSet("CYCLES", "INST_RETIRED") as events:
            for name in list(events):
                events.on_overflow(name, 256, lambda name, address: told.append(name))
            gone = weakref.ref(events._handlers["CYCLES"])
            events.remove("CYCLES")
            events.add("CYCLES")
            self.assertIsNone(gone())
            self.assertEqual(list(events), ["INST_RETIRED", "CYCLES"])
            with events.counting() as counts:
                kistalub.go()
            self.assertEqual(counts, {"INST_RETIRED": 2040, "CYCLES": 0})
        self.assertEqual(set(told), {"INST_RETIRED"})

    def test_several_names_at_once(self) -> None:
        with Library(UNIT), EventSet(["INST_RETIRED", "CYCLES"]) as events, EventSet() as others:
            self.assertEqual(list(events), ["INST_RETIRED", "CYCLES"])
            others.add(("INST_RETIRED",), "CYCLES")
            others.remove(["INST_RETIRED", "CYCLES"])
            self.assertEqual((len(events), len(others)), (2, 0))
            for odd in (7, None, b"CYCLES", ["CYCLES", 7], [["CYCLES"]]):
                with self.assertRaisesRegex(
                    TypeError, r"is no name of an event: .* EventSet\('INST_RETIRED', 'CYCLES'\)"
                ):
                    EventSet(odd)  # type: ignore[arg-type]


class Arrays(OverLibrary):
    def test_counts_in_a_buffer(self) -> None:
        values = array("q", [9, 9, 9])
        with Library(UNIT, stream=FIRST), EventSet("INST_RETIRED", "CYCLES") as events:
            events.start()
            kistalub.go()
            events.read_into(values)
            self.assertEqual(list(values), [2, 7, 9])
            events.read_into(memoryview(values)[1:])
            self.assertEqual(list(values), [2, 2, 7])
            for odd in (
                array("i", [0] * 4), array("d", [0.0] * 2), bytes(16),
                memoryview(values).toreadonly(), memoryview(values)[::2],
            ):
                with self.assertRaisesRegex(TypeError, "64-bit integers that stand side by side"):
                    events.read_into(odd)
            with self.assertRaisesRegex(
                ValueError, "there is room for 1 counts, and the set has 2"
            ):
                events.read_into(values[:1])

    @unittest.skipUnless(importlib.util.find_spec("numpy"), "numpy is not installed")
    def test_rows_of_numpy(self) -> None:
        import numpy

        rows = numpy.zeros((2, 1), "int64")
        with Library(UNIT, stream=FIRST), EventSet("CYCLES") as events:
            events.start()
            for row in rows:
                kistalub.go(1)
                events.read_into(row)
        self.assertEqual(rows.tolist(), [[0], [7]])


class Refusals(OverLibrary):
    def test_each_has_its_exception(self) -> None:
        with Library(UNIT, stream=FIRST), EventSet("INST_RETIRED") as events, EventSet(
            "BR_INST"
        ) as branches:
            cases = (
                ("no such event", kistalub.ENOEVNT, lambda: events.add("NO_SUCH")),
                ("an event that is there", kistalub.EINVAL, lambda: events.add("INST_RETIRED")),
                ("one counter for two", kistalub.ECNFLCT, lambda: branches.add("BR_MISP")),
                ("not in the set", kistalub.ENOEVNT, lambda: events.remove("CYCLES")),
                ("does not run", kistalub.ENOTRUN, events.stop),
                (
                    "a threshold of an event that is not there", kistalub.ENOEVNT,
                    lambda: events.on_overflow("CYCLES", 256, print),
                ),
                (
                    "a threshold that is too small", kistalub.EINVAL,
                    lambda: events.on_overflow("INST_RETIRED", 255, print),
                ),
                (
                    "no threshold to take away", kistalub.EINVAL,
                    lambda: events.end_overflow("INST_RETIRED"),
                ),
                ("a library in a library", kistalub.EINVAL, Library(UNIT).__enter__),
                (
                    "a domain that there is not", kistalub.EINVAL_DOM,
                    lambda: EventSet(domain=Domain(4)),
                ),
            )
            for title, kind, act in cases:
                with self.subTest(title), self.assertRaises(kind):
                    act()
            events.start()
            for act in (
                events.start, lambda: events.add("CYCLES"), lambda: events.remove("INST_RETIRED"),
            ):
                self.assertRaises(kistalub.EISRUN, act)

    def test_what_an_exception_says(self) -> None:
        with Library(UNIT), self.assertRaises(kistalub.PapiError) as raised:
            EventSet("NO_SUCH")
        error = raised.exception
        self.assertEqual(
            (error.code, error.name, error.call), (-7, "PAPI_ENOEVNT", "PAPI_add_named_event")
        )
        advice = "native_events(umasks=True), preset_events() and user_events() list what there is"
        self.assertEqual(
            str(error), f"PAPI_add_named_event: PAPI_ENOEVNT: Event does not exist ({advice})"
        )
        self.assertEqual(error.advice, advice)
        copied = pickle.loads(pickle.dumps(error))
        self.assertEqual(
            (type(copied), str(copied), copied.code), (type(error), str(error), error.code)
        )

    def test_advice_fits_the_call(self) -> None:
        """Each refusal that one meets while counting says what to do, and EINVAL what it is
        about."""
        with Library(UNIT, stream=FIRST), EventSet("INST_RETIRED") as events, EventSet(
            "BR_INST"
        ) as branches, EventSet() as empty:
            cases = (
                (lambda: events.add("INST_RETIRED"), "the set has the event already"),
                (empty.start, "the set has no event"),
                (
                    lambda: events.on_overflow("INST_RETIRED", 1, print),
                    "a threshold is from 256 on",
                ),
                (Library(UNIT).__enter__, "a library is begun already"),
                (lambda: branches.add("BR_MISP"), "multiplexed=True"),
                (events.stop, "start() begins to count"),
                (lambda: kistalub.thread(5), "another number already"),
                (lambda: events.remove("CYCLES"), "EventSet.events has the names"),
                (lambda: EventSet(domain=Domain(4)), "Domain.USER"),
            )
            for act, advice in cases:
                with self.assertRaises(kistalub.PapiError) as raised:
                    act()
                self.assertIn(advice, raised.exception.advice)
                self.assertTrue(str(raised.exception).endswith(f" ({raised.exception.advice})"))
            events.start()
            with self.assertRaisesRegex(kistalub.EISRUN, r"\(stop\(\) the set first\)$"):
                events.start()
            events.close()
            with self.assertRaisesRegex(
                kistalub.ENOINIT, r"\(a new set counts in the library that is begun\)$"
            ):
                events.start()

    def test_a_handler_that_can_not_be_called(self) -> None:
        with Library(UNIT), EventSet("INST_RETIRED") as events, self.assertRaisesRegex(
            TypeError, "end_overflow takes a threshold away"
        ):
            events.on_overflow("INST_RETIRED", 256, None)  # type: ignore[arg-type]

    def test_a_refused_set_is_destroyed(self) -> None:
        with Library(UNIT):
            for _ in range(100):
                self.assertRaises(kistalub.ENOEVNT, EventSet, "INST_RETIRED", "NO_SUCH")
            EventSet("INST_RETIRED").close()

    def test_without_a_library(self) -> None:
        with Library(UNIT, stream=FIRST):
            events = EventSet("INST_RETIRED")
        for act in (events.start, events.read, EventSet, kistalub.go, kistalub.native_events):
            self.assertRaises(kistalub.ENOINIT, act)
        events.close()
        with Library(UNIT, stream=FIRST):
            self.assertRaises(kistalub.ENOINIT, events.start)
            events.close()

    def test_numbers_out_of_range(self) -> None:
        with Library(UNIT):
            self.assertRaises(ValueError, kistalub.go, -1)
            self.assertRaises(ValueError, kistalub.thread, 1 << 32)
            self.assertEqual(kistalub.go(0), 0)
            self.assertRaises(ValueError, EventSet, "INST_RETIRED\0")
            self.assertRaises(
                kistalub.EINVAL, lambda: EventSet(multiplexed=True, slice_ns=(1 << 32) + 5)
            )
            with EventSet("INST_RETIRED") as events:
                for threshold in (-1, 0, 255, (1 << 32) + 300):
                    self.assertRaises(
                        kistalub.EINVAL, events.on_overflow, "INST_RETIRED", threshold, print
                    )
        self.assertRaises(ValueError, Library(f"{UNIT}\0").__enter__)


class Handlers(OverLibrary):
    def test_each_passing_in_order(self) -> None:
        told = []
        with Library(UNIT, stream=LARGE), EventSet("INST_RETIRED") as events:
            events.on_overflow(
                "INST_RETIRED", 1000,
                lambda name, address: told.append((name, address, events.read()[name])),
            )
            events.start()
            self.assertEqual(kistalub.go(), 8)
            self.assertEqual(events.stop(), {"INST_RETIRED": 2040})
        self.assertEqual(told, [("INST_RETIRED", 4, 1020), ("INST_RETIRED", 8, 2040)])

    def test_two_events_at_one_occurrence(self) -> None:
        told = []
        stream = self.stream(*["0 c0 00 u 255 7", "0 3c 00 u 255 8"] * 4)
        with Library(UNIT, stream=stream), EventSet("INST_RETIRED", "CYCLES") as events:
            events.on_overflow(
                "INST_RETIRED", 500, lambda name, address: told.append((name, address))
            )
            events.on_overflow("CYCLES", 1000, lambda name, address: told.append((name, address)))
            events.start()
            kistalub.go()
        self.assertEqual(told, [("INST_RETIRED", 7), ("INST_RETIRED", 7), ("CYCLES", 8)])

    def test_a_threshold_is_taken_away(self) -> None:
        told = []
        with Library(UNIT, stream=LARGE), EventSet("INST_RETIRED") as events:
            events.on_overflow("INST_RETIRED", 1000, lambda name, address: told.append(address))
            events.end_overflow("INST_RETIRED")
            events.start()
            kistalub.go()
        self.assertEqual(told, [])

    def test_what_a_handler_raises(self) -> None:
        told = []

        def fail(name: str, address: int) -> None:
            told.append(address)
            raise KeyError(address)

        with Library(UNIT, stream=LARGE), EventSet("INST_RETIRED") as events:
            events.on_overflow("INST_RETIRED", 500, fail)
            events.start()
            with self.assertRaises(KeyError):
                kistalub.go()
            self.assertEqual((told, events.stop()), ([2], {"INST_RETIRED": 2040}))

    def test_time_stands_in_a_handler(self) -> None:
        with Library(UNIT, stream=LARGE), EventSet("INST_RETIRED") as events:
            events.on_overflow("INST_RETIRED", 1000, lambda name, address: kistalub.go(1))
            events.start()
            with self.assertRaises(kistalub.EISRUN):
                kistalub.go()

    def test_none_in_a_multiplexed_set(self) -> None:
        with Library(UNIT), EventSet("INST_RETIRED", multiplexed=True) as events, self.assertRaises(
            kistalub.ECOMBO
        ):
            events.on_overflow("INST_RETIRED", 1000, print)


class Threads(OverLibrary):
    def test_each_has_its_stream_and_its_sets(self) -> None:
        self.stream("0 c0 00 u 1 1", name="0.stream")
        self.stream("0 c0 00 u 20 1", name="1.stream")
        self.stream("0 c0 00 u 30 1", name="2.stream")
        counts: dict[int, dict[str, int]] = {}

        def work(number: int) -> None:
            kistalub.thread(number)
            with EventSet("INST_RETIRED") as events:
                events.start()
                kistalub.go()
                counts[number] = events.stop()

        with Library(UNIT, stream=self.folder / "%t.stream"):
            threads = [threading.Thread(target=work, args=(number,)) for number in (2, 1)]
            for thread in threads:
                thread.start()
            for thread in threads:
                thread.join()
            work(0)
        self.assertEqual(
            counts, {0: {"INST_RETIRED": 1}, 1: {"INST_RETIRED": 20}, 2: {"INST_RETIRED": 30}}
        )

    def test_handlers_of_many_threads(self) -> None:
        """Each thread is told of its own passings alone, and what a handler raises stays in its
        thread."""
        told: dict[int, list[int]] = {number: [] for number in range(1, 9)}
        raised: list[int] = []
        for number in told:
            self.stream(
                *[f"0 c0 00 u 255 {number:x}{place:02x}" for place in range(200)],
                name=f"{number}.stream",
            )

        def work(number: int) -> None:
            def handler(name: str, address: int) -> None:
                told[number].append(address)
                if number == 3:
                    raise KeyError(number)

            kistalub.thread(number)
            with EventSet("INST_RETIRED") as events:
                events.on_overflow("INST_RETIRED", 256, handler)
                events.start()
                try:
                    kistalub.go()
                except KeyError as error:
                    raised.append(error.args[0])

        with Library(UNIT, stream=self.folder / "%t.stream"):
            threads = [threading.Thread(target=work, args=(number,)) for number in told]
            for thread in threads:
                thread.start()
            for thread in threads:
                thread.join()
        passings = [place for place in range(200) if 255 * (place + 1) // 256 > 255 * place // 256]
        wanted = {number: [number * 256 + place for place in passings] for number in told}
        self.assertEqual((told, raised), ({**wanted, 3: wanted[3][:1]}, [3]))

    def test_a_set_of_another_thread(self) -> None:
        refused = []

        def work(events: EventSet) -> None:
            try:
                events.start()
            except kistalub.ENOEVST as error:
                refused.append(error.name)

        with Library(UNIT, stream=FIRST), EventSet("INST_RETIRED") as events:
            thread = threading.Thread(target=work, args=(events,))
            thread.start()
            thread.join()
        self.assertEqual(refused, ["PAPI_ENOEVST"])
