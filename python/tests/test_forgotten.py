"""Sets that nobody has any more, and what is given out of the module."""

from __future__ import annotations

import errno
import gc
import threading
import warnings

from shared_library import EXAMPLES, UNIT, OverLibrary

import kistalub
from kistalub import EventSet, Library
from kistalub.binding import call

FIRST = EXAMPLES / "c/first.stream"
LARGE = EXAMPLES / "c/overflow.stream"


class Forgotten(OverLibrary):
    """A running set that is forgotten would block the counters for as long as the library lasts."""

    def setUp(self) -> None:
        super().setUp()
        caught = warnings.catch_warnings()
        caught.__enter__()
        self.addCleanup(caught.__exit__, None, None, None)
        warnings.simplefilter("ignore", ResourceWarning)

    def begin(self, name: str = "INST_RETIRED") -> EventSet:
        events = EventSet(name)
        events.start()
        return events

    def test_one_stops_and_is_freed(self) -> None:
        with Library(UNIT, stream=FIRST):
            numbers = {self.begin().number for _ in range(100)}
            self.assertEqual(len(numbers), 1)
            with EventSet("INST_RETIRED") as events, events.counting() as counts:
                kistalub.go()
            self.assertEqual(counts, {"INST_RETIRED": 2})

    def test_one_is_freed_at_once(self) -> None:
        with Library(UNIT, stream=FIRST):
            number = self.begin().number
            with self.assertRaises(kistalub.ENOEVST):
                call("PAPI_num_events", number)

    def test_one_that_holds_itself_is_freed_with_the_garbage(self) -> None:
        with Library(UNIT, stream=LARGE):
            events = EventSet("INST_RETIRED")
            told: list[int] = []
            events.on_overflow("INST_RETIRED", 256, lambda name, at: told.append(len(events)))
            events.start()
            number = events.number
            del events
            gc.collect()
            kistalub.go()
            self.assertEqual(told, [])
            with EventSet("INST_RETIRED") as other:
                self.assertEqual(other.number, number)

    def test_one_of_another_thread_waits_for_that_thread(self) -> None:
        """The thread's next set has its number: the other thread could not free it."""
        held: list[EventSet] = []
        numbers: list[int] = []
        made, dropped = threading.Event(), threading.Event()

        def work() -> None:
            kistalub.thread(1)
            held.append(self.begin())
            numbers.append(held[0].number)
            made.set()
            dropped.wait(60)
            with EventSet("INST_RETIRED") as events:
                numbers.append(events.number)
                events.start()

        with Library(UNIT):
            thread = threading.Thread(target=work)
            thread.start()
            made.wait(60)
            held.clear()
            gc.collect()
            dropped.set()
            thread.join()
        self.assertEqual(len(numbers), 2)
        self.assertEqual(numbers[0], numbers[1])

    def test_one_that_its_own_handler_forgets(self) -> None:
        told: list[int] = []

        def handler(name: str, address: int) -> None:
            told.append(address)
            held.clear()

        with Library(UNIT, stream=LARGE):
            held = [EventSet("INST_RETIRED")]
            number = held[0].number
            held[0].on_overflow("INST_RETIRED", 256, handler)
            held[0].start()
            self.assertEqual(kistalub.go(), 8)
            self.assertEqual(told, [2])
            with EventSet("INST_RETIRED") as events:
                self.assertEqual(events.number, number)
                events.start()

    def test_a_warning_says_so(self) -> None:
        with Library(UNIT), warnings.catch_warnings(record=True) as caught:
            warnings.simplefilter("always")
            self.begin()
            gc.collect()
            with EventSet("INST_RETIRED"):
                pass
        told = [str(each.message) for each in caught if each.category is ResourceWarning]
        advice = "with EventSet(..) as events: closes it"
        self.assertEqual(told, [f"kistalub: an EventSet was not closed: {advice}"])

    def test_one_of_an_ended_library_leaves_those_of_the_next_one(self) -> None:
        told: list[str] = []
        catching = warnings.catch_warnings(record=True)
        caught = catching.__enter__()
        self.addCleanup(catching.__exit__, None, None, None)
        warnings.simplefilter("always")
        with Library(UNIT, stream=LARGE):
            closed, forgotten = EventSet("INST_RETIRED"), EventSet("CYCLES")
            numbers = closed.number, forgotten.number
        with Library(UNIT, stream=LARGE), EventSet("INST_RETIRED") as one, EventSet(
            "CYCLES"
        ) as other:
            self.assertEqual((one.number, other.number), numbers)
            one.on_overflow("INST_RETIRED", 1000, lambda name, address: told.append(name))
            one.start()
            closed.close()
            del forgotten
            gc.collect()
            kistalub.go()
            self.assertEqual((one.stop(), told), ({"INST_RETIRED": 2040}, ["INST_RETIRED"] * 2))
        self.assertEqual([str(each.message) for each in caught or ()], [])


class GivenOut(OverLibrary):
    def test_a_star_gives_no_name_of_errno(self) -> None:
        given: dict[str, object] = {}
        exec("from kistalub import *", given)
        self.assertEqual(set(given) & set(dir(errno)) - {"__doc__", "__name__"}, set())
        self.assertTrue({"EventSet", "Library", "PapiError", "go"} <= set(given))
        self.assertIs(kistalub.EINVAL, kistalub.errors.EINVAL)
