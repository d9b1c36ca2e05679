"""What regions counted, as PAPI writes it: a folder papi_hl_output with a file for each rank."""

from __future__ import annotations

import os
import re
from collections import Counter
from dataclasses import dataclass

from parts.command import MOST_BYTES, read_found
from parts.compare.reading import MOST_DIGITS, Place, read_json
from parts.compare.sides import WHOLE, Counts, Side, traits, unfit

FOLDER = "papi_hl_output"
RANK = re.compile(r"rank_(\d{1,20})(?:-(\d{1,20}))?\.json", re.ASCII)
MOST_RANKS = 1 << 16
MOST_NESTED = 64
TIMES = ("cycles", "real_time_nsec")  # what stands beside the events
BETWEEN = " > "  # a region and one in it
NUMBER = re.compile(rf"-?\d{{1,{MOST_DIGITS}}}", re.ASCII)


@dataclass(frozen=True)
class Region:
    """A region as often as it was entered by a thread, once."""

    parent: str
    name: str
    counts: Counts


@dataclass(frozen=True)
class Rank:
    """What a process counted: its events with their kinds and components, and the regions of each
    thread by their numbers."""

    cpu: str
    version: str
    events: dict[str, str]
    threads: list[dict[str, Region]]


def is_region_file(place: Place) -> bool:
    return place.has("event_definitions")


def rank_files(folder: str) -> list[str]:
    """The files of all ranks in a folder, or in papi_hl_output in it, in the order of the ranks."""
    try:
        inner = os.path.join(folder, FOLDER)
        names = os.listdir(folder)
        if not any(map(RANK.fullmatch, names)) and os.path.isdir(inner):
            folder, names = inner, os.listdir(inner)
        found = sorted(
            (int(rank[1]), int(rank[2] or 1), name)
            for name in names
            if (rank := RANK.fullmatch(name))
        )
        files = [os.path.join(folder, name) for *_, name in found]
    except OSError as error:
        raise unfit(f"{folder}: {error.strerror}") from None
    if not files or len(files) > MOST_RANKS:
        raise unfit(f"{folder}: {f'over {MOST_RANKS:,} files' if files else 'no file'} rank_N.json")
    return files


def read_folder(folder: str) -> Side:
    room, ranks = MOST_BYTES, []
    for file in rank_files(folder):
        place, size = read_json(file, room, read_found)
        room -= size
        ranks.append(_rank(place))
        if (ranks[0].events, ranks[0].cpu) != (ranks[-1].events, ranks[-1].cpu):
            raise unfit(
                f"{file}: other events or another processor than in the first file of the folder"
            )
    return _side(folder, ranks)


def read_region_file(place: Place) -> Side:
    return _side(place.file, [_rank(place)])


def _rank(place: Place) -> Rank:
    definitions = place.at("event_definitions").items()
    events = {
        name: f"{each.at('type').text()} of {each.at('component').text()}"
        for name, each in definitions
    }
    threads = [
        {number: _region(region, tuple(events)) for number, region in thread.at("regions").items()}
        for _, thread in place.at("threads").items()
    ]
    return Rank(place.at("cpu_info").text(), place.at("papi_version").text(), events, threads)


def _region(place: Place, events: tuple[str, ...]) -> Region:
    counts = {
        event: _value(place.at(event))
        for event in (*events, *(name for name in TIMES if place.has(name)))
    }
    parent = place.at("parent_region_id").value
    return Region(
        parent if isinstance(parent, str) else str(parent), place.at("name").text(), counts
    )


def _value(place: Place) -> int:
    """A value, which is a text, or an object with those of readings in between."""
    inner = place.at("region_value") if isinstance(place.value, dict) else place
    if type(inner.value) is int:
        return inner.value
    if not NUMBER.fullmatch(inner.text()):
        inner.fault("not a count")
    return int(inner.value)


def _way(name: str, regions: dict[str, Region], number: str) -> str:
    """A region's name after those that it stands in."""
    names: list[str] = []
    while number in regions:
        names.append(regions[number].name)
        number = regions[number].parent
        if len(names) > MOST_NESTED + 1:
            raise unfit(f"{name}: region {names[0]}: in over {MOST_NESTED} others, or in itself")
    return BETWEEN.join(reversed(names))


def _sums(
    name: str, threads: list[dict[str, Region]], events: tuple[str, ...]
) -> tuple[dict[str, int], dict[str, dict[str, int]], Counter[str]]:
    """Over all threads: the counts of the whole, which are those of the regions that stand in no
    other one, those of each region, and how often each was entered."""
    whole = dict.fromkeys(events, 0)
    rows: dict[str, dict[str, int]] = {}
    entries: Counter[str] = Counter()
    for thread in threads:
        for number, region in thread.items():
            way = _way(name, thread, number)
            entries[way] += 1
            own = rows.setdefault(way, dict.fromkeys(events, 0))
            for row in (own, whole) if region.parent not in thread else (own,):
                for event in events:
                    row[event] += region.counts[event]
    return whole, rows, entries


def _side(name: str, ranks: list[Rank]) -> Side:
    threads = [thread for rank in ranks for thread in rank.threads]
    entered = [region for thread in threads for region in thread.values()]
    if not entered or not ranks[0].events:
        raise unfit(f"{name}: there is no {'event' if entered else 'region'}")
    times = tuple(each for each in TIMES if all(each in region.counts for region in entered))
    whole, rows, entries = _sums(name, threads, (*ranks[0].events, *times))
    told = {
        "version of PAPI": ranks[0].version,
        "ranks": str(len(ranks)),
        "threads": str(len(threads)),
        **{f"entries of {way}": f"{often:,}" for way, often in entries.items()},
    }
    same = traits(
        {
            "processor": ranks[0].cpu,
            **{f"kind of {event}": kind for event, kind in ranks[0].events.items()},
        }
    )
    return Side(
        name,
        "regions",
        same,
        told,
        tuple(ranks[0].events),
        times,
        {"whole": {WHOLE: whole}, "region": rows},
    )
