"""Named ranges of a program: the regions of PAPI's high level (PAPI_hl_region_begin(3))."""

from __future__ import annotations

from contextlib import contextmanager
from typing import Iterator

from .binding import call, text_of


@contextmanager
def region(name: str) -> Iterator[None]:
    """`with region("sort"):` counts the events of PAPI_EVENTS in the block, in this thread. What
    all regions counted is written to a folder papi_hl_output when the process ends. Regions may
    stand in others. The library begins by itself, over the files of the environment.

    `ENOMEM` if the region stands in ten others or memory is refused, `EMISC` if one failed before.
    """
    encoded = text_of(name)
    call("PAPI_hl_region_begin", encoded)
    try:
        yield
    finally:
        call("PAPI_hl_region_end", encoded)
