"""Numbers on a page and on the axes of charts."""

from __future__ import annotations

from dataclasses import dataclass

STEPS = (1, 2, 5, 10)


def shown(number: int) -> str:
    return f"{number:,}"


def short(number: int) -> str:
    """A number in at most five letters or so: 950, 12k, 3.4M."""
    for limit, letter in ((10**12, "T"), (10**9, "G"), (10**6, "M"), (10**3, "k")):
        if abs(number) >= limit:
            text = f"{number / limit:.1f}" if abs(number) < 100 * limit else f"{number / limit:.0f}"
            return text.removesuffix(".0") + letter
    return str(number)


def ticks(most: int, wanted: int) -> list[int]:
    """Round numbers from 0 up to `most`, about as many as wanted."""
    power = 1
    while power * 10 * wanted <= most:
        power *= 10
    step = next((power * step for step in STEPS if most <= power * step * wanted), power * 10)
    return list(range(0, most + 1, step))


@dataclass(frozen=True)
class Scale:
    """From numbers to places along an axis."""

    low: int
    high: int
    start: float
    end: float

    def at(self, number: float) -> float:
        room = self.high - self.low
        return (
            self.start + (self.end - self.start) * (number - self.low) / room if room
            else self.start
        )
