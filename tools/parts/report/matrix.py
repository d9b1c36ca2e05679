"""A set's native events as rows over the counters of its component: an SVG picture of an
assignment, or of why there is none.

A conflict is Hall's theorem: some events are together allowed fewer counters than they are. Their
rows and these counters are marked.
"""

from __future__ import annotations

from dataclasses import dataclass, replace
from typing import Sequence

from parts.command import counted
from parts.report.markup import Markup, element
from parts.report.unit_counters import Counter

MARGIN = 20
LETTER, SMALL_LETTER = 7.3, 5.7  # the width of a letter of a name, and of a remark
LONGEST = 46
ROW = 36
LINE = 18
HEAD = 62
COLUMN, NARROW_COLUMN, WIDEST_COLUMN = 64, 40, 132
MOST_WIDE = 14  # columns
RADIUS = 8
BRACKET = 96  # beside and below what is marked

STYLE = """
  .m-ink { fill: #1f2328; } .m-quiet { fill: #59636e; } .m-text { font: 12px ui-sans-serif, system-ui, "DejaVu Sans", sans-serif; }
  .m-name { font: 12px ui-monospace, "DejaVu Sans Mono", monospace; } .m-bold { font-weight: 600; } .m-page { fill: #ffffff; }
  .m-line { stroke: #d8dde3; } .m-dot { fill: #c4cad1; } .m-free { fill: #ffffff; stroke: #8c959f; stroke-width: 1.5; }
  .m-held { fill: #2f6fa8; } .m-way { stroke: #2f6fa8; stroke-width: 1.5; opacity: .55; }
  .m-band { fill: #c8372d; opacity: .09; } .m-fight { fill: #ffffff; stroke: #c8372d; stroke-width: 2; } .m-won { fill: #c8372d; }
  .m-wonway { stroke: #c8372d; stroke-width: 1.5; opacity: .55; } .m-bracket { fill: none; stroke: #c8372d; stroke-width: 1.5; } .m-blame { fill: #a32a21; }
  @media screen and (prefers-color-scheme: dark) {
    .m-ink { fill: #e6edf3; } .m-quiet { fill: #9198a1; } .m-page { fill: #0d1117; } .m-line { stroke: #30363d; } .m-dot { fill: #3d444d; }
    .m-free { fill: #0d1117; stroke: #7d8590; } .m-held { fill: #58a6e8; } .m-way { stroke: #58a6e8; } .m-band { fill: #ff7b72; opacity: .13; }
    .m-fight { fill: #0d1117; stroke: #ff7b72; } .m-won { fill: #ff7b72; } .m-wonway { stroke: #ff7b72; } .m-bracket { stroke: #ff7b72; }
    .m-blame { fill: #ff9a92; }
  }
"""


@dataclass(frozen=True)
class Row:
    """A native event: the counters that it is allowed, the one that it has, and a word about it."""

    native: str
    allowed: tuple[str, ...]
    counter: str | None = None
    remark: str = ""
    is_blamed: bool = False


@dataclass(frozen=True)
class Picture:
    """The rows of the marked events stand first, and so do the columns of the marked counters."""

    counters: Sequence[Counter]
    rows: Sequence[Row]
    marked: tuple[str, ...] = ()
    title: str = ""
    lines: tuple[str, ...] = ()  # below the title

    @property
    def is_conflict(self) -> bool:
        return any(row.is_blamed for row in self.rows)

    def ordered(self) -> Picture:
        columns = sorted(self.counters, key=lambda counter: counter.name not in self.marked)
        return replace(
            self, counters=columns, rows=sorted(self.rows, key=lambda row: not row.is_blamed)
        )


class _Drawing:
    def __init__(self, picture: Picture):
        self.picture = picture.ordered()
        longest = max(
            (
                max(LETTER * len(_cut(row.native)), SMALL_LETTER * len(_cut(row.remark)))
                for row in picture.rows
            ),
            default=0.0,
        )
        self.left = MARGIN + max(120.0, longest + 22)
        self.top = MARGIN + (40 if picture.title else 0) + LINE * len(picture.lines) + HEAD
        self.is_roomy = len(picture.counters) <= MOST_WIDE
        names = max((LETTER * len(counter.name) + 12 for counter in picture.counters), default=0)
        self.column = (
            min(max(COLUMN, round(names)), WIDEST_COLUMN) if self.is_roomy else NARROW_COLUMN
        )
        self.right = self.left + self.column * len(picture.counters)
        self.bottom = self.top + ROW * len(picture.rows)
        self.place = {counter.name: number for number, counter in enumerate(self.picture.counters)}
        self.blamed = sum(row.is_blamed for row in picture.rows)

    def x(self, counter: str) -> float:
        return self.left + self.column * (self.place[counter] + 0.5)

    def parts(self) -> list[Markup]:
        rows = [
            part for number, row in enumerate(self.picture.rows) for part in self._row(number, row)
        ]
        return self._title() + self._bands() + self._heads() + rows + self._brackets()

    def size(self) -> tuple[float, float]:
        extra = BRACKET if self.picture.is_conflict else 0
        width = self.right + MARGIN + extra
        if self.picture.title:
            width = max(
                width, 2 * MARGIN + 8.6 * len(self.picture.title),
                *(2 * MARGIN + 6.7 * len(line) for line in self.picture.lines),
            )
        return width, self.bottom + MARGIN + (38 if extra and self.picture.marked else 0)

    def _title(self) -> list[Markup]:
        if not self.picture.title:
            return []
        made = [
            element(
                "text", self.picture.title, class_="m-text m-ink m-bold", x=MARGIN, y=MARGIN + 16,
                style="font-size:16px",
            )
        ]
        return made + [
            element("text", line, class_="m-text m-quiet", x=MARGIN, y=MARGIN + 20 + LINE * number)
            for number, line in enumerate(self.picture.lines, start=1)
        ]

    def _bands(self) -> list[Markup]:
        if not self.picture.is_conflict:
            return []
        high, wide = ROW * self.blamed, self.column * len(self.picture.marked)
        rows = element(
            "rect", class_="m-band", x=MARGIN - 8, y=self.top,
            width=f"{self.right - MARGIN + 8:.1f}", height=high, rx=4,
        )
        columns = element(
            "rect", class_="m-band", x=f"{self.left:.1f}", y=self.top - HEAD + 6, width=wide,
            height=self.bottom - self.top + HEAD - 6, rx=4,
        )
        return [rows, columns] if wide else [rows]

    def _heads(self) -> list[Markup]:
        made = []
        for counter in self.picture.counters:
            x = f"{self.x(counter.name):.1f}"
            tone = "m-blame m-bold" if counter.name in self.picture.marked else "m-ink"
            name = _cut(counter.name, int((self.column - 8) / LETTER))
            whole = element("title", counter.name) if name != counter.name else None
            made.append(
                element(
                    "text", whole, name, class_=f"m-name {tone}", x=x, y=self.top - 36,
                    text_anchor="middle",
                )
            )
            for line, remark in enumerate(
                [f"{counter.bits} bit", *["fixed"] * counter.is_fixed] if self.is_roomy else []
            ):
                y = self.top - 22 + 12 * line
                made.append(
                    element(
                        "text", remark, class_="m-text m-quiet", x=x, y=y, text_anchor="middle",
                        style="font-size:10px",
                    )
                )
        return made

    def _row(self, number: int, row: Row) -> list[Markup]:
        top = self.top + ROW * number
        y = top + ROW / 2
        tone = "m-blame" if row.is_blamed else "m-ink"
        made = [
            element("line", class_="m-line", x1=MARGIN - 8, x2=f"{self.right:.1f}", y1=top, y2=top)
        ]
        made.append(
            element(
                "text", element("title", row.native), _cut(row.native), class_=f"m-name {tone}",
                x=MARGIN, y=y + (0 if row.remark else 4),
            )
        )
        if row.remark:
            made.append(
                element(
                    "text", _cut(row.remark), class_="m-text m-quiet", x=MARGIN, y=y + 13,
                    style="font-size:10px",
                )
            )
        if row.counter in self.place:
            way = "m-wonway" if row.is_blamed else "m-way"
            made.append(
                element(
                    "line", class_=way, x1=f"{self.left - 8:.1f}",
                    x2=f"{self.x(str(row.counter)):.1f}", y1=y, y2=y,
                )
            )
        return made + [self._cell(row, counter.name, y) for counter in self.picture.counters]

    def _cell(self, row: Row, counter: str, y: float) -> Markup:
        x = f"{self.x(counter):.1f}"
        if counter not in row.allowed:
            return element("circle", class_="m-dot", cx=x, cy=y, r=1.6)
        if counter == row.counter:
            kind, told = ("m-won" if row.is_blamed else "m-held"), "has"
        else:
            kind, told = ("m-fight" if row.is_blamed else "m-free"), "may have"
        return element(
            "circle", element("title", f"{row.native} {told} {counter}"), class_=kind, cx=x, cy=y,
            r=RADIUS,
        )

    def _brackets(self) -> list[Markup]:
        if not self.picture.is_conflict:
            return []
        x, y = self.right + 8, self.top + ROW * self.blamed
        made = [
            element("path", class_="m-bracket", d=f"M{x:.1f} {self.top + 4}h6V{y - 4}h-6"),
            element(
                "text", counted(self.blamed, "event"), class_="m-text m-blame m-bold",
                x=f"{x + 14:.1f}", y=(self.top + y) / 2 + 4,
            ),
        ]
        if self.picture.marked:
            wide, low = self.column * len(self.picture.marked), self.bottom + 8
            made.append(
                element(
                    "path", class_="m-bracket",
                    d=f"M{self.left + 4:.1f} {low}v6H{self.left + wide - 4:.1f}v-6",
                )
            )
            middle = f"{self.left + wide / 2:.1f}"
            made.append(
                element(
                    "text", counted(len(self.picture.marked), "counter"),
                    class_="m-text m-blame m-bold", x=middle, y=low + 24, text_anchor="middle",
                )
            )
        return made


def _cut(name: str, most: int = LONGEST) -> str:
    return name if len(name) <= most else name[: most - 1] + "\u2026"


def draw(picture: Picture) -> Markup:
    """The picture as an element for a page, which has the style."""
    drawing = _Drawing(picture)
    width, height = (round(side) for side in drawing.size())
    return element(
        "svg", element("title", picture.title or "events and counters"), drawing.parts(),
        width=width, height=height, viewBox=f"0 0 {width} {height}", role="img", class_="matrix",
    )


def draw_alone(picture: Picture) -> str:
    """The picture as a file of its own."""
    drawing = _Drawing(picture)
    width, height = (round(side) for side in drawing.size())
    page = element("rect", class_="m-page", width=width, height=height, rx=6)
    return (
        element(
            "svg", element("title", picture.title), element("style", Markup(STYLE)), page,
            drawing.parts(), xmlns="http://www.w3.org/2000/svg", width=width, height=height,
            viewBox=f"0 0 {width} {height}", role="img",
        )
        + "\n"
    )
