"""A bar chart of a profile as SVG: a bar for each function, the hottest first, readable on light
and dark pages."""

from __future__ import annotations

from dataclasses import dataclass
from parts.command import counted
from parts.profile import FunctionHits, Profile
from parts.xml_text import xml_text

WIDTH = 860
MARGIN = 24
HEADING = 76  # the height of title and subtitle
ROW = 30
BAR = 18
BAR_START = 250
BAR_ROOM = 350  # the length of a bar of 100 %
LONGEST_NAME = 27
MOST_BARS = 30

STYLE = """
  .page { fill: #ffffff; } .title, .name { fill: #1f2328; } .quiet { fill: #59636e; } .bar { fill: #2f6fa8; } .rest { fill: #9aa4af; }
  .track { fill: #eceff3; } text { font-family: ui-sans-serif, system-ui, "DejaVu Sans", sans-serif; font-size: 13px; }
  .title { font-size: 18px; font-weight: 600; } .name { font-family: ui-monospace, "DejaVu Sans Mono", monospace; }
  @media (prefers-color-scheme: dark) {
    .page { fill: #0d1117; } .title, .name { fill: #e6edf3; } .quiet { fill: #9198a1; } .bar { fill: #58a6e8; } .rest { fill: #656d78; }
    .track { fill: #1d232b; }
  }
"""


@dataclass(frozen=True)
class Bar:
    name: str
    hits: int
    note: str
    kind: str


def bars_of(profile: Profile) -> list[Bar]:
    """The functions that have hits, the hottest first, then those that have no bar of their own,
    then what is outside."""
    hit = sorted(
        (function for function in profile.functions if function.hits),
        key=lambda function: -function.hits,
    )
    bars = [
        Bar(function.name, function.hits, _hottest(function), "bar") for function in hit[:MOST_BARS]
    ]
    others = hit[MOST_BARS:]
    if others:
        bars.append(
            Bar(
                counted(len(others), "other function"), sum(function.hits for function in others),
                "", "rest",
            )
        )
    if profile.outside:
        bars.append(Bar("outside the map", profile.outside, "", "rest"))
    return bars


def _hottest(function: FunctionHits) -> str:
    bucket = function.hottest()
    return f"{share(bucket.hits, function.hits)} at {bucket.address:#x}" if bucket else ""


def share(part: int, whole: int) -> str:
    return f"{100 * part / whole:.1f} %" if whole else "0.0 %"


def draw(profile: Profile, title: str) -> str:
    bars = bars_of(profile)
    height = HEADING + ROW * max(len(bars), 1) + MARGIN
    idle = sum(not function.hits for function in profile.functions)
    subtitle = counted(profile.total, "overflow") + (
        f", none in {counted(idle, 'other function')}" if idle else ""
    )
    lines = [
        (
            f'<svg xmlns="http://www.w3.org/2000/svg" width="{WIDTH}" height="{height}" viewBox="0 '
            f'0 {WIDTH} {height}" role="img">'
        ),
        f"<title>{xml_text(title)}</title>",
        f"<style>{STYLE}</style>",
        f'<rect class="page" width="{WIDTH}" height="{height}" rx="6"/>',
        f'<text class="title" x="{MARGIN}" y="{MARGIN + 14}">{xml_text(title)}</text>',
        f'<text class="quiet" x="{MARGIN}" y="{MARGIN + 36}">{subtitle}</text>',
    ]
    for place, bar in enumerate(bars):
        lines += _row(bar, profile.total, HEADING + ROW * place)
    return "\n".join(lines + ["</svg>"]) + "\n"


def _row(bar: Bar, total: int, top: int) -> list[str]:
    length = BAR_ROOM * bar.hits / max(total, 1)
    middle = top + ROW / 2 + 4.5
    bar_top = top + (ROW - BAR) / 2
    label = f"{bar.hits:,}  {share(bar.hits, total)}"
    name = bar.name if len(bar.name) <= LONGEST_NAME else bar.name[: LONGEST_NAME - 1] + "\u2026"
    name_class = "name" if bar.kind == "bar" else "quiet"
    return [
        f"<g><title>{xml_text(f'{bar.name}: {label}')}</title>",
        (
            f'<text class="{name_class}" x="{BAR_START - 12}" y="{middle:g}" '
            f'text-anchor="end">{xml_text(name)}</text>'
        ),
        (
            f'<rect class="track" x="{BAR_START}" y="{bar_top:g}" width="{BAR_ROOM}" '
            f'height="{BAR}" rx="3"/>'
        ),
        (
            f'<rect class="{bar.kind}" x="{BAR_START}" y="{bar_top:g}" '
            f'width="{max(length, 1):.1f}" height="{BAR}" rx="3"/>'
        ),
        (
            f'<text class="name" x="{BAR_START + BAR_ROOM + 12}" '
            f'y="{middle:g}">{share(bar.hits, total)}</text>'
        ),
        (
            f'<text class="quiet" x="{WIDTH - MARGIN}" y="{middle:g}" '
            f'text-anchor="end">{xml_text(bar.note)}</text></g>'
        ),
    ]
