"""What the standards say of each page and each picture: names of elements, values of attributes,
and classes that the style has."""

from __future__ import annotations

import re

# Those of HTML and SVG that the tools may use.
ELEMENTS = frozenset(
    "a b body br button code dd details div dl dt em figcaption figure footer h1 h2 h3 head header "
    "html i kbd li main meta nav ol p pre script section small span strong "
    "style sub summary sup table tbody td th thead title tr ul circle defs g line path polyline "
    "rect svg text tspan".split())
MAY_BE_EMPTY = ("data-", "open")  # how the names of attributes begin
UNSTYLED = {"bar", "matrix", "totals", "tree"}  # classes by which something is found
VALUES = {
    "text-anchor": {"start", "middle", "end"},
    "role": {"img", "group"},
    "type": {"button"},
    "aria-pressed": {"true", "false"},
    "lang": {"en"},
    "charset": {"utf-8"},
}
TAG = re.compile(r'<(/?)([A-Za-z][A-Za-z0-9]*)((?: [A-Za-z][\w:-]*="[^"<>]*")*)(/?)>')


def outside(picture: str) -> list[str]:
    """What of a picture begins or ends out of its box."""
    found = re.match(r'<svg[^>]* viewBox="0 0 ([0-9.]+) ([0-9.]+)"', picture)
    if not found:
        return ["a picture has no box"]
    faults = []
    for _, name, attributes, _ in TAG.findall(picture[found.end() :]):
        given = {
            attribute: float(value)
            for attribute, value in re.findall(r' ([\w-]+)="(-?[0-9.]+)"', attributes)
        }
        for most, places, length in (
            (float(found[1]), ("x", "x1", "x2", "cx"), "width"),
            (float(found[2]), ("y", "y1", "y2", "cy"), "height"),
        ):
            for place in places:
                begin = given.get(place, 0.0)
                end = begin + given.get(length, 0.0) * (place in "xy")
                faults += (
                    [] if 0 <= begin and end <= most
                    else [f"{name} has {place} from {begin:g} to {end:g} of {most:g}"]
                )
    return faults


def faults_of_table(table: str) -> list[str]:
    """Rows that have not as many cells as the head, and cells whose label is not what stands above
    them. On a narrow page such a head is not shown (`stack`)."""
    heads = re.findall(r"<th(?: [^>]*)?>([^<]*)</th>", table)
    is_stack = re.match(r'<table class="[^"]*\bstack\b', table)
    faults = []
    for row in re.findall(r"<tr.*?</tr>", table, re.DOTALL)[1:]:
        cells = re.findall(r"<td((?: [^>]*)?)>", row)
        alone = [
            content
            for attributes, content in re.findall(r"<td((?: [^>]*)?)>(.*?)</td>", row, re.DOTALL)
            if not re.search(r' data-label=| class="main"', attributes)
        ]
        faults += [f"no label stands beside {content}" for content in alone if content and is_stack]
        faults += (
            [] if len(cells) == len(heads)
            else [f"a row has {len(cells)} cells below {len(heads)} heads"]
        )
        labels = [re.findall(r' data-label="([^"]*)"', cell) for cell in cells]
        faults += [
            f"below {head} stands {found[0]}" for head, found in zip(heads, labels)
            if found and found[0] != head
        ]
    return faults


def faults_of(text: str) -> list[str]:
    """What is wrong with a page or a picture: signs that begin no element, names that are none,
    attributes without a value, and classes without a style."""
    whole = re.sub(r"^(?:<!DOCTYPE html>|<\?xml[^>]*\?>)\n", "", text)
    own = "".join(re.findall(r"<(?:style|script)>(.*?)</(?:style|script)>", whole, re.DOTALL))
    whole = re.sub(r"<(style|script)>.*?</\1>", "", whole, flags=re.DOTALL)
    faults = [
        f"no element begins at {rest[:40]}" for rest in re.findall(r"<.*", TAG.sub("", whole))
    ]
    styled = UNSTYLED | set(re.findall(r"\.([a-z][\w-]*)", own))
    for _, name, attributes, _ in TAG.findall(whole):
        faults += [] if name in ELEMENTS else [f"there is no element {name}"]
        for attribute, value in re.findall(r' ([\w:-]+)="([^"]*)"', attributes):
            if not value and not attribute.startswith(MAY_BE_EMPTY):
                faults.append(f"{name} has an empty {attribute}")
            if value not in VALUES.get(attribute, {value}):
                faults.append(f"{attribute} is {value}")
            faults += [
                f"no style has the class {each}" for each in value.split()
                if attribute == "class" and each not in styled
            ]
    for table in re.findall(r"<table.*?</table>", whole, re.DOTALL):
        faults += faults_of_table(table)
    for picture in re.findall(r"<svg.*?</svg>", whole, re.DOTALL):
        faults += outside(picture)
    return sorted(set(faults))
