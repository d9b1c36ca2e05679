"""Elements of HTML and SVG. All text that is not made here is escaped, so a hostile name shows as
text."""

from __future__ import annotations

from html import escape
from typing import Iterable, Union

from parts.xml_text import fit

EMPTY = ("meta", "br")
LONGEST = 400  # characters of a line of source that is shown


class Markup(str):
    """A text that is markup already."""


Child = Union[Markup, str, int, Iterable["Child"], None]


def element(name: str, /, *children: Child, **attributes: object) -> Markup:
    """An element. In the name of an attribute `_` stands for `-`, and one at the end is dropped.
    Attributes that are None or False are left out."""
    given = "".join(
        f' {key.rstrip("_").replace("_", "-")}="{escape(fit(str(value)))}"'
        for key, value in attributes.items() if value is not None and value is not False
    )
    return (
        Markup(f"<{name}{given}>") if name in EMPTY
        else Markup(f"<{name}{given}>{joined(children)}</{name}>")
    )


def joined(child: Child) -> Markup:
    """Children as one piece of markup: texts are escaped, and lists are put together."""
    if child is None:
        return Markup()
    if isinstance(child, Markup):
        return child
    if isinstance(child, (str, int)):
        return Markup(escape(fit(str(child))))
    return Markup("".join(joined(each) for each in child))
