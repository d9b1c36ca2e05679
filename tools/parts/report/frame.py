"""The frame of a page: its head with the style and the script in it, what stands at its top, and
its sections."""

from __future__ import annotations

from dataclasses import dataclass, field
from pathlib import Path
from typing import Sequence

from parts.report.markup import Markup, element

FOLDER = Path(__file__).resolve().parent
# The page fetches nothing: what is not in it is refused by the browser.
POLICY = "default-src 'none'; style-src 'unsafe-inline'; script-src 'unsafe-inline'; img-src data:"


@dataclass(frozen=True)
class Section:
    key: str
    title: str
    lead: str
    body: Sequence[Markup] = field(default_factory=list)


@dataclass(frozen=True)
class Top:
    """What stands above the sections: what kind of page it is, its title, the kinds and names of
    its files, tiles, and the chips that pick what is shown."""

    kind: str
    title: str
    files: Sequence[tuple[str, str]]
    tiles: Markup
    chips: Markup


def _head(title: str, style: str) -> Markup:
    return element(
        "head",
        element("meta", charset="utf-8"),
        element("meta", http_equiv="Content-Security-Policy", content=POLICY),
        element("meta", name="viewport", content="width=device-width, initial-scale=1"),
        element("meta", name="color-scheme", content="light dark"),
        element("title", title),
        element("style", Markup((FOLDER / "style.css").read_text(encoding="utf-8") + style)),
    )


def chip(text: str, tone: str, **data: object) -> Markup:
    return element(
        "button", text, type="button", class_=f"chip {tone}".strip(), aria_pressed="false", **data
    )


def chips(label: str, body: Sequence[Markup]) -> Markup:
    return element(
        "div", element("span", "Show"), body, class_="filter", role="group", aria_label=label
    )


def framed(top: Top, sections: Sequence[Section], maker: str, style: str = "") -> str:
    """The whole page as a text. Sections without a body are left out."""
    kept = [section for section in sections if section.body]
    links = [element("a", section.title, href=f"#{section.key}") for section in kept]
    listed = [
        element("span", element("b", kind), " ", element("code", name)) for kind, name in top.files
    ]
    header = element(
        "header", element("p", top.kind, class_="over"), element("h1", top.title),
        element("p", listed, class_="files"), top.tiles,
    )
    bar = element("div", element("nav", links), top.chips, class_="bar-top")
    body = [
        element(
            "section", element("h2", section.title),
            [element("p", section.lead, class_="lead")] * bool(section.lead), section.body,
            id=section.key, class_="card",
        )
        for section in kept
    ]
    script = element("script", Markup((FOLDER / "page.js").read_text(encoding="utf-8")))
    foot = element(
        "footer",
        f"Made by {maker} of Kistalub. The page has all that it needs and fetches nothing.",
    )
    page = element(
        "html", _head(top.title, style),
        element("body", header, bar, element("main", body), foot, script), lang="en",
    )
    return f"<!DOCTYPE html>\n{page}\n"
