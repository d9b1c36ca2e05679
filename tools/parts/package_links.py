"""The documents of a package: links to what the package has not become plain text. package_links
FOLDER edits each .md file below the folder."""

from __future__ import annotations

import re
import sys
from pathlib import Path

LINK = re.compile(r"!?\[((?:[^][]|\[[^]]*\])*)\]\(([^)\s]+)\)")
ELSEWHERE = re.compile(r"[a-z][a-z0-9+.-]*:")


def leads_somewhere(target: str, document: Path) -> bool:
    """Whether the file of a link is there. Links within a document, and those to other places of
    the world, are taken as they are."""
    file = target.partition("#")[0]
    return not file or ELSEWHERE.match(target) is not None or (document.parent / file).exists()


def without_dead_links(text: str, document: Path) -> str:
    """The text of a document, in which a link that leads nowhere is the words that it had."""
    lines, fenced = [], False
    for line in text.split("\n"):
        if line.startswith("```"):
            fenced = not fenced
        lines.append(
            line
            if fenced
            else LINK.sub(
                lambda link: link[0] if leads_somewhere(link[2], document) else link[1], line
            )
        )
    return "\n".join(lines)


def main(folder: str) -> None:
    for document in Path(folder).rglob("*.md"):
        text = document.read_text(encoding="utf-8")
        document.write_text(without_dead_links(text, document), encoding="utf-8")


if __name__ == "__main__":
    main(sys.argv[1])
