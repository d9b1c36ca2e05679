"""licences/copyright: whose words, numbers and code are where, and that nothing of others is left
out."""

from __future__ import annotations

import subprocess
import unittest
from dataclasses import dataclass
from fnmatch import fnmatchcase
from pathlib import Path

from tests.support import ROOT, some

PAPI = "BSD-3-clause-PAPI"
OURS = "BSD-3-clause"
INSTALLED = "usr/"  # where what is built stands in the package
NOT_PORTED = {"core", "std_alloc", "std_heap"}  # the kit's own library


@dataclass(frozen=True)
class Paragraph:
    """Of the file of copyrights: the fields that begin lines, with what follows until the next."""

    fields: dict[str, str]

    def words(self, field: str) -> list[str]:
        return self.fields.get(field, "").split()


def paragraphs(text: str) -> list[Paragraph]:
    found = []
    for part in text.split("\n\n"):
        fields: dict[str, str] = {}
        name = ""
        for line in part.strip().splitlines():
            if line.startswith(" "):
                fields[name] += f"\n{line[1:]}"
            else:
                name, _, rest = line.partition(":")
                fields[name] = rest.strip()
        found.append(Paragraph(fields))
    return found


MADE = {"out", "__pycache__"}  # folders of what is built


def tracked() -> list[str]:
    """The files of the repository, or of a copy of it that Git does not know."""
    if not (ROOT / ".git").exists():
        paths = (path.relative_to(ROOT) for path in ROOT.rglob("*") if path.is_file())
        return some([str(path) for path in paths if not MADE & set(path.parts)])
    listed = subprocess.run(
        ["git", "ls-files"], cwd=ROOT, check=True, capture_output=True, text=True
    )
    return some(listed.stdout.splitlines())


def licence_text(paragraph: Paragraph) -> list[str]:
    """The lines of a licence, without the marks of empty ones."""
    lines = paragraph.fields["License"].splitlines()[1:]
    return ["" if line == "." else line for line in lines]


class Copyrights(unittest.TestCase):
    def setUp(self) -> None:
        text = (ROOT / "licences/copyright").read_text(encoding="utf-8")
        self.paragraphs = some(paragraphs(text))
        self.files = [each for each in self.paragraphs if "Files" in each.fields]

    def licences_of(self, name: str) -> set[str]:
        """Of the last paragraph that names a file, as Debian reads such a list."""
        named = [each for each in self.files
                 if any(fnmatchcase(name, pattern) for pattern in each.words("Files"))]
        return set(named[-1].words("License")) - {"and"}

    def test_each_pattern_names_a_file(self) -> None:
        names = tracked()
        for paragraph in some(self.files):
            for pattern in some(paragraph.words("Files")):
                if not pattern.startswith(INSTALLED):
                    found = any(fnmatchcase(name, pattern) for name in names)
                    self.assertTrue(found, pattern)

    def test_each_licence_that_is_named_has_its_text(self) -> None:
        texts = {each.words("License")[0] for each in self.paragraphs
                 if "Files" not in each.fields and "License" in each.fields}
        named = {word for each in some(self.files) for word in each.words("License")}
        self.assertEqual(named - {"and"}, texts)

    def test_our_licence_is_that_of_the_file(self) -> None:
        ours = [each for each in self.paragraphs
                if "Files" not in each.fields and each.words("License")[:1] == [OURS]]
        whole = (ROOT / "LICENSE").read_text(encoding="ascii").splitlines()
        self.assertEqual(licence_text(ours[0]), whole[3:])

    def test_headers_with_the_names_of_papi_say_so(self) -> None:
        for header in some(sorted((ROOT / "include").glob("*.h"))):
            expected = {OURS} if header.name == "kistalub.h" else {OURS, PAPI}
            self.assertEqual(self.licences_of(f"include/{header.name}"), expected, header.name)

    def test_files_with_descriptions_of_presets_say_so(self) -> None:
        lines = (ROOT / "crates/preset_csv/presets.csv").read_text(encoding="ascii").splitlines()
        rows = [line.split(",", 2) for line in lines if not line.startswith("#")]
        described = [row[2] for row in some(rows)]
        for name in tracked():
            path = ROOT / name
            text = path.read_text(encoding="utf-8", errors="replace") if path.is_file() else ""
            if sum(each in text for each in described) > len(described) // 2:
                self.assertIn(PAPI, self.licences_of(name), name)

    def test_each_crate_of_the_kit_that_is_linked_is_named(self) -> None:
        lines = (ROOT / "crates.txt").read_text(encoding="ascii").splitlines()
        rows = [line.split(":") for line in lines if line and not line.startswith("#")]
        ours = {head.split()[0] for head, _ in some(rows)}
        linked = {name for _, below in rows for name in below.split()}
        ports = linked - ours - NOT_PORTED
        comments = " ".join(each.fields.get("Comment", "") for each in self.files)
        said = set(comments.replace(",", " ").replace(".", " ").split())
        self.assertEqual(set(some(ports)) - said, set())


class Made(unittest.TestCase):
    """Each file that a program makes as a whole says at its head which program does."""

    WHOLE = {
        "docs/DEFINITIONS.md": "make_definitions", "docs/TOOLS.md": "make_pages",
        "include/f77papi.h": "make_fortran", "include/f90papi.h": "make_fortran",
        "include/fpapi.h": "make_fortran", "c/limits.h": "make_limits",
        "docs/crates.svg": "draw_crates",
        **{f"man/{page.name}": "make_pages" for page in sorted((ROOT / "man").glob("*.1"))},
    }
    HEAD = 600  # bytes

    def test_each_says_what_makes_it(self) -> None:
        for name, maker in self.WHOLE.items():
            head = (ROOT / name).read_bytes()[:self.HEAD].decode("utf-8", "replace")
            self.assertIn(maker, head, name)


if __name__ == "__main__":
    unittest.main()
