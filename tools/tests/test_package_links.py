"""The documents of the package: which links stay."""

from __future__ import annotations

import subprocess
import sys

from parts import package_links
from tests.support import InFolder


class Links(InFolder):
    def test_links_that_lead_nowhere_become_words(self) -> None:
        (self.folder / "docs").mkdir()
        text = (
            "[a](docs/A.md), [b](docs/A.md#b), [`c`](crates/c.rs), ![d](docs/d.svg), ![e](no.svg)\n"
            "[f](#f) [g](https://g.org/x) [h [i]](no)\n```\n[k](no)\n```\n"
        )
        readme = self.write("README.md", text)
        self.write("docs/d.svg", "")
        deep = self.write("docs/A.md", "[up](../README.md) [down](A.md) [out](../crates/x)\n")
        subprocess.run([sys.executable, "-B", package_links.__file__, str(self.folder)], check=True)
        with open(readme, encoding="utf-8") as file:
            self.assertEqual(
                file.read(),
                (
                    "[a](docs/A.md), [b](docs/A.md#b), `c`, ![d](docs/d.svg), e\n"
                    "[f](#f) [g](https://g.org/x) h [i]\n```\n[k](no)\n```\n"
                ),
            )
        with open(deep, encoding="utf-8") as file:
            self.assertEqual(file.read(), "[up](../README.md) [down](A.md) out\n")
