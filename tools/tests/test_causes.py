"""formats.causes: the causes of faults are those of the definitions, and each has its case in what
is said of error lines."""

from __future__ import annotations

import re
import unittest

from formats.causes import CAUSES, one_of
from tests.support import ROOT

# Where the words of each kind are defined.
DEFINED = {
    "unit": ("event_tables/specs/Unit.antt", "cause_text"),
    "presets": ("preset_csv/specs/Presets.antt", "cause_text"),
    "map": ("profil_hist/specs/Maps.antt", "cause_text"),
    "script": ("script_lines/specs/Causes.antt", "text_of"),
    "regions": ("region_report/specs/Causes.antt", "text_of"),
    "stream": ("papi_base/specs/LineCauses.antt", "cause_text"),
}
PLACES = {
    "unit": "papi: NAME: row R",
    "presets": "papi: NAME: row R",
    "map": "papi: NAME: row R",
    "script": "papi: NAME: line L",
    "regions": "papi: NAME: line L",
    "stream": "papi: stream T: line L",
}


class Causes(unittest.TestCase):
    def test_they_are_those_that_are_defined(self) -> None:
        self.assertEqual(set(CAUSES), set(DEFINED))
        for kind, (file, name) in DEFINED.items():
            text = (ROOT / "crates" / file).read_text(encoding="utf-8")
            self.assertEqual(
                tuple(re.findall(rf'^{name} .* = codes "(.*)"$', text, re.M)), CAUSES[kind], kind
            )

    def test_each_has_its_case_in_the_usage(self) -> None:
        blocks = [
            block.split("\n")
            for block in (ROOT / "bin/usage/errors").read_text(encoding="utf-8").split("\n\n")[1:]
        ]
        for kind, place in PLACES.items():
            said = [
                lines[0].removeprefix(f"{place}: ") for lines in blocks
                if lines[1].split()[0] == kind and lines[0].startswith(f"{place}: ")
            ]
            self.assertEqual(sorted(said), sorted(CAUSES[kind]), kind)

    def test_a_pattern_fits_the_causes_of_its_kinds_alone(self) -> None:
        for cause in CAUSES["map"]:
            self.assertRegex(cause, f"^{one_of('unit', 'map')}$")
        self.assertNotRegex("wrong region", one_of("unit", "script"))
        self.assertEqual(one_of("unit", "unit"), one_of("unit"))


if __name__ == "__main__":
    unittest.main()
