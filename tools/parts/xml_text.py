"""Text in a picture or on a page: what is made of names, words and files shows as text, whatever it
is."""

from __future__ import annotations

import re
from html import escape

# What no document of XML 1.0 or HTML has: most control characters, halves of pairs, and two that
# are no characters. Those that change a line or hide what stands in it are taken out too.
UNFIT = re.compile(
    "[\x00-\x08\x0b\x0c\x0e-\x1f\x7f-\x9f\ud800-\udfff"
    "\u2028\u2029\u202a-\u202e\u2066-\u2069\ufffe\uffff]"
)
SPACES = re.compile("[\t\n\r]")


def fit(text: str) -> str:
    """A text of which each character may stand in a document."""
    return UNFIT.sub("\ufffd", text)


def xml_text(text: str) -> str:
    """A text as an element or an attribute of XML has it, on one line."""
    return escape(SPACES.sub("\ufffd", fit(text)), quote=False).replace('"', "&quot;")
