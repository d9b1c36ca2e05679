"""The causes of faults, as the program writes them on the line that names a row or a line of a file
(docs/FORMATS.md). A test compares them with what is proved."""

from __future__ import annotations

BAD_ROW = "bad row"
OVER_LIMIT = "over a limit"
REPEATED_NAME = "repeated name"
BAD_WIDTH = "width out of range"
UNKNOWN_COUNTER = "unknown counter"
NO_CPU = "preset before cpu"
BAD_FIELD = "bad field"
BROKEN_FORMULA = "broken formula"
OVERLAP = "ranges overlap"
BAD_THREAD = "bad thread"
UNKNOWN_CALL = "unknown call"
BAD_ARGUMENTS = "wrong arguments"
BAD_NUMBER = "bad number"
WRONG_REGION = "wrong region"
NOT_ENDED = "region not ended"
LONG_LINE = "line too long"
LONG_STREAM = "stream too long"
BAD_FIELDS = "wrong number of fields"
STAMP_STAYS = "stamp does not rise"

CALL_CAUSES = (OVER_LIMIT, BAD_THREAD, UNKNOWN_CALL, BAD_ARGUMENTS, BAD_NUMBER)
# The causes that a file of each kind may have. bin/usage/errors has the same kinds.
CAUSES = {
    "unit": (BAD_ROW, OVER_LIMIT, REPEATED_NAME, BAD_WIDTH, UNKNOWN_COUNTER),
    "presets": (NO_CPU, BAD_FIELD, OVER_LIMIT, BROKEN_FORMULA),
    "map": (BAD_ROW, OVER_LIMIT, REPEATED_NAME, OVERLAP),
    "script": CALL_CAUSES,
    "regions": (*CALL_CAUSES, WRONG_REGION, NOT_ENDED),
    "stream": (LONG_LINE, LONG_STREAM, BAD_FIELDS, BAD_FIELD, STAMP_STAYS),
}


def one_of(*kinds: str) -> str:
    """A pattern of the causes that files of these kinds may have."""
    return f"(?:{'|'.join(dict.fromkeys(cause for kind in kinds for cause in CAUSES[kind]))})"
