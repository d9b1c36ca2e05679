"""The page of a profile (docs/COUNTING.md). It has the frame of the pages of tools/report."""
