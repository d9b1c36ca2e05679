"""What is known here of the formats, as docs/FORMATS.md and the usage texts say them: lines of
scripts and streams, rows of tables, names of events, words of tools, and refusals of calls. The
hints are made with it, and tools, checks and tests import it. It is not proved: where the program
says something else, the program is right."""
