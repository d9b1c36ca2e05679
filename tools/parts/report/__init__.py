"""The page that tools/report makes. Scripts and tables are read by `formats`."""
