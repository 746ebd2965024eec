"""What the scripts in `tools/` share. None of it is proved; docs/FORMATS.md and the program `mcos` decide."""
