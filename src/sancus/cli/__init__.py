"""The command line: what `sancus` reads, prints and says. docs/FORMATS.md has what the program itself does."""
