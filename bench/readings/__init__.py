"""What the program is to answer to a file, and what it answered, read by what docs/use/formats.md says alone."""
