"""Programs that scripts build and run, each in a file of its own: in C and shell. `plain.rs` is built by hand."""

import pathlib

FOLDER = pathlib.Path(__file__).resolve().parent


def text(name: str) -> str:
    """The text of one of the programs."""
    return (FOLDER / name).read_text(encoding="utf-8")
