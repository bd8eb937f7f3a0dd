"""The program that is looked at: how a script names it, runs it, and gives it files."""

import argparse
import os
import pathlib
import subprocess
from collections.abc import Mapping

TOP = pathlib.Path(__file__).resolve().parent.parent  # of the repository
WORKBENCH = TOP / "workbench" / "murdjohe"  # the command around the program


def parts_of(doc: str) -> tuple[str, str]:
    """The usage of a script's head, and the head without it."""
    first, _, rest = doc.partition("usage: ")
    usage, _, body = rest.partition("\n\n")
    return usage.rstrip(), first + body


def parser(doc: str | None, **options: float | str) -> argparse.ArgumentParser:
    """A reader of a script's words, whose help is the script's head, with options of these defaults; False is that of a flag."""
    usage, head = parts_of(doc or "")
    form = argparse.RawDescriptionHelpFormatter
    words = argparse.ArgumentParser(usage=usage.replace("%", "%%"), description=head, formatter_class=form)
    for name, default in options.items():
        option = f"--{name.replace('_', '-')}"
        if default is False:
            words.add_argument(option, action="store_true")
        else:
            words.add_argument(option, type=type(default), default=default)
    return words


def path(name: str) -> str:
    """A path that holds in any folder."""
    return os.path.abspath(name)


def program_words(doc: str | None, **options: float | str) -> argparse.ArgumentParser:
    """The same with a first word PROGRAM, whose path is made one that holds in any folder."""
    words = parser(doc, **options)
    words.add_argument("program", type=path)
    return words


def octets(program: str, words: list[str], folder: str | None = None) -> tuple[int, bytes]:
    """The status and the octets of the answer to these words."""
    run = subprocess.run([program, *words], cwd=folder, capture_output=True, check=False)
    return run.returncode, run.stdout


def answer(program: str, *words: str | int, folder: str | None = None) -> tuple[int, str]:
    """The status and the text of the answer to these words, each octet as one sign."""
    status, text = octets(program, [str(word) for word in words], folder)
    return status, text.decode("latin-1")


def put_files(folder: str | pathlib.Path, files: Mapping[str, str | bytes]) -> None:
    """Writes files by name into a folder."""
    for name, content in files.items():
        path_of = pathlib.Path(folder, name)
        path_of.parent.mkdir(parents=True, exist_ok=True)
        path_of.write_bytes(content if isinstance(content, bytes) else content.encode("utf-8"))
