"""Which workbench, which proved program, and by which toolchain."""

from __future__ import annotations

import hashlib

from elftools.common.exceptions import ELFError
from elftools.elf.elffile import ELFFile

import murdjohe
from murdjohe.core import program

SECTION = ".murdjohe"  # the section of a program that says its commit and toolchain
UNKNOWN = "unknown"


def built_of(path: str) -> tuple[str, str]:
    """The commit and the toolchain that were built into a program. A checkout around it is not asked, since a program may have been
    built of another commit."""
    try:
        with open(path, "rb") as file:
            section = ELFFile(file).get_section_by_name(SECTION)
            lines = section.data().decode().splitlines() if section else []
    except (OSError, ELFError, UnicodeDecodeError):
        lines = []
    told = dict(line.split(" ", 1) for line in lines if " " in line)
    return told.get("commit", UNKNOWN), told.get("toolchain", UNKNOWN)


def text() -> str:
    """The lines of --version. Raises core.Absent where there is no program."""
    path = program.find()
    with open(path, "rb") as file:
        digest = hashlib.file_digest(file, "sha256").hexdigest()
    commit, toolchain = built_of(path)
    return (
        f"murdjohe {murdjohe.__version__}\n"
        f"core {path}, sha256 {digest[:16]}\n"
        f"core's commit: {commit}\n"
        f"toolchain: {toolchain}\n"
    )
