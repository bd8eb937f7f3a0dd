"""What the scripts share that make calls of the program fail: a library that is loaded before the C library, and runs
over it."""

import os
import subprocess
from typing import NamedTuple

from bench.programs import FOLDER


class Failed(NamedTuple):
    """Status, octets and complaint of a run, and whether it made fewer calls than the one that was to fail."""

    status: int
    text: bytes
    complaint: bytes
    fewer: bool


def build(folder: str, name: str) -> str:
    """The library of one of the C programs, built in a folder."""
    shim = os.path.join(folder, f"{name}.so")
    subprocess.run(["cc", "-shared", "-fPIC", "-O1", "-o", shim, str(FOLDER / f"{name}.c"), "-ldl"], check=True)
    return shim


def run(words: list[str], shim: str, folder: str | None, **settings: str) -> Failed:
    """A run over the library with these settings."""
    read, write = os.pipe()
    env = dict(os.environ, LD_PRELOAD=shim, COUNT_TO=str(write), **settings)
    done = subprocess.run(words, capture_output=True, env=env, pass_fds=[write], cwd=folder, check=False)
    os.close(write)
    fewer = os.read(read, 8) == b"end"
    os.close(read)
    return Failed(done.returncode, done.stdout, done.stderr, fewer)
