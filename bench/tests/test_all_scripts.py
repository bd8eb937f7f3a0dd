"""Each script of bench/ that wants neither the toolchain nor valgrind nor tshark, with a few cases or small numbers.

A line of the file `scripts` is a script with its words: a module of bench/, or a file of the repository where its name has
a slash. PROGRAM stands for the program that the environment names so. Those that take longest stand first.
"""

import os
import shlex
import subprocess
import sys
from pathlib import Path

import pytest

from bench.program import TOP

LINES = Path(__file__).with_name("scripts").read_text(encoding="utf-8").splitlines()


@pytest.mark.parametrize("line", LINES)
def test_a_script(line: str) -> None:
    first, *words = [os.environ["PROGRAM"] if word == "PROGRAM" else word for word in shlex.split(line)]
    command = [str(TOP / first)] if "/" in first else [sys.executable, "-B", "-m", f"bench.{first}"]
    run = subprocess.run(
        [*command, *words], cwd=TOP, stdin=subprocess.DEVNULL, capture_output=True, text=True, check=False
    )
    assert run.returncode == 0, run.stdout + run.stderr
