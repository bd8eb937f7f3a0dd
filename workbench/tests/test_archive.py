"""The Debian package and the archive: the same bytes each time, and an archive that installs and runs."""

from __future__ import annotations

import hashlib
import os
import shutil
import subprocess
import tarfile
from pathlib import Path

import pytest
from conftest import EXAMPLES, TOP, started


def made(kind: str, core: str, folder: Path) -> Path:
    """The package or the archive, made into a folder."""
    run = subprocess.run([str(TOP / "packaging" / kind), core, str(folder)], capture_output=True, check=False)
    assert run.returncode == 0, run.stderr.decode()
    (found,) = folder.iterdir()
    return found


@pytest.mark.parametrize("kind", ["deb", "tar"])
def test_it_has_the_same_bytes_each_time(tmp_path: Path, core: str, kind: str) -> None:
    if shutil.which("dpkg-deb") is None:
        pytest.skip("there is no dpkg-deb")
    first = made(kind, core, tmp_path / "one")
    os.utime(TOP / "man" / "murdjohe.1")
    second = made(kind, core, tmp_path / "two")
    assert hashlib.sha256(first.read_bytes()).digest() == hashlib.sha256(second.read_bytes()).digest()


def test_an_archive_installs_and_runs(tmp_path: Path, core: str) -> None:
    with tarfile.open(made("tar", core, tmp_path / "made")) as archive:
        archive.extractall(tmp_path)
    (unpacked,) = tmp_path.glob("murdjohe-*")
    assert "python3-click" in (unpacked / "NEEDS").read_text()
    ran = started([str(unpacked / "install"), str(tmp_path / "there")])
    assert ran.status == 0 and b"there/bin/murdjohe" in ran.out
    command = str(tmp_path / "there" / "bin" / "murdjohe")
    ran = started([command, "rank", "plan.toml"], EXAMPLES / "ring", b"", MURDJOHE_CORE="", PATH="/usr/bin:/bin")
    assert (ran.status, ran.out) == (1, b"cycle L1>B L2>C L3>A\n")
    assert (
        tmp_path / "there" / "share" / "man" / "man1" / "murdjohe-why.1"
    ).read_text() == ".so man1/murdjohe-running.1\n"


def test_without_the_toolchain_a_sentence_says_what_it_is(tmp_path: Path) -> None:
    ran = started([str(TOP / "packaging" / "look")], None, b"", PATH="/usr/bin:/bin")
    if shutil.which("rt", path="/usr/bin:/bin"):
        pytest.skip("the toolchain is there")
    assert ran.status == 1 and "The program is written in Rattle" in ran.err and "needs no toolchain" in ran.err
