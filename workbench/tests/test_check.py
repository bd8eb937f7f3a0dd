"""`workbench/check` where it can't check: it says why, and fails."""

from __future__ import annotations

from pathlib import Path

from conftest import WORKBENCH, Ran, started


def checked(folder: Path, core: str, packages: str, user: int, installs: str = "exit 100") -> Ran:
    """Runs a copy of it beside a list of packages, for a user of this number and an apt-get of ours."""
    for name, script in (("id", f"echo {user}"), ("apt-get", installs)):
        (folder / name).write_text(f"#!/bin/sh\n{script}\n")
        (folder / name).chmod(0o755)
    for name in ("check", "checking.sh"):
        (folder / name).write_bytes((WORKBENCH / name).read_bytes())
    (folder / "packages").write_text(packages)
    return started(["sh", str(folder / "check"), core], folder, b"", PATH=f"{folder}:/usr/bin:/bin")


def last(ran: Ran) -> str:
    return ran.out.decode().splitlines()[-1]


def test_without_the_right_to_install_the_packages_are_named(tmp_path: Path, core: str) -> None:
    ran = checked(tmp_path, core, "# ours\npython3 (>= 3.11)\nno-such-package\n", 1000)
    assert (ran.status, last(ran)) == (1, "0 passed, 1 failed")
    assert "there are no packages no-such-package, and no right to install them" in ran.err


def test_what_can_not_be_installed_is_named(tmp_path: Path, core: str) -> None:
    ran = checked(tmp_path, core, "no-such-package\n", 0)
    assert (ran.status, last(ran)) == (1, "0 passed, 1 failed")
    assert "the packages no-such-package could not be installed" in ran.err


def test_what_is_missing_is_installed_by_root(tmp_path: Path, core: str) -> None:
    checked(tmp_path, core, "no-such-package\npython3\n", 0, f'echo "$*" >> {tmp_path}/called')
    calls = (tmp_path / "called").read_text().splitlines()
    assert calls == ["-q update", "-q install -y --no-install-recommends no-such-package"]


def test_nothing_to_check_is_a_failure(tmp_path: Path, core: str) -> None:
    ran = checked(tmp_path, core, "python3\n", 1000)
    assert ran.status == 1 and last(ran).startswith("0 passed, ")


def test_wrong_words_are_a_failure(tmp_path: Path) -> None:
    ran = checked(tmp_path, "/etc/passwd", "python3\n", 1000)
    assert (ran.status, last(ran)) == (1, "0 passed, 1 failed") and "/etc/passwd is no program" in ran.err
