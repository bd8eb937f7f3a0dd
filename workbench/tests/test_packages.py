"""The packages of the workbench: which imports which, as the README draws it, and that its map has every module."""

from __future__ import annotations

import ast
import re
from collections.abc import Iterator
from functools import cache
from pathlib import Path

import pytest
from conftest import TOP

import murdjohe

SOURCE = TOP / "workbench" / "src" / "murdjohe"
README = (TOP / "workbench" / "README.md").read_text()
BESIDE = {"main", "tasks"}  # modules beside the packages
PACKAGES = sorted(path.parent.name for path in SOURCE.glob("*/__init__.py"))


def drawn() -> dict[str, list[str]]:
    """What each package imports by the drawing, without what follows from that."""
    arrows = re.findall(r"^(\w+) *-> (\w+(?:, \w+)*)$", README, re.M)
    return {name: others.split(", ") for name, others in arrows}


@cache
def below(package: str) -> frozenset[str]:
    """What a package may import by the drawing. Ends only where nothing leads back."""
    direct = drawn().get(package, [])
    return frozenset(direct).union(*(below(other) for other in direct))


def imported(path: Path) -> Iterator[tuple[int, str]]:
    """The packages, and modules beside them, that a module imports anywhere in it, with the line."""
    for node in ast.walk(ast.parse(path.read_text())):
        if isinstance(node, ast.ImportFrom) and node.module and node.module.split(".")[0] == "murdjohe":
            inner = node.module.split(".")[1:2] or [alias.name for alias in node.names]
            yield from ((node.lineno, name) for name in inner)
        assert not (isinstance(node, ast.ImportFrom) and node.level), f"{path}: relative import"


def package_of(path: Path) -> str:
    """The package of a module, or the module itself where it stands beside the packages."""
    return path.relative_to(SOURCE).with_suffix("").parts[0]


def against(path: Path) -> list[str]:
    """The imports of a module that the drawing hasn't."""
    mine = package_of(path)
    return [
        f"{path.relative_to(SOURCE)}:{line}: {mine} imports {name}"
        for line, name in imported(path)
        if name != mine and name not in below(mine)
    ]


def named_in_map() -> dict[str, set[str]]:
    """The modules of each package that the map of the README has a line for."""
    found: dict[str, set[str]] = {}
    package = ""
    for cell in re.findall(r"^\| ((?:\*\*)?`[^|]+) \|", README.partition("### Packages and modules")[2], re.M):
        names = re.findall(r"`(\w+)`", cell)
        if cell.startswith("**"):
            package = names[0]
            found[package] = set()
        else:
            found[package].update(names)
    return found


def test_no_module_imports_against_the_drawing() -> None:
    modules = [path for path in sorted(SOURCE.rglob("*.py")) if path.name not in ("__init__.py", "__main__.py")]
    assert len(modules) > 100
    assert [line for path in modules for line in against(path)] == []


def test_the_drawing_has_each_package_and_no_arrow_too_many() -> None:
    assert sorted({*drawn(), "core"} - BESIDE) == PACKAGES
    used = {
        package: {name for path in SOURCE.glob(f"{package}/*.py") for _, name in imported(path)} for package in PACKAGES
    }
    assert [(one, other) for one in PACKAGES for other in drawn().get(one, []) if other not in used[one]] == []


@pytest.mark.parametrize("package", PACKAGES)
def test_a_package_says_what_it_knows_and_offers(package: str) -> None:
    said = ast.get_docstring(ast.parse((SOURCE / package / "__init__.py").read_text())) or ""
    assert "\nKnows " in said and " Offers " in said.replace("\n", " ") and len(said.splitlines()) <= 7
    assert package not in murdjohe.__all__  # (a package would stand in the way of the function)


def test_the_map_has_a_line_for_each_module() -> None:
    there = {package: {path.stem for path in (SOURCE / package).glob("*.py")} - {"__init__"} for package in PACKAGES}
    assert named_in_map() == there | {name: set() for name in BESIDE}


def test_public_modules_are_read_when_they_are_asked_for() -> None:
    assert murdjohe.reports.Verdict(True, None).is_accepted and murdjohe.api.Refused is murdjohe.Refused
    with pytest.raises(AttributeError, match="has no attribute 'nothing'"):
        getattr(murdjohe, "nothing")
