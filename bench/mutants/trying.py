"""Tries edits in a clone: what the prover says of each.

An edit is tried first on the function that it changes, then on its module: a function that isn't proved there isn't in the whole crate
either. What passes so, or changes a definition, is tried on the whole crate, as the gate does it.
"""

import os
import pathlib
import re
import shutil
import subprocess

from bench.mutants.edits import Edit, edited
from bench.repository import dependencies

# What `rt must-fail` says of an edit.
SAID = re.compile(r"must-fail (?P<crate>\w+)/(?P<name>[\w.-]+)\.edit: (?P<told>.*)$", re.MULTILINE)
VERDICTS = {"refused": "refused", "NOT REFUSED": "passed", "BAD EDIT": "doesn't apply", "NOT TRIED": "not tried"}


def standing_on(crates: dict[str, list[str]], changed: set[str]) -> set[str]:
    """These crates and all that stand on them."""
    found = set(changed)
    while more := {crate for crate, below in crates.items() if crate not in found and found & set(below)}:
        found |= more
    return found


def changed_since(top: pathlib.Path, commit: str) -> set[str]:
    """The crates of which a file differs from that of a commit, and those that stand on them."""
    words = ["git", "diff", "--name-only", commit, "--", "crates", "bench/mutants"]
    said = subprocess.run(words, cwd=top, capture_output=True, text=True, check=True).stdout
    named = {m[1] for m in re.finditer(r"^(?:crates|bench/mutants)/(\w+)/", said, re.MULTILINE)}
    return standing_on(dependencies((top / "crates.txt").read_text(encoding="ascii")), named)


def make_clone(top: pathlib.Path, folder: pathlib.Path, edits: list[Edit]) -> None:
    """A copy of the crates as they stand, with just these edits in it."""
    shutil.copytree(top / "crates", folder / "crates", ignore=shutil.ignore_patterns("out", "must-fail"))
    for name in ("crates.txt", "HANDLES"):
        shutil.copy(top / name, folder / name)
    for edit in edits:
        there = folder / "crates" / edit.crate / "must-fail"
        there.mkdir(exist_ok=True)
        shutil.copy(edit.path, there / edit.path.name)


def verdict_of(told: str) -> str:
    """What came of an edit, by the first words of what was said of it."""
    return next((verdict for words, verdict in VERDICTS.items() if told.startswith(words)), "not tried")


def reason_of(told: str) -> str:
    """Where the prover refused an edit, or why it wasn't tried, without the words that each line has."""
    return told.partition(": ")[2].strip()


def verdicts(said: str) -> dict[str, tuple[str, str]]:
    """The verdict on each edit, by its label, with its reason."""
    found = SAID.finditer(said)
    return {f"{m['crate']}/{m['name']}": (verdict_of(m["told"]), reason_of(m["told"])) for m in found}


# The head of a function, and that of the block that gives a type its functions.
FUNCTION = re.compile(r"^(?P<indent> *)(?:pub(?:\(\w+\))? )?(?:const )?fn (?P<name>\w+)", re.MULTILINE)
OWNER = re.compile(r"^impl\b(?:.* for |<.*?> | )(?P<owner>\w+)", re.MULTILINE)


def function_of(text: str, module: str, place: int) -> str:
    """The function around a place of a module's text, as `rt check --only` names it; the module where no function begins before it."""
    heads = list(FUNCTION.finditer(text, 0, place))
    if not heads:
        return module
    owners = list(OWNER.finditer(text, 0, heads[-1].start())) if heads[-1]["indent"] else []
    return "::".join([module, *(found["owner"] for found in owners[-1:]), heads[-1]["name"]])


# What a check of one module says at its end, of a function that isn't proved, and of a place.
COUNT = re.compile(r"^only=(?P<all>\d+) proved=(?P<proved>\d+)$", re.MULTILINE)
NOT_PROVED = re.compile(r"^fn (?P<function>\S+): (?:not proved|no proof: (?!it calls)(?P<open>.*))$", re.MULTILINE)
PLACE = re.compile(r"^(?:\./)?(?P<path>\S+?):\d+:\d+: error: (?P<name>`[^`]*`: )?(?P<told>.*)$", re.MULTILINE)
# What a proof file says where it names what an edit took away: that tells little of a contract.
NAMES = re.compile(r"has no field|is not in scope|has no `|was not admitted")


def module_of(file: str) -> str | None:
    """The module of a source file as `rt check --only` names it; none of the crate's own file, a definition or a proof."""
    found = re.fullmatch(r"src/(?!lib\.rt|main\.rt)(?P<module>[\w/]+?)(?:/mod)?\.rt", file)
    return found["module"].replace("/", "::") if found else None


def refusal_of(said: str) -> str | None:
    """Why the check of a module refuses an edit; nothing where it proves all, or could not read the edited text."""
    count, function = COUNT.search(said), NOT_PROVED.search(said)
    places = list(PLACE.finditer(said))
    unread = any(not place["name"] and place["path"].startswith("src/") for place in places)
    if unread or not count or not function or int(count["proved"]) >= int(count["all"]):
        return None
    if function["open"]:
        return f"{function['function']}: {function['open'].rpartition('; ')[2][:160]}"
    telling = next((place for place in places if not NAMES.search(place["told"])), None)
    if telling is None:
        return f"{function['function']}, only because a proof names what the edit took away"
    return f"{function['function']}, {telling['path']}: {telling['name'] or ''}{telling['told'][:100]}"


def said_by(words: list[str], there: pathlib.Path, jobs: int) -> tuple[int, str]:
    """The status of a run of the toolchain in a folder, and all that it says."""
    env = os.environ | {"RT_JOBS": str(jobs)}
    run = subprocess.run(words, cwd=there, env=env, stdout=subprocess.PIPE, stderr=subprocess.STDOUT, check=False)
    return run.returncode, run.stdout.decode("utf-8", "replace")


def refused_alone(crate: pathlib.Path, edit: Edit, jobs: int) -> str | None:
    """Why the function or the module that an edit changes isn't proved with it, or nothing where that doesn't tell."""
    module, path = module_of(edit.file), crate / edit.file
    if module is None:
        return None
    before = path.read_text(encoding="utf-8")
    after = edited(before, edit)
    if after is None:
        return None
    path.write_text(after, encoding="utf-8")
    try:
        parts = dict.fromkeys((function_of(before, module, before.index(edit.pairs[0][0])), module))
        said = (said_by(["rt", "check", "--jobs", str(jobs), "--only", part], crate, jobs)[1] for part in parts)
        return next((reason for reason in map(refusal_of, said) if reason is not None), None)
    finally:
        path.write_text(before, encoding="utf-8")


def tried_whole(folder: pathlib.Path, crate: str, jobs: int) -> dict[str, tuple[str, str]]:
    """Proves a crate of a clone, and tries the edits in its folder as the gate does."""
    if said_by(["rt", "check", "--jobs", str(jobs)], folder / "crates" / crate, jobs)[0]:
        return {}
    return verdicts(said_by(["rt", "must-fail", crate], folder, jobs)[1])


def tried(folder: pathlib.Path, crate: str, edits: list[Edit], jobs: int) -> dict[str, tuple[str, str]]:
    """Tries the edits of a crate in a clone, each on its module first."""
    found: dict[str, tuple[str, str]] = {}
    there = folder / "crates" / crate
    for edit in edits:
        reason = refused_alone(there, edit, jobs)
        if reason is not None:
            found[edit.label] = ("refused", reason)
            (there / "must-fail" / edit.path.name).unlink()
    return found if len(found) == len(edits) else found | tried_whole(folder, crate, jobs)
