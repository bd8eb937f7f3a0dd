"""Any words at all: a status that has a meaning, and never a mistake of the command itself."""

from __future__ import annotations

import asyncio
import json
from pathlib import Path

import pytest
from conftest import CASES, EXAMPLES
from hypothesis import HealthCheck, given, settings
from hypothesis import strategies as st

from murdjohe import main
from murdjohe.commands import cli
from murdjohe.core import streams
from murdjohe.core.forms import FORMS
from murdjohe.desk import server

FILES = [*"plan certificate events cases report capture rows nosuch . - /dev/null p\udcffq ä".split(), ""]
OPTIONS = "-q --quiet --json --help -h --version -- -x --near -o out.dot out.svg --report".split()
OTHERS = [*"I II III A 20m 0 99 -5 1e9 25h 12:00:00 3 2001 plan=".split(), "\n", "\x1b[2J"]
NAMES = st.sampled_from([*FORMS, *cli.OWN])
REST = st.sampled_from(FILES), st.sampled_from(OPTIONS), st.sampled_from(OTHERS)
WORDS = st.lists(st.one_of(NAMES, *REST), max_size=6)
LIKELY = st.builds(lambda name, rest: [name, *rest], NAMES, st.lists(st.one_of(*REST), max_size=4))


def at_once(_: object) -> asyncio.Event:
    """What ends a desk as soon as it is served."""
    ended = asyncio.Event()
    ended.set()
    return ended


@pytest.fixture
def files(folder: Path, monkeypatch: pytest.MonkeyPatch) -> Path:
    """A folder with a file of each kind, in which a desk ends at once."""
    monkeypatch.setattr(server.Server, "ending", at_once)
    monkeypatch.setenv("XDG_STATE_HOME", str(folder / "states"))
    at = {"plan": "plan.toml", "certificate": "certificate.csv", "events": "events.csv", "report": "report"}
    at = {name: f"ring/{file}" for name, file in at.items()}
    for name, source in (at | {"capture": "lab/capture.pcap", "rows": "lab/stimulus.rows"}).items():
        (folder / name).write_bytes((EXAMPLES / source).read_bytes())
    (folder / "cases").write_text("case,at,what,target,value\n,5,down,L1,\na,9,up,L1,\n")
    return folder


@settings(max_examples=2 * CASES, suppress_health_check=[HealthCheck.function_scoped_fixture])
@given(words=st.one_of(WORDS, LIKELY))
def test_any_words_have_a_status(files: Path, capfd: pytest.CaptureFixture[str], words: list[str]) -> None:
    status = main.guarded(words, streams.Output(False))
    out, err = capfd.readouterr()
    assert status in (*range(12), *range(20, 25)), (words, err)
    assert "Traceback" not in err and all(line.startswith("murdjohe: ") for line in err.splitlines()), (words, err)
    if "--json" in words and out.startswith("{"):
        assert json.loads(out)["status"] == status
