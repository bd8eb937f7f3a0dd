"""Help is no wider than the terminal, but for commands that somebody copies, and breaks between words."""

from __future__ import annotations

import pytest
from conftest import murdjohe

from murdjohe.commands import cli, topics, widths
from murdjohe.core.forms import FORMS

BELOW = [["capture", name] for name in ("read", "watch", "node", "compare", "write")]


def test_lines_break_between_words() -> None:
    long = "  22  a file is there already, or is read by the same command, and isn't written over"
    assert widths.fitted(long, 50).split("\n") == [
        "  22  a file is there already, or is read by the",
        "      same command, and isn't written over",
    ]
    text = (
        "the first line of a paragraph that is long\nand its second.\n\nshort\n  $ a command that is as long as it is"
    )
    assert widths.fitted(text, 30).split("\n") == [
        "the first line of a paragraph",
        "that is long and its second.",
        "",
        "short",
        "  $ a command that is as long as it is",
    ]
    assert widths.fitted(text, 80) == text


@pytest.mark.parametrize("words", [[name] for name in (*FORMS, *cli.OWN)] + BELOW, ids="-".join)
def test_help_is_no_wider_than_the_terminal(words: list[str]) -> None:
    text = murdjohe(*words, "--help", COLUMNS="80").out.decode()
    wide = [line for line in text.splitlines() if len(line) > 80 and not line.lstrip().startswith(("$", "#"))]
    assert wide == [] and text


@pytest.mark.parametrize("topic", [topic for topic in topics.TOPICS if topic not in ("json", "plan", "tables")])
def test_topics_keep_their_words(topic: str) -> None:
    text = murdjohe("help", topic, COLUMNS="80").out.decode()
    assert text.split() == topics.TOPICS[topic][1]().split()
