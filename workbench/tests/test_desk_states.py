"""The model of the desk without a browser: edits of a plan as text, undone and redone, conflicts, and drafts after a crash."""

from __future__ import annotations

import json
import os
import signal
import subprocess
import sys
from pathlib import Path

import pytest
from conftest import WORKBENCH
from desk_plans import INLINE, RING
from hypothesis import given, settings, strategies

from murdjohe.answers import api
from murdjohe.core.faults import Wrong
from murdjohe.desk import drafts, edits
from murdjohe.desk.drafts import Base, Draft
from murdjohe.desk.edits import AddEvents, AddRow, DropEvent, DropEvents, Edit, SetValue, TakeAway, TakeOver, TakeText
from murdjohe.desk.states import Conflict, States
from murdjohe.plan import model
from murdjohe.core import toml_reader


def after(data: bytes, *made: Edit) -> str:
    """The plan's text after some edits, of which each is undone and redone as well."""
    states = States(data, "plan.toml")
    texts = [states.data]
    for edit in made:
        states.apply(edit, states.number)
        texts.append(states.data)
    for text in reversed(texts[:-1]):
        states.undo(states.number)
        assert states.data == text
    for text in texts[1:]:
        states.redo(states.number)
        assert states.data == text
    assert states.number == 3 * len(made)
    assert model.plan_of(toml_reader.tables(states.data.decode())) == states.plan
    return states.data.decode()


def replaced(data: bytes, old: str, new: str) -> str:
    """A text in which one part is another one."""
    text = data.decode()
    assert text.count(old) == 1
    return text.replace(old, new)


def test_a_value_changes_and_every_other_byte_stays() -> None:
    assert after(RING, SetValue("link", "L3", "priority_a", 0)) == replaced(RING, "priority_a = 2", "priority_a = 0")
    quoted = SetValue("link", "L1", "priority_b", 7)
    assert after(RING, quoted) == replaced(RING, '"priority_b" = 1  # first', '"priority_b" = 7  # first')
    assert after(RING, SetValue("element", "B", "holdoff", 300)) == replaced(RING, "= 500", "= 300")


def test_a_key_is_added_behind_the_key_before_it() -> None:
    added = after(RING, SetValue("link", "L3", "priority_b", 4))
    assert added == replaced(RING, "priority_a = 2\n", "priority_a = 2\npriority_b = 4\n")
    floor = after(RING, SetValue("element", "A", "floor", "QL-SSU-B"))
    assert floor == replaced(RING, "# the exchange\n", '# the exchange\nfloor = "QL-SSU-B"\n')
    source = after(RING, SetValue("source", "S", "priority", 3))
    assert source == replaced(RING, 'level = "QL-PRC"\n', 'level = "QL-PRC"\npriority = 3\n')


def test_a_key_goes() -> None:
    assert after(RING, SetValue("element", "B", "holdoff", None)) == replaced(RING, "holdoff = 500\n", "")
    assert after(INLINE, SetValue("element", "B", "floor", None)) == replaced(INLINE, ', floor = "QL-SSU-B"', "")
    both = after(INLINE, SetValue("link", "L2", "priority_b", 2), SetValue("link", "L2", "priority_b", None))
    assert both == INLINE.decode()


def test_rows_come_and_go() -> None:
    added = after(RING, AddRow("element", {"name": "D", "floor": "QL-SSU-A"}))
    comment = "\n# the fibre along the river\n"
    assert added == replaced(RING, comment, f'{comment}\n[[element]]\nname = "D"\nfloor = "QL-SSU-A"\n')
    gone = after(RING, TakeAway("link", "L2"))
    assert gone == replaced(RING, '[[link]]\nname = "L2"\na = "B"\nb = "C"\npriority_b = 1\n', "")
    assert "the fibre along the river" in after(RING, TakeAway("element", "C"))
    names = [
        [row["name"] for row in toml_reader.tables(after(RING, TakeAway("element", "A")))[kind]]
        for kind in ("element", "link")
    ]
    assert names == [["B", "C"], ["L2"]]


def test_rows_that_stand_in_one_value_come_and_go() -> None:
    added = after(INLINE, AddRow("link", {"name": "L3", "a": "C", "b": "A", "priority_a": 1}))
    assert added == replaced(INLINE, 'b = "C" }]', 'b = "C" }, { name = "L3", a = "C", b = "A", priority_a = 1 }]')
    assert after(INLINE, TakeAway("element", "C")).startswith(
        'element = [{ name = "A" }, { name = "B", floor = "QL-SSU-B" }]\nlink = [{ name = "L1", a = "A", b = "B", priority_b = 1 }]\n'
    )
    assert after(INLINE, TakeAway("source", "S")).endswith("source = []\n")


def test_priorities_of_a_command_are_one_edit() -> None:
    taken = TakeOver("protect", {"L1>B": 2, "L2>B": 1, "S": 5})
    text = after(RING, taken)
    rows = toml_reader.tables(text)
    assert rows["link"][0]["priority_b"] == 2 and rows["link"][1] == {
        "name": "L2",
        "a": "B",
        "b": "C",
        "priority_a": 1,
        "priority_b": 1,
    }
    assert rows["source"][0]["priority"] == 5 and edits.told(taken) == "protect: 3 priorities changed"


def test_another_plan_is_taken_whole() -> None:
    assert after(RING, TakeText("two tables", INLINE.decode())) == INLINE.decode()


def test_a_byte_order_mark_and_windows_lines_stay() -> None:
    data = b"\xef\xbb\xbf" + RING.replace(b"\n", b"\r\n")
    states = States(data, "plan.toml")
    states.apply(SetValue("element", "C", "wtr", 0), 0)
    states.apply(AddRow("source", {"name": "T", "at": "C", "level": "QL-PRC"}), 1)
    assert states.data.startswith(b"\xef\xbb\xbf# the core") and b'name = "C"\r\nwtr = 0\r\n' in states.data
    assert states.data.count(b"\n") == states.data.count(b"\r\n")


def test_events_stand_in_order_and_go_with_what_they_name() -> None:
    states = States(RING, "plan.toml")
    states.apply(AddEvents(2000, (("down", "L1", ""),)), 0)
    states.apply(AddEvents(1000, (("lockout", "L2>C", ""), ("level", "S", "QL-SSU-A"))), 1)
    assert states.event_text == b"at,what,target,value\n1000,lockout,L2>C,\n1000,level,S,QL-SSU-A\n2000,down,L1,\n"
    states.apply(TakeAway("element", "B"), 2)
    assert states.event_text == b"at,what,target,value\n1000,level,S,QL-SSU-A\n"
    states.undo(3)
    assert len(states.events) == 3
    states.apply(DropEvent(1), 4)
    assert [event.what for event in states.events] == ["lockout", "down"]
    states.apply(DropEvents(), 5)
    assert states.events == ()


@pytest.mark.parametrize(
    "edit, said",
    [
        (SetValue("link", "L9", "priority_b", 1), "there is no link 'L9'"),
        (SetValue("link", "L1", "priority_b", 256), "0 to 255"),
        (SetValue("element", "A", "holdoff", 299), "300 to 1800"),
        (SetValue("element", "A", "own", "QL-ST3"), "no level of option I"),
        (SetValue("element", "A", "floor", "QL-DNU"), "is do-not-use"),
        (SetValue("element", "A", "name", "B"), "stays"),
        (SetValue("element", "A", "speed", 3), "has no key speed"),
        (SetValue("source", "S", "level", None), "can't be left out"),
        (AddRow("element", {"name": "A"}), "A is the name of an element already"),
        (AddRow("element", {"name": "a b"}), "no plan can have"),
        (AddRow("link", {"name": "L4", "a": "A"}), "has to have its b"),
        (AddRow("link", {"name": "L4", "a": "A", "b": "X"}), "there is no element 'X'"),
        (AddRow("link", {"name": "L4", "a": "A", "b": "A"}), "with itself"),
        (AddRow("source", {"name": "L1", "at": "A", "level": "QL-PRC"}), "L1 is the name of a link already"),
        (AddRow("clock", {"name": "L1"}), "no section"),
        (TakeAway("source", "L1"), "there is no source 'L1'"),
        (TakeOver("protect", {"L9>B": 1}), "no line or source"),
        (TakeText("a table", "name ="), "Python's reader doesn't"),
        (AddEvents(-1, (("down", "L1", ""),)), "outside a day"),
        (AddEvents(0, (("down", "L1>C", ""),)), "said of nothing"),
        (AddEvents(0, (("level", "S", "QL-ST3"),)), "no level of option I"),
        (AddEvents(0, (("fall", "S", ""),)), "no word"),
        (AddEvents(0, ()), "nothing that could fail"),
        (DropEvent(0), "there is no event 1: there are 0 events"),
    ],
)
def test_what_can_not_be_made_changes_nothing(edit: Edit, said: str) -> None:
    states = States(RING, "plan.toml")
    with pytest.raises(Wrong, match="(?s).*" + said.replace("(", r"\(")):
        states.apply(edit, 0)
    assert (states.data, states.number, states.done) == (RING, 0, [])


def test_an_edit_of_an_older_state_is_refused_with_what_changed() -> None:
    states = States(RING, "plan.toml")
    states.apply(SetValue("link", "L1", "priority_b", 2), 0)
    states.undo(1)
    with pytest.raises(Conflict) as conflict:
        states.apply(SetValue("link", "L1", "priority_b", 3), 0)
    assert conflict.value.since == ["priority_b of link L1: 2", "undone: priority_b of link L1: 2"]
    with pytest.raises(Conflict):
        states.undo(1)
    assert states.data == RING and states.since(2) == []
    with pytest.raises(Wrong, match="nothing to undo"):
        states.undo(2)


def test_a_new_edit_ends_what_could_be_redone() -> None:
    states = States(RING, "plan.toml")
    states.apply(SetValue("link", "L1", "priority_b", 2), 0)
    states.undo(1)
    states.apply(SetValue("link", "L2", "priority_b", 0), 2)
    with pytest.raises(Wrong, match="nothing to redo"):
        states.redo(3)


def test_edits_go_through_json() -> None:
    made: list[Edit] = [
        SetValue("element", "A", "floor", None),
        AddRow("link", {"name": "L4", "a": "A", "b": "B", "priority_a": 1}),
        TakeAway("element", "A"),
        TakeOver("repair", {"L1>B": 0}),
        TakeText("tables", "version = 2\n"),
        AddEvents(5, (("down", "L1", ""), ("up", "L2", "")), "element B fails"),
        DropEvent(3),
        DropEvents(),
    ]
    for edit in made:
        assert edits.of_data(json.loads(json.dumps(edits.as_data(edit)))) == edit
    wrongs: list[object] = [
        None,
        [],
        {"kind": "value"},
        {"kind": "value", "section": "link", "name": "L1", "key": "priority_b", "value": [1]},
        {"kind": "value", "section": "link", "name": "L1", "key": "priority_b", "value": True},
        {"kind": "take-over", "by": "x", "priorities": {"L1>B": "1"}},
        {"kind": "events", "at": "1", "rows": []},
        {"kind": "events", "at": 1, "rows": [["down", "L1"]]},
        {"kind": "add", "section": "element", "row": {"name": None}},
        {"kind": "drop-event", "number": 1, "more": 2},
    ]
    for wrong in wrongs:
        with pytest.raises(Wrong, match="that is no edit"):
            edits.of_data(wrong)


NAMES = strategies.sampled_from(["A", "B", "C", "D", "L1", "L2", "L3", "S", "T"])
RANDOM_EDITS = strategies.one_of(
    strategies.builds(
        SetValue,
        strategies.just("link"),
        NAMES,
        strategies.sampled_from(["priority_a", "priority_b", "delay_a"]),
        strategies.integers(1, 9),
    ),
    strategies.builds(
        SetValue,
        strategies.just("element"),
        NAMES,
        strategies.sampled_from(["floor", "own"]),
        strategies.sampled_from(["QL-SSU-A", None]),
    ),
    strategies.builds(lambda name: AddRow("element", {"name": name}), NAMES),
    strategies.builds(
        lambda name, a, b: AddRow("link", {"name": name, "a": a, "b": b, "priority_b": 1}), NAMES, NAMES, NAMES
    ),
    strategies.builds(lambda name, at: AddRow("source", {"name": name, "at": at, "level": "QL-PRC"}), NAMES, NAMES),
    strategies.builds(TakeAway, strategies.sampled_from(["element", "link", "source"]), NAMES),
    strategies.sampled_from(["undo", "redo"]),
)


@settings(max_examples=120)
@given(strategies.sampled_from([RING, INLINE, b""]), strategies.lists(RANDOM_EDITS, max_size=12))
def test_any_edits_leave_a_plan_that_says_what_they_meant(data: bytes, made: list[Edit | str]) -> None:
    states = States(data, "plan.toml")
    for edit in made:
        try:
            if edit == "undo":
                states.undo(states.number)
            elif edit == "redo":
                states.redo(states.number)
            elif not isinstance(edit, str):
                states.apply(edit, states.number)
        except Wrong:
            pass
        assert model.plan_of(toml_reader.tables(states.data.decode())) == states.plan
    while states.done:
        states.undo(states.number)
    assert states.data == data
    api.rank(states.data)  # (the program takes it)


@pytest.fixture(autouse=True)
def states_folder(tmp_path_factory: pytest.TempPathFactory, monkeypatch: pytest.MonkeyPatch) -> Path:
    """A folder of states of its own."""
    path = tmp_path_factory.mktemp("states")
    monkeypatch.setenv("XDG_STATE_HOME", str(path))
    return path


BASE = Base(RING, ())


def made_draft(*made: Edit) -> Draft:
    """A desk's draft after some edits."""
    draft = Draft("plan.toml", None, BASE)
    for edit in made:
        draft.states.apply(edit, draft.states.number)
        draft.edited(edit)
    return draft


def test_a_draft_is_found_again(folder: Path, states_folder: Path) -> None:
    draft = made_draft(SetValue("link", "L1", "priority_b", 2), AddEvents(5, (("down", "L1", ""),)))
    draft.states.undo(2)
    draft.did(drafts.UNDO)
    expected = draft.states.data
    draft.end(False)  # (as after a crash: what is on disk stays)
    again = Draft("plan.toml", None, BASE)
    assert (again.states.data, again.states.events, again.found) == (expected, (), 3)
    again.states.redo(again.states.number)
    assert len(again.states.events) == 1 and not again.has_other_base
    assert [path.stat().st_mode & 0o777 for path in states_folder.rglob("*.draft")] == [0o600]


def test_nothing_is_written_before_the_first_edit(folder: Path, states_folder: Path) -> None:
    Draft("plan.toml", None, BASE).end(True)
    assert list(states_folder.rglob("*.draft")) == [] and list(folder.iterdir()) == []


def test_a_torn_line_is_left_out(folder: Path) -> None:
    draft = made_draft(SetValue("link", "L1", "priority_b", 2), SetValue("link", "L1", "priority_b", 3))
    draft.end(False)
    path = Path(draft.path)
    whole = path.read_bytes()
    for cut in range(whole.rindex(b"\n", 0, -1) + 1, len(whole)):
        path.write_bytes(whole[:cut])
        again = Draft("plan.toml", None, BASE)
        assert b'"priority_b" = 2' in again.states.data and again.found == 1
        again.end(False)


def test_a_saved_draft_goes_and_a_changed_file_is_told(folder: Path, states_folder: Path) -> None:
    draft = made_draft(SetValue("link", "L1", "priority_b", 2))
    data = draft.states.data
    draft.end(False)
    saved = Draft("plan.toml", None, Base(data, ()))  # (saved, and ended before the draft went)
    assert (saved.states.data, saved.found) == (data, 0)
    saved.end(True)
    assert list(states_folder.rglob("*.draft")) == []
    made_draft(SetValue("link", "L1", "priority_b", 2)).end(False)
    other = Draft("plan.toml", None, Base(RING + b"# by a colleague\n", ()))
    assert other.states.data == data and other.has_other_base


def test_what_the_desk_saved_itself_is_no_change_of_others(folder: Path) -> None:
    draft = made_draft(SetValue("link", "L1", "priority_b", 2))
    saved = draft.states.data
    draft.saved(saved)
    draft.states.undo(1)
    draft.did(drafts.UNDO)
    draft.end(False)
    again = Draft("plan.toml", None, Base(saved, ()))
    assert (again.states.data, again.has_other_base) == (RING, False)


def test_one_desk_at_a_time(folder: Path) -> None:
    draft = made_draft()
    with pytest.raises(Wrong, match="another desk has it open"):
        Draft("./plan.toml", None, BASE)
    draft.end(True)
    Draft("./plan.toml", None, BASE).end(True)


def test_nothing_is_lost_where_the_server_is_killed(folder: Path, states_folder: Path) -> None:
    script = f"""
import sys
sys.path[:0] = [{str(WORKBENCH / "src")!r}, {str(WORKBENCH / "tests")!r}]
from desk_plans import RING
from murdjohe.desk.drafts import Base, Draft
from murdjohe.desk.edits import SetValue
draft = Draft("plan.toml", None, Base(RING, ()))
for number in range(1, 10):
    edit = SetValue("link", "L1", "priority_b", number)
    draft.states.apply(edit, number - 1)
    draft.edited(edit)
    print(number, flush=True)
import time
time.sleep(60)
"""
    with subprocess.Popen([sys.executable, "-c", script], stdout=subprocess.PIPE, env=os.environ.copy()) as child:
        assert child.stdout is not None
        for line in child.stdout:
            if line == b"9\n":
                break
        child.send_signal(signal.SIGKILL)
    again = Draft("plan.toml", None, BASE)
    assert b'"priority_b" = 9' in again.states.data and again.found == 9
