"""What the desk reads and writes: tables, drafts after a crash, and Save."""

from __future__ import annotations

import base64
import signal
from collections.abc import Iterator
from pathlib import Path

import pytest
from conftest import EXAMPLES, murdjohe
from desk_plans import INLINE, RING
from desk_running import SET, Running, posted, running, state_of

from murdjohe.core.faults import Wrong
from murdjohe.desk import saving

INVENTORY = EXAMPLES / "inventory"


@pytest.fixture
def ring(folder: Path) -> Iterator[Running]:
    """A desk with the ring of three."""
    (folder / "plan.toml").write_bytes(RING)
    with running("plan.toml", folder=folder) as desk:
        yield desk


def test_nothing_is_lost_where_the_server_is_killed(folder: Path) -> None:
    (folder / "plan.toml").write_bytes(RING)
    with running("plan.toml", folder=folder) as desk:
        for number in range(5):
            assert posted(desk, "/edit", on=number, edit={**SET, "value": 10 + number})[0] == 200
        posted(desk, "/undo", on=5)
        desk.ended(signal.SIGKILL)
    with running("plan.toml", folder=folder) as desk:
        state = state_of(desk)
        line = next(line for line in state["network"]["lines"] if line["name"] == "L3>C")
        assert (state["found"], line["priority"], state["saved"]) == (6, 13, False)
        assert state["redo"] == "priority_a of link L3: 14"
        assert posted(desk, "/save", on=state["number"], what="plan", word="plan.toml")[0] == 200
        status, said = desk.ended()
        assert status == 0 and "not all is saved" not in said
    assert list((folder / "states-of-the-user").rglob("*.draft")) == []


def packed(path: Path) -> dict[str, str]:
    """A table as the page sends it."""
    return {"name": path.name, "data": base64.b64encode(path.read_bytes()).decode()}


def test_tables_become_the_plan(folder: Path) -> None:
    given = {
        "element": packed(INVENTORY / "elements.csv"),
        "link": packed(INVENTORY / "links.csv"),
        "source": packed(INVENTORY / "sources.csv"),
    }
    with running(folder=folder) as desk:
        assert state_of(desk)["size"] == {"elements": 0, "links": 0, "sources": 0}
        status, said = posted(desk, "/tables", on=0, option="I", tables={"element": given["element"]})
        assert status == 422 and "one of links" in said["said"]
        swapped = {"element": given["link"], "link": given["element"]}
        status, said = posted(desk, "/tables", on=0, tables=swapped)
        assert status == 422 and "elements.csv" in said["said"] and "/tmp" not in said["said"]
        assert posted(desk, "/tables", on=0, tables=given)[0] == 200
        assert state_of(desk)["size"] == {"elements": 10, "links": 12, "sources": 2}
        assert posted(desk, "/save", on=1, what="plan", word="plan.toml")[0] == 200
        assert posted(desk, "/save", on=1, what="orders", word="orders.csv")[0] == 200
        assert posted(desk, "/save", on=1, what="page", word="page.html")[0] == 200
    assert (folder / "plan.toml").read_bytes() == (INVENTORY / "plan.toml").read_bytes()
    assert (folder / "orders.csv").read_bytes() == murdjohe("orders", "plan.toml", "--csv", folder=folder).out
    assert b"<title>untitled.toml" in (folder / "page.html").read_bytes()


def table(text: str, name: str) -> dict[str, str]:
    """A table of a text as the page sends it."""
    return {"name": name, "data": base64.b64encode(text.encode()).decode()}


def test_ports_stay_beside_the_plan(folder: Path) -> None:
    links = "name,a,b,port_a,port_b,duct\nL1,A,B,ge-1,ge-2,river\nL2,B,A,,ge-9,\n"
    given = {"element": table("name\nA\nB\n", "e.csv"), "link": table(links, "l.csv")}
    with running(folder=folder) as desk:
        said = posted(desk, "/tables", on=0, tables=given)[1]["said"]
        assert any("duct" in one for one in said) and "3 ports: Save writes them beside the plan" in said
        assert state_of(desk)["ports"] == {"L1>A": "ge-1", "L1>B": "ge-2", "L2>A": "ge-9"}
        assert posted(desk, "/edit", on=1, edit={"kind": "take-away", "section": "link", "name": "L2"})[0] == 200
        desk.ended(signal.SIGKILL)
    with running(folder=folder) as desk:
        assert posted(desk, "/save", on=2, what="plan", word="plan.toml")[0] == 200
        assert posted(desk, "/save", on=2, what="ports", word="plan.ports.csv")[0] == 200
        assert posted(desk, "/undo", on=2)[0] == 200 and len(state_of(desk)["ports"]) == 3
    beside = b"kind,name,column,value\nlink,L1,port_a,ge-1\nlink,L1,port_b,ge-2\n"
    assert (folder / "plan.ports.csv").read_bytes() == beside
    with running("plan.toml", folder=folder) as desk:
        assert state_of(desk)["ports"] == {"L1>A": "ge-1", "L1>B": "ge-2"}


def test_save_writes_below_the_folder_alone(folder: Path) -> None:
    top = folder / "top"
    (top / "sub").mkdir(parents=True)
    (folder / "other.toml").write_bytes(b"other")
    (top / "out").symlink_to(folder)
    (top / "link.toml").symlink_to(folder / "other.toml")
    for word in (
        "",
        "../x.toml",
        "sub/../../x.toml",
        "/tmp/x.toml",
        ".x.toml",
        "sub/.git/x.toml",
        "out/x.toml",
        "link.toml",
        "a\0.toml",
        "no/x.toml",
    ):
        with pytest.raises(Wrong):
            saving.place_of(word, "../other.toml", str(top))
    assert saving.place_of("../other.toml", "../other.toml", str(top)) == str(folder / "other.toml")
    assert saving.place_of("sub/x.toml", None, str(top)) == str(top / "sub" / "x.toml")
    for kind, word in (("plan", "x.csv"), ("page", "x"), ("orders", "x.sh"), ("shell", "x.sh")):
        with pytest.raises(Wrong):
            saving.fitting(kind, word, None)


def test_what_stands_there_is_written_over_by_wish_alone(ring: Running, folder: Path) -> None:
    (folder / "mine.toml").write_bytes(b"# mine\n")
    assert posted(ring, "/save", on=0, what="plan", word="mine.toml")[0] == 422
    assert (folder / "mine.toml").read_bytes() == b"# mine\n"
    (folder / "plan.toml").write_bytes(RING + b"# by a colleague\n")
    status, said = posted(ring, "/save", on=0, what="plan", word="plan.toml")
    assert (status, said["said"]) == (422, "plan.toml was changed on disk since the desk read it; write over it?")
    assert posted(ring, "/save", on=0, what="plan", word="plan.toml", over=True)[0] == 200
    assert (folder / "plan.toml").read_bytes() == RING


def test_a_plan_that_is_refused_is_told_in_the_terminal(folder: Path) -> None:
    (folder / "plan.toml").write_bytes(RING.replace(b'a = "C"', b'a = "X"'))
    ran = murdjohe("desk", "plan.toml", folder=folder)
    assert ran.status == 3 and 'plan.toml:25: `a = "X"`' in ran.err
    assert murdjohe("desk", "none.toml", folder=folder).status == 7
    assert murdjohe("desk", "-", folder=folder).status == 2


def test_a_second_desk_on_a_plan_is_refused(ring: Running, folder: Path) -> None:
    ran = murdjohe("desk", "plan.toml", folder=folder, XDG_STATE_HOME=str(folder / "states-of-the-user"))
    assert ran.status == 22 and "another desk has it open" in ran.err


def test_rows_in_one_value_are_edited_too(folder: Path) -> None:
    (folder / "plan.toml").write_bytes(INLINE)
    with running("plan.toml", folder=folder) as desk:
        assert (
            posted(
                desk, "/edit", on=0, edit={"kind": "add", "section": "element", "row": {"name": "D"}}, place=[1.0, 1.0]
            )[0]
            == 200
        )
        assert posted(desk, "/save", on=1, what="plan", word="plan.toml")[0] == 200
    assert (folder / "plan.toml").read_bytes() == INLINE.replace(b'{ name = "C" }]', b'{ name = "C" }, { name = "D" }]')
