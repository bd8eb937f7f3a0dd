"""The page without a browser: one file that asks for nothing, scripts that can be read, and the model beside the program's report."""

from __future__ import annotations

import json
import re
import shutil
import subprocess
from pathlib import Path
from typing import Any

import pytest
from conftest import EXAMPLES, murdjohe

from murdjohe.answers import api
from murdjohe.network import plan_file, wiring
from murdjohe.picture import page_data, pages, places
from murdjohe.runs import moments, rehearsals, simulation

NODE = shutil.which("node")
WANTS_NODE = pytest.mark.skipif(NODE is None, reason="there is no node (Debian: nodejs)")
RUNS = sorted(
    path.parent.name for path in EXAMPLES.glob("*/events.csv") if (path.parent / "report").exists()
)  # (each with a plan)


def cases_of(name: str) -> page_data.Cases:
    """The cases of a page of an example."""
    return page_data.cases_of(plan_file.read(str(EXAMPLES / name / "plan.toml")))


def data_of(name: str, until: int = 400_000) -> dict[str, Any]:
    """What the page of an example knows."""
    at = EXAMPLES / name
    plan, file = plan_file.read(str(at / "plan.toml")), simulation.read_events(str(at / "events.csv"))
    found = rehearsals.rehearsed(plan, file, until)
    layout = places.layout_of(plan.network, None, None)
    return page_data.data_of(plan, found, layout, 0, name)


def ran_by_node(script: str, data: Any) -> Any:
    """What a script prints as JSON that imports the model and reads data."""
    head = f'import * as model from "{(pages.PARTS / "model.js").as_uri()}";\nimport fs from "node:fs";\n'
    head += "const data = JSON.parse(fs.readFileSync(0, 'utf8'));\n"
    words = [NODE or "node", "--input-type=module", "--eval", head + script]
    run = subprocess.run(words, input=json.dumps(data).encode(), capture_output=True, check=False, timeout=120)
    assert run.returncode == 0, run.stderr.decode()
    return json.loads(run.stdout)


@WANTS_NODE
def test_each_script_and_all_as_one_can_be_read(folder: Path) -> None:
    texts = {name: pages.part(name) for name in pages.MODULES} | {"whole.js": pages.script()}
    for name, text in texts.items():
        module = folder / name.replace(".js", ".mjs")
        module.write_text(text)
        run = subprocess.run([NODE or "node", "--check", str(module)], capture_output=True, check=False)
        assert run.returncode == 0, run.stderr.decode()


def test_the_scripts_are_those_of_the_page_in_order() -> None:
    assert {path.name for path in pages.PARTS.glob("*.js")} == set(pages.MODULES)
    for place, name in enumerate(pages.MODULES):
        wanted = re.findall(r'^import .* from "\./(.*)";$', pages.part(name), re.M)
        assert set(wanted) <= set(pages.MODULES[:place])
        assert len(wanted) == len(re.findall(r"^import ", pages.part(name), re.M))
    assert not re.search(r"^(import|export) ", pages.script(), re.M)


def test_the_page_asks_for_nothing_from_outside() -> None:
    for name in ("page.html", "page.css", *pages.MODULES):
        text = pages.part(name)
        assert not re.search(r"https?:|\bfetch\b|XMLHttpRequest|WebSocket|\bimport\(|url\(|@import|\bsrc=", text), name
    assert "default-src 'none'" in pages.part("page.html")


def test_nothing_in_the_data_ends_the_page() -> None:
    data = {"title": "</script><script>alert(1)</script><!--"}
    text = pages.page("a </title> & b", data, [("<b>", "x & y")]).decode()
    assert text.count("</script>") == 2 and text.count("</title>") == 1 and "<b>" not in text
    (found,) = re.findall(r'id="data">(.*)</script>', text)
    assert json.loads(found) == data


@pytest.mark.long
@WANTS_NODE
@pytest.mark.parametrize("name", RUNS)
def test_the_model_is_the_report_in_each_moment(name: str) -> None:
    data = data_of(name)
    script = """
    const run = new model.Run(data.network, data.changes, data.events, data.until);
    const names = data.network.elements.map(element => element.name), said = [];
    const order = [...run.moments.keys()];
    for (const moment of [...order, ...order.reverse()]) {
      run.goTo(moment);
      const shown = names.map((name, element) => [model.MODES[run.mode[element]], run.inputName(run.input[element]),
        data.network.levels[run.level[element]].name, model.STATES[run.state[element]]]);
      const traces = names.map((name, element) => [["source", "own", "loop"][run.traces.kind[element]],
        run.traces.kind[element] === 0 ? data.network.sources[run.traces.end[element]].name : names[run.traces.end[element]],
        run.traces.hops[element]]);
      said.push([run.at, shown, traces, [...run.closed.keys()].map(line => run.inputName(line)).sort()]);
    }
    console.log(JSON.stringify(said));"""
    at = EXAMPLES / name
    report = api.sim(at / "plan.toml", at / "events.csv", data["until"]).result
    wired = wiring.wiring_of(plan_file.read(str(at / "plan.toml")).network)
    said = ran_by_node(script, data)
    assert [row[0] for row in said] == sorted(row[0] for row in said[: len(said) // 2]) * 2 or len(said) % 2 == 0
    for moment, shown, traces, closed in said:
        own = moments.shown_at(wired, report.changes, moment)
        assert shown == [[one.mode, one.input or "none", one.level, one.state] for one in own.values()]
        found = moments.traces_of(wired, moments.taken_of(own))
        assert traces == [[trace.kind, trace.name, trace.hops] for trace in found.values()]
        assert closed == sorted(line for walk in moments.loops_of(wired, moments.taken_of(own)) for line in walk)
    end = said[len(said) // 2 - 1]
    assert end[0] == data["until"]
    assert end[2] == [[trace.kind, trace.name, trace.hops] for trace in report.traces]


def test_cases_are_the_rows_of_sweep() -> None:
    at = EXAMPLES / "mesh"
    cases = cases_of("mesh")
    down, until = cases.times.at, cases.times.until
    sweep = api.sweep(at / "plan.toml", down, until).result
    assert [case["name"] for case in cases.rows] == [row.link for row in sweep.rows]
    for case, row in zip(cases.rows, sweep.rows):
        assert case["row"][1:4] == [str(row.locked), str(row.holdover), str(row.freerun)]
        events = f"at,what,target,value\n{down},down,{row.link},\n".encode()
        report = api.sim(at / "plan.toml", events, until).result
        fed = [int(trace.kind == "source") for trace in report.traces]
        assert case["ended"]["fed"] == fed and case["row"][-2] == str(fed.count(0))
        assert len(case["changes"]["at"]) == len(report.changes)


def test_who_needs_no_source_after_a_cut_is_apart_from_whom_no_link_could_serve() -> None:
    cases = cases_of("mesh")
    rows = {case["name"]: case["row"][-2:] for case in cases.rows}
    assert {name: row for name, row in rows.items() if row != ["0", "0"]} == {
        "N1": ["2", "2"],
        "A1": ["1", "1"],
        "A4": ["1", "1"],
    }
    said = pages.cuts_text(cases)
    assert said.startswith(
        "each link alone, down at 00:10:00.000 without the events of this run: 3 links leave elements without a source "
        "although another link could still serve them, "
    )


def test_what_cuts_cost_on_the_way_is_told_beside_their_end() -> None:
    cases = cases_of("mesh")
    table = "case,at,what,target,value\n" + "".join(
        f"{case['name']},{cases.times.at},down,{case['name']},\n" for case in cases.rows
    )
    rows = api.study(EXAMPLES / "mesh" / "plan.toml", table.encode(), cases.times.until).result.rows
    hurting, longest = [row for row in rows if row.hurt], max(rows, key=lambda row: row.dark)
    assert [row.case for row in hurting] == ["N1", "A1", "A4"] and [row.still > 0 for row in hurting] == [True] * 3
    # (from the end of the hold-off time on, 300 ms after 600,000, to 601,000, both counted)
    assert (cases.times.until, longest.dark) == (601_000, 701)
    assert (
        "3 cases make levels worse than before on the way, and 3 still at the end; up to the end for 0.701 s at most, hub-north in N1"
        in pages.cuts_text(cases)
    )


def test_cases_are_looked_at_by_the_bound_after_failures() -> None:
    times = cases_of("ring-of-rings").times
    assert (times.at, times.until) == (600_000, 606_000) and "`failures F` of `agree`" in times.why


def test_the_command_writes_a_page_and_says_what_the_program_says(folder: Path) -> None:
    at = EXAMPLES / "ring"
    words = ["report", str(at / "plan.toml"), str(at / "events.csv"), "--until", "2m", "-o", "page.html"]
    ran = murdjohe(*words, folder=folder)
    assert (ran.status, ran.out) == (0, b"")
    assert ran.err.startswith("murdjohe: still without a source at the end, 00:02:00.000: 3 elements: A (since ")
    text = (folder / "page.html").read_text()
    assert "<dd>cycle L1&gt;B L2&gt;C L3&gt;A: timing may go round over these lines</dd>" in text
    assert "<dt>sim: closed walks at the end</dt><dd>L1&gt;B L2&gt;C L3&gt;A</dd>" in text
    for name in ("plan.toml", "events.csv"):
        run = subprocess.run(["sha256sum", str(at / name)], capture_output=True, check=True, text=True)
        assert run.stdout.split()[0] in text
    ran = murdjohe(*words, folder=folder)
    assert ran.status == 22 and "page.html is there already; --force writes over it" in ran.err
    before = (folder / "page.html").read_bytes()
    assert murdjohe(*words, "--force", folder=folder).status == 0
    assert (folder / "page.html").read_bytes() == before


def test_the_facts_have_times_of_day_where_the_run_begins_at_one(folder: Path) -> None:
    at = EXAMPLES / "ring"
    files = [str(at / "plan.toml"), str(at / "events.csv")]
    words = ["report", *files, "--until", "2m", "--start", "23:59", "-o", "page.html"]
    ran = murdjohe(*words, folder=folder)
    first = "still without a source at the end, 00:01:00.000: 3 elements: A (since 23:59:00.003, and no link could serve it), "
    assert ran.err.startswith(f"murdjohe: {first}")
    text = (folder / "page.html").read_text()
    assert f"<dt>at the end</dt><dd>{first}" in text and f'"text":"{first}' in text
    assert "<dt>sim: settled</dt><dd>yes, from 00:00:" in text and " after the start on" not in text


@pytest.mark.parametrize(
    ("words", "status", "said"),
    [
        (["plan.toml", "events.csv", "-o", "page.txt"], 2, "page.txt: a page ends in .html"),
        (["plan.toml", "plan.toml", "-o", "/tmp/none/page.html"], 5, "plan.toml:1: "),
        (["nosuch", "events.csv", "-o", "/tmp/none/page.html"], 7, "nosuch: No such file"),
        (["-", "-", "-o", "page.html"], 2, "standard input is one file"),
        (["plan.toml", "events.csv", "--until", "25h", "-o", "page.html"], 2, "--until: at most a day"),
        (["plan.toml", "events.csv", "-o", "/tmp/none/page.html"], 8, "/tmp/none/page.html: No such file"),
    ],
)
def test_what_is_no_page(words: list[str], status: int, said: str) -> None:
    ran = murdjohe("report", *words, folder=EXAMPLES / "ring")
    assert (ran.status, ran.out) == (status, b"") and said in ran.err
