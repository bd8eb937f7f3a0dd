"""Topologies as graphs: GraphML and networkx's JSON, read and written, and the table beside a plan in both directions."""

from __future__ import annotations

import json
import random
import tomllib
from pathlib import Path
from typing import Any

import networkx
import pytest
from conftest import CASES, EXAMPLES, murdjohe
from random_plans import random_plan

from murdjohe.plan import graphs, side_table
from murdjohe.plan.graphs import GRAPHML, NODE_LINK
from murdjohe.plan.model import Plan


def plan_of(path: Path) -> dict[str, Any]:
    return tomllib.loads(path.read_text())


@pytest.mark.parametrize("form", [GRAPHML, NODE_LINK])
def test_a_plan_comes_back_from_its_graph(tmp_path: Path, form: str) -> None:
    for seed in range(max(3, CASES // 10)):
        plan = random_plan(random.Random(seed)).text()[0]
        path = tmp_path / "plan.toml"
        path.write_text(plan)
        (tmp_path / "graph").write_bytes(graphs.written(tomllib.loads(plan), {}, form))
        graph = graphs.graph_of(str(tmp_path / "graph"), form, {})
        for kind in ("element", "link", "source"):
            rows = [{key: str(value) for key, value in row.items()} for row in tomllib.loads(plan).get(kind, [])]
            if kind == "source":
                rows = [{"priority": "1"} | row for row in rows]
            by_name = {row["name"]: row for row in graph.rows[kind]}
            assert by_name == {row["name"]: row for row in rows}
        assert graph.renamed == [] and graph.cells == []


@pytest.mark.parametrize("form", [GRAPHML, NODE_LINK])
def test_a_topology_of_networkx_is_read_protected_and_drawn(tmp_path: Path, form: str) -> None:
    graph = networkx.random_regular_graph(3, 12, seed=4)
    path = tmp_path / "graph"
    if form == GRAPHML:
        networkx.write_graphml(graph, path)
    else:
        path.write_text(json.dumps(networkx.node_link_data(graph)))
    topology, plan, picture = (str(tmp_path / name) for name in ("t.toml", "p.toml", "p.svg"))
    read = murdjohe("import", f"--{form}", str(path), "--clock", "0=QL-PRTC", "--clock", "7=QL-PRTC", "-o", topology)
    assert read.status == 0, read.err
    found = plan_of(Path(topology))
    assert len(found["element"]) == 12 and len(found["link"]) == 18
    assert [(one["name"], one["at"], one["level"]) for one in found["source"]] == [
        ("clock-0", "0", "QL-PRTC"),
        ("clock-7", "7", "QL-PRTC"),
    ]
    assert murdjohe("protect", topology, "-o", plan).status == 0
    assert murdjohe("protected", plan, "-q").out == b"protected\n"
    assert murdjohe("draw", plan, "-o", picture).status == 0 and "<svg" in Path(picture).read_text()


def test_labels_name_elements_and_other_attributes_are_kept_where_that_is_asked(tmp_path: Path) -> None:
    graph = networkx.MultiGraph()
    graph.add_node(0, label="New York", lat=40.7, level="QL-PRC")
    graph.add_node(1, label="Boston")
    graph.add_edge(0, 1, port_a="xe-0/0/1", speed="100G")
    graph.add_edge(0, 1, speed="10G")
    networkx.write_graphml(graph, tmp_path / "g")
    ran = murdjohe("import", "--graphml", str(tmp_path / "g"), "--keep-extra", "-o", str(tmp_path / "p.toml"))
    assert ran.status == 0 and "1 name changed to what a plan can have" in ran.err
    assert plan_of(tmp_path / "p.toml") == {
        "option": "I",
        "element": [{"name": "New-York"}, {"name": "Boston"}],
        "link": [
            {"name": "New-York-Boston", "a": "New-York", "b": "Boston"},
            {"name": "New-York-Boston-2", "a": "New-York", "b": "Boston"},
        ],
        "source": [{"name": "clock-New-York", "at": "New-York", "level": "QL-PRC"}],
    }
    side = (tmp_path / "p.ports.csv").read_text().splitlines()
    assert "element,New-York,lat,40.7" in side and "link,New-York-Boston,port_a,xe-0/0/1" in side
    assert "link,New-York-Boston-2,speed,10G" in side


@pytest.mark.parametrize(
    "text, words, told",
    [
        ("<graphml", ["--graphml"], "it isn't GraphML"),
        ("{}", ["--node-link"], "it isn't a graph as networkx writes it"),
        ('{"nodes": [{"id": 1}], "links": [{"source": 1, "target": 1}]}', ["--node-link"], "joins 1 to itself"),
        ('{"nodes": [{"id": 1}], "links": []}', ["--node-link", "--clock", "9=QL-PRC"], "there is no node 9"),
        ('{"nodes": [{"id": 1}], "links": []}', ["--node-link", "--clock", "QL-PRC"], "it has to be NODE=LEVEL"),
        ('{"nodes": [{"id": 1, "sources": "S"}], "links": []}', ["--node-link"], "sources are written"),
    ],
)
def test_what_is_no_graph_is_told(tmp_path: Path, text: str, words: list[str], told: str) -> None:
    (tmp_path / "g").write_text(text)
    ran = murdjohe("import", words[0], str(tmp_path / "g"), *words[1:])
    assert ran.status in (2, 24) and ran.out == b"" and told in ran.err and "Traceback" not in ran.err


def tables_in(folder: Path) -> list[str]:
    (folder / "e.csv").write_text("name,rack,site\nA,R1,Berlin\nB,,Bonn\n")
    (folder / "l.csv").write_text("name,a,b,port_a,port_b,length\nL1,A,B,ge-1,ge-2,17\n")
    (folder / "s.csv").write_text("name,at,level,port\nS,A,QL-PRC,bits-0\n")
    return [str(folder / name) for name in ("e.csv", "l.csv", "s.csv")]


def test_import_keeps_columns_beside_the_plan_and_export_has_them_again(tmp_path: Path) -> None:
    words, plan = tables_in(tmp_path), str(tmp_path / "p.toml")
    assert murdjohe("import", *words, "-o", plan).status == 24
    ran = murdjohe("import", *words, "--keep-extra", "-o", plan)
    assert ran.status == 0 and "p.ports.csv has 7 values of ports and other columns" in ran.err
    assert (tmp_path / "p.ports.csv").read_text() == (
        "kind,name,column,value\nelement,A,rack,R1\nelement,A,site,Berlin\nelement,B,site,Bonn\n"
        "link,L1,port_a,ge-1\nlink,L1,port_b,ge-2\nlink,L1,length,17\nsource,S,port,bits-0\n"
    )
    assert murdjohe("export", plan, "--only", "elements").out == b"name,rack,site\nA,R1,Berlin\nB,,Bonn\n"
    links = murdjohe("export", plan, "--only", "links").out.decode().splitlines()
    assert sorted(links[0].split(",")) == ["a", "b", "length", "name", "port_a", "port_b"]
    again = tmp_path / "again"
    again.mkdir()
    assert murdjohe("export", plan, "-o", str(again)).status == 0
    tables = [str(again / f"{kind}s.csv") for kind in ("element", "link", "source")]
    assert murdjohe("import", *tables, "--keep-extra", "-o", str(again / "p.toml")).status == 0
    cells = [sorted((folder / "p.ports.csv").read_text().splitlines()) for folder in (tmp_path, again)]
    assert cells[0] == cells[1]


def test_ports_alone_need_no_word_and_stand_in_a_picture(tmp_path: Path) -> None:
    tables_in(tmp_path)
    (tmp_path / "e.csv").write_text("name\nA\nB\n")
    (tmp_path / "l.csv").write_text("name,a,b,priority_b,port_b\nL1,A,B,1,ge-2\n")
    words = [str(tmp_path / name) for name in ("e.csv", "l.csv", "s.csv")]
    plan = str(tmp_path / "p.toml")
    assert murdjohe("import", *words, "-o", plan).status == 0
    assert murdjohe("draw", plan, "-o", str(tmp_path / "p.svg")).status == 0
    assert "1 ge-2" in (tmp_path / "p.svg").read_text()
    piped = murdjohe("import", *words)
    assert piped.status == 0 and "with -o they are written beside it" in piped.err


def test_the_side_table_stands_beside_its_plan() -> None:
    assert side_table.path_of("x/plan.toml") == "x/plan.ports.csv"
    assert side_table.beside(str(EXAMPLES / "ring" / "plan.toml"), None, Plan("I", (), (), ())) == {}
