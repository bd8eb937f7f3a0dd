"""`capture read` on what tcpdump writes of a wire: a pair of interfaces in a namespace, on which tcpreplay sends."""

from __future__ import annotations

import shutil
from pathlib import Path

import pytest
from conftest import EXAMPLES, LAUNCHER, murdjohe, started

from bench import captures as made
from murdjohe.capture import encapsulation

pytestmark = pytest.mark.alone

TOOLS = ("tcpdump", "tcpreplay", "ip", "unshare")
# usage: sh -c SCRIPT sh INTERFACE COUNT FILTER [WORDS of tcpdump]: writes the file `caught` of so many packets
SCRIPT = """\
set -e
interface=$1 count=$2 filter=$3
shift 3
ip link set lo up
ip link add v0 type veth peer name v1
ip link set v0 up
ip link set v1 up
timeout 20 tcpdump -i "$interface" --immediate-mode -s 2000 -U -c "$count" -w caught "$@" "$filter" 2> said &
catcher=$!
until grep -q 'listening on' said; do
    kill -0 "$catcher" 2> /dev/null || { cat said >&2; exit 1; }
    sleep 0.1
done
tcpreplay -q -i v0 --topspeed to-send > sent 2>&1 || { cat sent >&2; exit 1; }
wait "$catcher"
"""
# usage: sh -c WATCHED sh COMMAND COUNT: watches so many packets on v1 while they are sent, and ends by itself
WATCHED = """\
set -e
command=$1 count=$2
ip link set lo up
ip link add v0 type veth peer name v1
ip link set v0 up
ip link set v1 up
timeout 30 tcpdump -i v1 --immediate-mode -U -c "$count" -w - ether proto 0x8809 2> said | "$command" capture watch --rows > rows &
catcher=$!
until grep -q 'listening on' said; do
    sleep 0.1
done
tcpreplay -q -i v0 --topspeed to-send > sent 2>&1 || { cat sent >&2; exit 1; }
wait "$catcher"
"""


@pytest.fixture(autouse=True)
def tools() -> None:
    """Skips the test where there is no wire to be had."""
    for tool in TOOLS:
        if shutil.which(tool) is None:
            pytest.skip(f"{tool} isn't installed")
    if started(["unshare", "-n", "ip", "link", "add", "v0", "type", "veth"]).status:
        pytest.skip("there is no right to make a namespace with interfaces of its own")


def caught(folder: Path, *words: str) -> None:
    """What tcpdump writes, with these words, of what is sent."""
    ran = started(["unshare", "-n", "sh", "-c", SCRIPT, "sh", *words], folder)
    assert ran.status == 0, ran.err


def said(folder: Path, where: int) -> list[str]:
    """The rows that are read, from this field on, without the number of the packet."""
    ran = murdjohe("capture", "read", "--frames", "caught", folder=folder)
    assert ran.status == 0
    return [",".join(line.split(",")[where:-1]).rstrip(",") for line in ran.out.decode().splitlines()[1:]]


def test_a_live_capture_of_one_interface(folder: Path) -> None:
    stimulus = EXAMPLES / "lab" / "stimulus.rows"
    rows = [line.split(",", 2)[2] for line in stimulus.read_text().splitlines()]
    (folder / "to-send").write_bytes(murdjohe("capture", "write", str(stimulus)).out)
    caught(folder, "v1", str(len(rows)), "ether proto 0x8809", "--time-stamp-precision=nano")
    assert said(folder, 3) == rows


def test_a_live_capture_with_tags(folder: Path) -> None:
    (folder / "to-send").write_bytes(made.KINDS["tagged"])
    caught(folder, "v1", "8", "vlan and ether proto 0x8809")
    assert said(folder, 3) == [row.split(",", 2)[2] for row in made.ROWS]
    ran = murdjohe("capture", "read", "-q", "caught", folder=folder)
    assert ran.err == "" and b": 8 packets, 8 ESMC frames from 2 sources" in ran.out


def test_a_live_capture_on_any(folder: Path) -> None:
    (folder / "to-send").write_bytes(made.KINDS["pcap"])
    caught(folder, "any", "16", "ether proto 0x8809")
    rows = said(folder, 2)
    ports = sorted({row.partition(",")[0] for row in rows})
    # (each frame is seen going out on one interface and coming in on the other)
    assert len(ports) == 2 and all(port.startswith("interface ") for port in ports)
    for port in ports:
        its = [row.partition(",")[2] for row in rows if row.startswith(f"{port},")]
        assert its == [row.split(",", 2)[2] for row in made.ROWS]
    ran = murdjohe("capture", "read", "caught", folder=folder)
    assert f"murdjohe: 16 frames {encapsulation.COOKED_HEAD}\n" in ran.err


def test_a_wire_is_watched(folder: Path) -> None:
    stimulus = EXAMPLES / "lab" / "stimulus.rows"
    rows = [line.split(",", 2)[2] for line in stimulus.read_text().splitlines()]
    (folder / "to-send").write_bytes(murdjohe("capture", "write", str(stimulus)).out)
    ran = started(["unshare", "-n", "sh", "-c", WATCHED, "sh", str(LAUNCHER), str(len(rows))], folder)
    assert ran.status == 0, ran.err
    assert [line.split(",", 2)[2] for line in (folder / "rows").read_text().splitlines()] == rows
    assert "is heard, with " in ran.err
