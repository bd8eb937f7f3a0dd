"""`murdjohe capture`: what a lab does with captures of any kind."""

from __future__ import annotations

from collections.abc import Callable, Iterator
from contextlib import contextmanager
from typing import Any

import click

from murdjohe.capture import talk_faults
from murdjohe.commands import capture_compare, capture_watch, widths
from murdjohe.commands.capture_options import EVENTS, FAIL_ON, LINE, LOCAL, OPTION, ended
from murdjohe.commands.options import Milliseconds, free, output_options, put
from murdjohe.core import program, streams
from murdjohe.core.faults import Wrong

TYPE_CHECKING = False
if TYPE_CHECKING:
    from murdjohe.capture import esmc, lab_lines
    from murdjohe.capture.clock_times import Clock
    from murdjohe.capture.talkers import Talk

PIECE = 4_000  # lines that are written at once


@click.group("capture", invoke_without_command=True)
@click.pass_context
def capture(context: click.Context) -> None:
    """Reads any capture, writes what an element received in it, and compares a device with the rules.

    A capture is a pcap in micro- or nanoseconds or a pcapng, compressed by gzip or not, of Ethernet or with the cooked headers
    of `tcpdump -i any`. VLAN and QinQ tags are removed, and frames of fewer than 60 bytes are padded; the command says how
    many. The proved program decodes each ESMC frame.
    """
    if context.invoked_subcommand is None:
        context.obj.put((widths.fitted(context.get_help()).rstrip("\n") + "\n").encode())


capture.add_command(capture_watch.watch)
capture.add_command(capture_compare.compare)


@capture.command("read", short_help="who speaks, at what rate, transitions and silences")
@click.argument("file", type=click.Path())
@OPTION
@LOCAL
@click.option("--frames", "what", flag_value="frames", help="each frame with its time of day and the seconds before it")
@click.option(
    "--rows", "what", flag_value="rows", help="each frame as a row of `pcap-decode`, as `capture write` takes it"
)
@click.option("--json", "what", flag_value="json", help="the report as JSON")
@FAIL_ON
@click.option("-q", "--quiet", is_flag=True, help="without sentences on standard error")
@output_options
@click.pass_context
def read(context: click.Context, file: str, option: str, local: bool, what: str | None, **asked: Any) -> int:
    """Says who speaks in a capture, at what rate, how levels change, and who was silent for more than five seconds.

    FILE is a capture, or - for standard input. A rate is marked if it differs by more than a tenth from one information message
    a second. The report also has the counters of an extended TLV, reserved bits that are set, codes that the option doesn't
    know, and group addresses as sources. The status is 0, or 6 if the capture is damaged, or 21 if something is found that
    --fail-on names. Ctrl-C ends it with a summary of what was read.

    \b
      $ echo 1,5,020000000001,info,QL-PRC > rows
      $ murdjohe capture write rows -o capture.pcap
      $ murdjohe capture read capture.pcap
    """
    from murdjohe.capture import clock_times, esmc, talk_report, talkers
    from murdjohe.core import progress

    output = asked["output"]
    free(output, asked["force"], file)
    taken, talk, clock = esmc.Capture(file, option), talkers.Talk(), clock_times.Clock(local)
    taken.may_end = True
    what = what or ("json" if context.find_root().params["json"] else None)
    clock.has_days = what == "frames"
    with progress.watched("capture read"), printed(context, output) as sink:
        all_heard(taken, talk, clock, what, sink)
    clock.spans(taken.first, taken.last)
    # (whoever wants frames or rows sees all of this in them)
    seen = [] if what in ("frames", "rows") else talk_faults.remarks(taken, talk)
    said = [*talk_report.remarks(taken, talk, clock), *seen]
    if taken.damage and not taken.packets:
        return ended(context, taken, said)
    if what == "json":
        put(context, output, talk_report.as_json(taken, talk, said).encode())
    elif what is None:
        put(context, output, talk_report.text(taken, talk, clock, file).encode("utf-8", "backslashreplace"))
    status = ended(context, taken, said)
    return status or (program.FOUND if talk_faults.found(taken, talk, asked["fail_on"]) else program.DONE)


def all_heard(taken: esmc.Capture, talk: Talk, clock: Clock, what: str | None, sink: Callable[[bytes], None]) -> None:
    """Takes in all frames of a capture; each is written where frames or rows are wanted."""
    from murdjohe.capture import talk_report

    lines = [talk_report.FRAMES_HEAD] if what == "frames" else []
    for frame, since in talk.heard(taken.heard()):
        if what == "rows":
            lines.append(talk_report.as_row(frame))
        elif what == "frames":
            lines.append(talk_report.as_line(frame, since, clock))
        lines = flushed(sink, lines, PIECE)
    flushed(sink, lines, 1)
    talk.ended(taken.last)


@contextmanager
def printed(context: click.Context, output: str | None) -> Iterator[Callable[[bytes], None]]:
    """What takes lines: standard output, or a file that is there once all of them are written, if any were."""
    if output is None or output == "-":
        yield context.obj.put
        return
    pieces: list[bytes] = []
    yield pieces.append
    if pieces:
        put(context, output, b"".join(pieces))


def flushed(sink: Callable[[bytes], None], lines: list[str], count: int) -> list[str]:
    """Writes the lines where there are so many, and gives those that still wait."""
    if len(lines) < count:
        return lines
    sink("".join(lines).encode("utf-8", "backslashreplace"))
    return []


def bench_of(path: str, option: str, words: tuple[str, ...]) -> tuple[lab_lines.Bench, esmc.Capture]:
    """What a capture holds of the lines that are named."""
    from murdjohe.capture import esmc, lab_lines
    from murdjohe.core import progress

    bench = lab_lines.Bench([lab_lines.where_of(word) for word in words])
    taken = esmc.Capture(path, option)
    with progress.watched("capture"):
        bench.take(taken)
    return bench, taken


@capture.command("node", short_help="what an element received, as `node` takes it")
@click.argument("file", type=click.Path())
@click.argument("element")
@LINE
@OPTION
@LOCAL
@EVENTS
@click.option("-q", "--quiet", is_flag=True, help="without sentences on standard error")
@output_options
@click.pass_context
def node(
    context: click.Context,
    file: str,
    element: str,
    line: tuple[str, ...],
    option: str,
    local: bool,
    events: str | None,
    quiet: bool,
    output: str | None,
    force: bool,
) -> int:
    """Writes what ELEMENT received in a capture: the file that `murdjohe node` takes.

    FILE is a capture, or - for standard input. Only the lines into ELEMENT count, as L1>B for B. Millisecond 0 is that of the
    first packet. The status is 0, or 6 if the capture is damaged.

    \b
      $ murdjohe gen 2 > plan.toml
      $ echo 1,5,020000000001,info,QL-PRC > rows
      $ murdjohe capture write rows -o capture.pcap
      $ murdjohe capture node capture.pcap E1 --line 'S1>E1=020000000001' > received
      $ murdjohe node plan.toml E1 received 2s
    """
    from murdjohe.capture import clock_times, lab_lines, lab_report, talk_report

    free(output, force, file, events)
    lines = {where.line for where in map(lab_lines.where_of, line) if where.line.endswith(f">{element}")}
    if not lines:
        raise Wrong(f"--line: none of the lines leads into {element}, as L1>{element} does")
    bench, taken = bench_of(file, option, line)
    if taken.damage and not taken.packets:
        return ended(context, taken, [])
    within = lab_lines.within_a_day(bench.messages)
    put(context, output, lab_lines.received(within, lines, lab_report.events_of(events)).encode())
    clock = clock_times.Clock(local)
    said = [*lab_report.of_day(bench, within), *lab_report.of_bench(bench, lines, clock)]
    return ended(context, taken, [*said, *talk_report.of_capture(taken)])


@capture.command("write", short_help="a capture to send, of rows")
@click.argument("rows", type=click.Path())
@OPTION
@click.option("--every", type=Milliseconds(), default="1s", show_default=True, help="between rows without times")
@output_options
@click.pass_context
def write(context: click.Context, rows: str, option: str, every: int, output: str | None, force: bool) -> int:
    """Makes a capture from rows, for a sender such as tcpreplay.

    ROWS are rows as `capture read --rows` or `pcap-decode` prints them (SEC,USEC,SOURCE,KIND,LEVEL and more), or as `decode`
    prints them (SOURCE,KIND,LEVEL and more), which get times; or - for standard input. The capture is a classic pcap of
    Ethernet. The status is 0, or 6 if a row is refused.

    \b
      $ printf '020000000001,info,QL-PRC\\n020000000001,event,QL-SEC\\n' > rows
      $ murdjohe capture write rows -o to-send.pcap
      $ murdjohe capture read to-send.pcap
    """
    from murdjohe.capture import frame_writer
    from murdjohe.core import files

    free(output, force, rows)
    name = "standard input" if rows == "-" else rows
    try:
        data = b"".join(frame_writer.capture_of(name, files.octets(rows), option, every))
    except frame_writer.Refused as refused:
        streams.tell(str(refused))
        return refused.status
    put(context, output, data)
    return program.DONE


COMMAND = capture
