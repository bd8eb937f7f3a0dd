"""Times `encode` on random rows and `decode` on their frames, and compares it with another program.

usage: python3 -m bench.measure.captures PROGRAM [OTHER] [--repeats N] [--lines N] [--extended SHARE]

The rows are the same in each run. SHARE of a hundred of them have seven fields, so that their frames have the
extended TLV. Each program is run in turn; least and median wall time, least processor time and peak memory are
printed, and the ratio of the least times. Where the programs write different texts, that is said.
"""

import contextlib
import random
import tempfile

from bench.measure.times import HEAD, least, measure, row
from bench.program import octets, path, program_words, put_files

PLAIN = ["QL-PRC", "QL-SSU-A", "QL-SSU-B", "QL-SEC", "QL-DNU", "code-0", "code-7"]
ANY = PLAIN + ["QL-ePRTC", "QL-PRTC", "QL-ePRC", "QL-eEEC"]


def rows_text(count: int, share: int) -> str:
    """So many random rows, of which a share has seven fields."""
    numbers = random.Random(4)
    rows = []
    for _ in range(count):
        row = f"{numbers.randrange(1 << 48):012x},{numbers.choice(('info', 'event'))},"
        if numbers.randrange(100) < share:
            row += f"{numbers.choice(ANY)},{numbers.randrange(1 << 64):016x},{numbers.randrange(256):02x}"
            row += f",{numbers.randrange(256)},{numbers.randrange(256)}"
        else:
            row += numbers.choice(PLAIN)
        rows.append(row + "\n")
    return "".join(rows)


def main() -> None:
    words = program_words(__doc__, repeats=25, lines=50_000, extended=0)
    words.add_argument("other", nargs="?", type=path)
    given = words.parse_args()
    programs = [program for program in (given.program, given.other) if program]
    with tempfile.TemporaryDirectory() as folder, contextlib.chdir(folder):
        put_files(".", {"rows": rows_text(given.lines, given.extended)})
        put_files(".", {"frames": octets(programs[0], ["encode", "I", "rows"])[1]})
        print(f"form    {HEAD}")
        for form, name in (("encode", "rows"), ("decode", "frames")):
            texts = [octets(program, [form, "I", name])[1] for program in programs]
            runs = measure(programs, [form, "I", name], given.repeats)
            for program in programs:
                print(f"{form:6}  {row(program, runs[program])}")
            if len(programs) == 2:
                ratio = least(runs[programs[0]]) / least(runs[programs[1]])
                print(
                    f"{form:6}  ratio of least times {ratio:.2f}, texts {'equal' if texts[0] == texts[1] else 'DIFFER'}"
                )


if __name__ == "__main__":
    main()
