"""How sharp the settling bound is: when the last change comes after a link's failure, as a part of the bound.

usage: python3 -m bench.measure.bound_sharpness PROGRAM [--plans N] [--seed N]

Each plan is a random topology of 3 to 12 elements whose priorities `nominate` gives, so that ranks rise and no link is
nominated both ways. One link goes down at AT; `sweep` gives the bound, and `sim` the changes up to it. A third of the
plans has the usual waits, a third no wait-to-restore time, and a third none and delays of up to a second. Told is the
part of the time from AT to the bound after which nothing changes any more. It needs Python 3.11 and the program alone.
"""

import random
import statistics
import sys
import tempfile

from bench.program import answer, program_words, put_files

AT = 20000

# The greatest delay, and the wait-to-restore times in minutes.
KINDS = {"usual waits": (20, (5, 5, 5, 1, 12)), "no wait-to-restore": (20, (0,)), "and delays up to 1000": (1000, (0,))}


def plan_text(numbers: random.Random, longest: int, waits: tuple[int, ...]) -> tuple[str, int]:
    """A random topology, and how many links it has."""
    count = numbers.randrange(3, 13)
    parts = ['option = "I"\n']
    for i in range(count):
        holdoff = numbers.choice((300, 300, 500, 1800))
        parts.append(f'\n[[element]]\nname = "E{i}"\nholdoff = {holdoff}\nwtr = {numbers.choice(waits)}\n')
    joined = [(numbers.randrange(i), i) for i in range(1, count)]
    pairs = [numbers.sample(range(count), 2) for _ in range(numbers.randrange(count))]
    joined += [(a, b) for a, b in pairs]
    for k, (a, b) in enumerate(joined):
        delay_a, delay_b = numbers.randrange(1, longest + 1), numbers.randrange(1, longest + 1)
        parts.append(f'\n[[link]]\nname = "L{k}"\na = "E{a}"\nb = "E{b}"\ndelay_a = {delay_a}\ndelay_b = {delay_b}\n')
    for k in range(numbers.randrange(1, 4)):
        level = numbers.choice(("QL-PRC", "QL-PRC", "QL-SSU-A", "QL-SSU-B"))
        parts.append(f'\n[[source]]\nname = "S{k}"\nat = "E{numbers.randrange(count)}"\nlevel = "{level}"\n')
    return "".join(parts), len(joined)


def run(program: str, folder: str, *words: str) -> str:
    """The text that the program writes, where it ends with status 0."""
    status, text = answer(program, *words, folder=folder)
    if status != 0:
        sys.exit(f"{' '.join(words)}: status {status}: {text[:200]}")
    return text


def part_of(program: str, folder: str, numbers: random.Random, kind: str) -> tuple[int | None, int]:
    """The last change after the failure and the bound, both counted from the failure; none where nothing changes."""
    text, links = plan_text(numbers, *KINDS[kind])
    link = f"L{numbers.randrange(links)}"
    put_files(folder, {"topology": text, "events": f"at,what,target,value\n{AT},down,{link},\n"})
    put_files(folder, {"plan": run(program, folder, "nominate", "topology")})
    row = run(program, folder, "sweep", "plan", str(AT), str(AT)).splitlines()[1]
    bound = int(row.rsplit(",", 1)[1])
    report = run(program, folder, "sim", "plan", "events", str(bound))
    assert report.endswith("settled yes\n"), report
    changes = report.split("inputs\n")[0].splitlines()[1:]
    last = max((int(row.split(",", 1)[0]) for row in changes), default=0)
    return (last - AT if last >= AT else None), bound - AT


def main() -> None:
    given = program_words(__doc__, plans=300, seed=1).parse_args()
    program = given.program
    numbers = random.Random(given.seed)
    with tempfile.TemporaryDirectory() as folder:
        for kind in KINDS:
            found = [part_of(program, folder, numbers, kind) for _ in range(given.plans // len(KINDS))]
            parts = sorted(last / bound for last, bound in found if last is not None)
            quiet = len(found) - len(parts)
            worst = max((last for last, _ in found if last is not None), default=0)
            print(
                f"{kind}: {len(found)} plans, {quiet} without a change; the last change after {worst} ms at most; "
                f"as a part of the bound: median {statistics.median(parts):.4f}, "
                f"nine of ten below {parts[len(parts) * 9 // 10]:.4f}, greatest {parts[-1]:.4f}"
            )


if __name__ == "__main__":
    main()
