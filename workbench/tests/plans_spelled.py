"""Plans for tests, of a row for each element, link and source, spelled with a key a line."""

from __future__ import annotations


def spelled(*rows: str) -> str:
    """A plan of rows such as `link L1 a=A b=B priority_b=1`; numbers, and fields to be filled in, stand without quotes."""
    lines = []
    for kind, name, *keys in (row.split() for row in rows):
        lines += [f"[[{kind}]]", f'name = "{name}"']
        for key, _, value in (one.partition("=") for one in keys):
            lines.append(f"{key} = {value}" if value.isdigit() or value[0] == "{" else f'{key} = "{value}"')
    return "".join(f"{line}\n" for line in lines)


def chain(length: int, *keys: str) -> str:
    """A chain of elements behind a clock, the links of which have these keys besides."""
    links = [f"link L{e} a=E{e} b=E{e + 1} priority_b=1 {' '.join(keys)}" for e in range(length - 1)]
    return spelled(*(f"element E{e}" for e in range(length)), *links, "source S at=E0 level=QL-PRC")
