"""Files of gzip that are put together of pieces are as others."""

from __future__ import annotations

import gzip
import subprocess
from pathlib import Path

from hypothesis import given
from hypothesis import strategies as st

from murdjohe.core import files, packing

PIECES = st.lists(st.binary(max_size=200) | st.sampled_from([b"", b"case,settled\n", b"a,yes\n" * 20_000]), max_size=5)


@given(PIECES)
def test_a_file_of_pieces_holds_them_in_order(pieces: list[bytes]) -> None:
    assert gzip.decompress(b"".join(map(packing.packed, pieces))) == b"".join(pieces)


def test_gzip_itself_reads_a_file_that_grew(folder: Path) -> None:
    rows = b"a,yes,1\n" * 70_000
    with files.Growing("rows.csv.gz") as file:
        file.write(b"case\n")
        file.write(rows, packing.packed(rows))
        file.write(rows)
    assert (
        subprocess.run(["gzip", "-dc", "rows.csv.gz"], capture_output=True, check=True).stdout == b"case\n" + 2 * rows
    )
    # (members without name and time: the same pieces make the same file)
    assert Path("rows.csv.gz").read_bytes() == b"".join(map(packing.packed, (b"case\n", rows, rows)))


def test_a_file_without_gz_grows_plain(folder: Path) -> None:
    with files.Growing("rows.csv") as file:
        file.write(b"case\n")
        file.write(b"a\n", packing.packed(b"a\n"))
    assert Path("rows.csv").read_bytes() == b"case\na\n"
