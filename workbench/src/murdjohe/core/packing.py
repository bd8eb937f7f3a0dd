"""Files of gzip made of members: octets are packed once, by whoever has them, for all files in which they stand."""

from __future__ import annotations

import gzip

GZIP = b"\x1f\x8b"  # how a file of gzip begins
LEVEL = 1  # by gzip's usual level 6 rows of cases take a tenth less room, and four times as long


def packed(data: bytes) -> bytes:
    """The octets as a member of a file of gzip: a file is its members one after the other, without name and time."""
    return gzip.compress(data, LEVEL, mtime=0)
