"""Files of the workbench's own commands: read as text, and written whole or not at all."""

from __future__ import annotations

import os
import stat
import tempfile
from collections.abc import Iterable
from typing import IO

from murdjohe.core import packing
from murdjohe.core.faults import Wrong, reason, unusable, unwritten
from murdjohe.core.inputs import STDIN
from murdjohe.core.program import READ_FAULT, THERE


def octets(path: str) -> bytes:
    """The octets of a file, or of standard input for `-`. Raises Wrong."""
    try:
        with open(0 if path == STDIN else path, "rb", closefd=path != STDIN) as file:
            return file.read()
    except OSError as fault:
        raise reason("standard input" if path == STDIN else path, fault) from None
    except ValueError as fault:  # (a name with a zero octet)
        raise Wrong(f"{path}: {fault}", status=READ_FAULT) from None


def text(path: str, encoding: str | None = None) -> str:
    """The text of a file without a byte order mark, in UTF-8 where no other encoding is named. Raises Wrong, also where it isn't in it."""
    data = octets(path)
    if encoding is not None:
        try:
            return data.decode(encoding)
        except UnicodeDecodeError as fault:
            raise unusable(f"{path}: it is no text in {encoding}: {fault.reason} at byte {fault.start}") from None
    if data[:2] in (b"\xff\xfe", b"\xfe\xff"):
        raise unusable(f"{path}: it is text in UTF-16; save it as UTF-8")
    try:
        return data.decode("utf-8-sig")
    except UnicodeDecodeError as fault:
        line = data.count(b"\n", 0, fault.start) + 1
        raise unusable(f"{path}:{line}: it is no text in UTF-8; save it as UTF-8") from None


def is_device(path: str) -> bool:
    """Whether a path is there and is no plain file, such as a device or a pipe."""
    return os.path.exists(path) and not os.path.isfile(path)


def staged(path: str, data: bytes) -> str:
    """Writes a file beside the one that is meant, and gives its path. Raises OSError, and nothing is left then."""
    number, beside = tempfile.mkstemp(dir=os.path.dirname(path) or ".", prefix=".murdjohe-")
    try:
        with os.fdopen(number, "wb") as file:
            file.write(data)
        os.chmod(beside, 0o666 & ~mask())
    except OSError:
        os.unlink(beside)
        raise
    return beside


def written(path: str, data: bytes) -> None:
    """Writes a file whole: where that fails, whatever stood there before still does. Raises Wrong."""
    all_written({path: data})


def all_written(contents: dict[str, bytes]) -> None:
    """Writes all these files, each whole, and none where one of them can't be written. Raises Wrong."""
    beside: dict[str, str] = {}
    path = ""
    try:
        for path, data in contents.items():
            if is_device(path):
                with open(path, "wb") as device:
                    device.write(data)
            else:
                beside[path] = staged(path, data)
        for path in list(beside):
            os.replace(beside.pop(path), path)
    except OSError as fault:
        raise unwritten(path, fault) from None
    finally:
        for left in beside.values():
            os.unlink(left)


def known(path: str) -> tuple[int, int] | None:
    """The device and inode of a plain file, or of standard input for `-`; None where there is none."""
    try:
        found = os.fstat(0) if path == STDIN else os.stat(path)
    except (OSError, ValueError):
        return None
    return (found.st_dev, found.st_ino) if stat.S_ISREG(found.st_mode) else None


def free(paths: list[str], is_forced: bool, inputs: Iterable[str | None] = ()) -> None:
    """Raises Wrong where one of these files is one that is read, or another of these, or is there already and isn't to be
    written over. Whether two are one is told by the file and not by its name; `-` is standard output, and never there.
    """
    outputs = [path for path in paths if path != STDIN]
    read = {known(path): path for path in inputs if path is not None}
    for path in outputs:
        its = known(path)
        if its is not None and its in read:
            other = "standard input" if read[its] == STDIN else read[its]
            same = "it" if other == path else f"{other}, which is the same file,"
            raise Wrong(
                f"{path}: {same} is read by this command, and isn't written over; name another file", status=THERE
            )
    real = [os.path.realpath(path) for path in outputs]
    for number, path in enumerate(real):
        if path in real[:number] and not is_device(path):
            raise Wrong(f"two outputs are one file, {outputs[number]}: name two")
    there = [path for path in outputs if os.path.isfile(path)]
    if there and not is_forced:
        verb = "is" if len(there) == 1 else "are"
        raise Wrong(f"{', '.join(there)} {verb} there already; --force writes over it", status=THERE)


def mask() -> int:
    """The bits that new files don't get."""
    bits = os.umask(0)
    os.umask(bits)
    return bits


class Growing:
    """A file that is written piece by piece: beside the one that is meant, whose place it takes once it is whole.

    It is packed by gzip where its name ends in .gz. Whatever ends the writing before, what stood there still does.
    """

    def __init__(self, path: str) -> None:
        self.path = path
        self.beside: str | None = None

    def __enter__(self) -> Growing:
        try:
            if is_device(self.path):
                self.file: IO[bytes] = open(self.path, "wb")
            else:
                number, self.beside = tempfile.mkstemp(dir=os.path.dirname(self.path) or ".", prefix=".murdjohe-")
                self.file = os.fdopen(number, "wb")
        except OSError as fault:
            raise unwritten(self.path, fault) from None
        return self

    def put(self, octets: bytes) -> None:
        """Writes octets as they are. Raises Wrong."""
        try:
            self.file.write(octets)
        except OSError as fault:
            raise unwritten(self.path, fault) from None

    def write(self, data: bytes, packed: bytes | None = None) -> None:
        """Writes one more piece, which may be packed already. Raises Wrong."""
        if self.path.endswith(".gz"):
            self.put(packing.packed(data) if packed is None else packed)
        else:
            self.put(data)

    def end(self) -> None:
        """Puts the file where it is meant. Raises OSError."""
        self.file.close()
        if self.beside:
            os.chmod(self.beside, 0o666 & ~mask())
            os.replace(self.beside, self.path)
            self.beside = None

    def __exit__(self, kind: type[BaseException] | None, *_: object) -> None:
        try:
            if kind is None:
                self.end()
        except OSError as fault:
            raise unwritten(self.path, fault) from None
        finally:
            if self.beside:
                os.unlink(self.beside)
