"""Edits as they stand in files: what each changes, and whether it still applies."""

import dataclasses
import pathlib

GAP = "# gap: "


@dataclasses.dataclass(frozen=True)
class Edit:
    """A wrong body of a crate: the file that it changes, and each text with the one in its place."""

    crate: str
    name: str
    path: pathlib.Path
    file: str
    pairs: tuple[tuple[str, str], ...]
    gap: str

    @property
    def label(self) -> str:
        """How it is called in what is printed."""
        return f"{self.crate}/{self.name}"


def read_edit(path: pathlib.Path, crate: str) -> Edit:
    """An edit as its file has it: a line `file: FILE`, and pairs of lines `old: TEXT` and `new: TEXT`."""
    lines = path.read_text(encoding="utf-8").splitlines()
    after = {word: [line[len(word) :] for line in lines if line.startswith(word)] for word in ("file: ", "old: ", GAP)}
    new = [line[5:] for line in lines if line.startswith("new: ") or line == "new:"]
    pairs = tuple(zip(after["old: "], new, strict=True))
    return Edit(crate, path.stem, path, after["file: "][0], pairs, " ".join(after[GAP]))


def edits_of(top: pathlib.Path) -> list[Edit]:
    """All edits of a repository, by crate and name: those of the gate and those of this folder."""
    gate = [(path, path.parents[1].name) for path in top.glob("crates/*/must-fail/*.edit")]
    others = [(path, path.parent.name) for path in top.glob("bench/mutants/*/*.edit")]
    return sorted((read_edit(path, crate) for path, crate in gate + others), key=lambda edit: edit.label)


def edited(text: str, edit: Edit) -> str | None:
    """A text with an edit in it, or nothing where one of its texts doesn't stand there just once."""
    for old, new in edit.pairs:
        if text.count(old) != 1:
            return None
        text = text.replace(old, new)
    return text


def applies(edit: Edit, top: pathlib.Path) -> bool:
    """Whether each text that the edit takes away stands once in its file."""
    file = top / "crates" / edit.crate / edit.file
    return file.is_file() and edited(file.read_text(encoding="utf-8"), edit) is not None


def twice(edits: list[Edit]) -> list[str]:
    """The labels that more than one edit has."""
    labels = [edit.label for edit in edits]
    return sorted({label for label in labels if labels.count(label) > 1})
