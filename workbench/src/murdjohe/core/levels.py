"""The quality levels of both network options, best first, and how other programs call them."""

from __future__ import annotations

LEVELS = {
    "I": ("QL-ePRTC QL-PRTC QL-ePRC QL-PRC QL-SSU-A QL-SSU-B QL-eEEC QL-SEC QL-DNU".split()),
    "II": ("QL-ePRTC QL-PRTC QL-ePRC QL-PRS QL-STU QL-ST2 QL-TNC QL-ST3E QL-eEEC QL-ST3 QL-SMC QL-PROV QL-DUS".split()),
}
# Names under which other programs know a level, small letters alone.
OTHERS = {
    "I": {
        **dict.fromkeys(("ql-eec1", "eec1", "ql-eec"), "QL-SEC"),
        "dnu": "QL-DNU",
        "g.811": "QL-PRC",
        "prs": "QL-PRC",
    },
    "II": {
        **dict.fromkeys(("ql-eec2", "eec2", "ql-eec"), "QL-ST3"),
        "dus": "QL-DUS",
        "ql-dnu": "QL-DUS",
        "prc": "QL-PRS",
    },
}
# Levels that one option has and the other calls otherwise.
SAME = {"QL-PRC": "QL-PRS", "QL-SEC": "QL-ST3", "QL-DNU": "QL-DUS", "QL-SSU-A": "QL-ST2"}


def likely(word: str, option: str) -> str | None:
    """The level of the option that a wrong name most likely means, if one is."""
    levels, small = LEVELS[option], word.strip().lower()
    if small in OTHERS[option]:
        return OTHERS[option][small]
    for level in levels:
        if level.lower() in (small, "ql-" + small, small.replace("_", "-"), "ql-" + small.replace("_", "-")):
            return level
    pairs = SAME if option == "II" else {other: level for level, other in SAME.items()}
    return next((level for other, level in pairs.items() if other.lower() in (small, "ql-" + small)), None)
