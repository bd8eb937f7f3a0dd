"""The quality levels of both options, best first, each with its four-bit code and its enhanced code, after the
standards.

0xFF is no enhanced code. The program's own tables aren't looked at.
"""

NOT_ENHANCED = 0xFF

CODES = {
    "I": {
        "QL-ePRTC": (0x2, 0x21),
        "QL-PRTC": (0x2, 0x20),
        "QL-ePRC": (0x2, 0x23),
        "QL-PRC": (0x2, 0xFF),
        "QL-SSU-A": (0x4, 0xFF),
        "QL-SSU-B": (0x8, 0xFF),
        "QL-eEEC": (0xB, 0x22),
        "QL-SEC": (0xB, 0xFF),
        "QL-DNU": (0xF, 0xFF),
    },
    "II": {
        "QL-ePRTC": (0x1, 0x21),
        "QL-PRTC": (0x1, 0x20),
        "QL-ePRC": (0x1, 0x23),
        "QL-PRS": (0x1, 0xFF),
        "QL-STU": (0x0, 0xFF),
        "QL-ST2": (0x7, 0xFF),
        "QL-TNC": (0x4, 0xFF),
        "QL-ST3E": (0xD, 0xFF),
        "QL-eEEC": (0xA, 0x22),
        "QL-ST3": (0xA, 0xFF),
        "QL-SMC": (0xC, 0xFF),
        "QL-PROV": (0xE, 0xFF),
        "QL-DUS": (0xF, 0xFF),
    },
}
LEVELS = {option: list(codes) for option, codes in CODES.items()}
