"""What a reading refuses, and what it isn't sure of."""


class Refused(Exception):
    """The plan is refused."""


class Unsure(Exception):
    """Python's TOML reader refuses a document that a newer version of TOML may accept."""
