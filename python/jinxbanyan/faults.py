"""Faults that the commands tell of in one line, beside the library's refusals."""


class Unfit(Exception):
    """What a file holds cannot be used; the message says why. The command ends with status 1."""


class Unready(Exception):
    """The command cannot be carried out as it was given, or on this machine. It ends with status 2."""
