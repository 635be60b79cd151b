"""The one error that tools raise."""


class Fault(Exception):
    """A reason to refuse, in one line of words; `commands.main` writes it and ends with status 2."""
