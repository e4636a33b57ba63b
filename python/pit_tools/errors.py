"""Errors for a reason that the user can correct."""


class UserError(Exception):
    """An error of an input, an argument or an option, reported in one line: what is wrong, where,
    and what to do. The command prints it after `pit-tools NAME: ` on standard error and ends with
    2."""


def quoted(text: str) -> str:
    """A text of the user as messages show it: its first 60 characters between accents, on one
    line."""
    return f"`{' '.join(text[:60].splitlines())}`"
