"""What ends a command early. Exit statuses: 0 done, 1 a difference or a refusal, 2 wrong usage or a missing file."""


class Stop(Exception):
    """Ends a command with a message on standard error."""

    status = 2


class Wrong(Stop):
    """Wrong usage, or a file that is missing or cannot be read."""

    status = 2


class Refused(Stop):
    """A refusal of the model's, or a difference that was looked for and found."""

    status = 1
