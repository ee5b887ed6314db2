"""What makes a file cannot be made."""


class MakeError(Exception):
    """A file that cannot be made from what is given."""
