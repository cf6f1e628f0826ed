"""What ends the command with one line on the standard error."""


class Fault(Exception):
    """A fault in the user's words or file: `where` is a place, or empty."""

    def __init__(self, sentence, where=""):
        super().__init__(f"{where}: error: {sentence}" if where else f"iolb-prepare: {sentence}")
