"""What an input can end with in place of an answer."""


class Refused(Exception):
    """A refusal: its number and words, as docs/FORMATS.md has them."""

    def __str__(self):
        return f"error {self.args[0]}"


class Trap(Exception):
    """A trap: its kind, and the step of the call that it ends."""

    def __str__(self):
        kind, step = self.args
        return f"trap {kind} in {step}"


class Stopped(Exception):
    """A body or its post-return that stops."""


class NotModelled(Exception):
    """An input of which the models don't know the answer."""
