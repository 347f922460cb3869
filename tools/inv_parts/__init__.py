"""The parts of `inv`, each with one task. Nothing here changes a reply of the program."""

VERSION = "0.1.0"


class Trouble(Exception):
    """Something that `inv` can't do. Its text is told on standard error, and the run ends with `status`."""

    def __init__(self, text, status=11):
        super().__init__(text)
        self.status = status
