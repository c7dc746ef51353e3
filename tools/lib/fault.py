"""What the page and its server raise."""


class Fault(Exception):
    """What is asked for can't be had, for the reason that its line says. HTTP has a status for it."""

    def __init__(self, line, status=500):
        super().__init__(line)
        self.status = status
