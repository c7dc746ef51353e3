"""The arguments of a tool."""
import argparse


class Arguments(argparse.ArgumentParser):
    """The arguments of a tool: its help is the text of its file, and a wrong argument ends it with one line and 2."""

    def __init__(self, text):
        super().__init__(description=text, formatter_class=argparse.RawDescriptionHelpFormatter)

    def error(self, message):
        self.exit(2, f"{self.prog}: {message}; {' '.join(self.format_usage().split())}\n")
