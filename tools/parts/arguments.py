"""What the Python tools share in reading their arguments."""

import argparse
import re


class Parser(argparse.ArgumentParser):
    """Answers a wrong argument with one line and status 2."""

    def __init__(self, name, description):
        super().__init__(prog=f"tools/{name}", description=description, allow_abbrev=False,
                         formatter_class=argparse.RawDescriptionHelpFormatter)

    def error(self, message):
        line = " ".join(message.split())
        self.exit(2, f"{self.prog}: {line}\n")


def number(least, most):
    """The reader of a decimal number from least to most."""
    def read(text):
        if not re.fullmatch("[0-9]{1,20}", text) or not least <= int(text) <= most:
            raise argparse.ArgumentTypeError(f"{text!r} is not a number from {least:,} to {most:,}")
        return int(text)
    return read
