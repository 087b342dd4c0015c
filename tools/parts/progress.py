"""What the Python tools share in telling how far a long run is."""

import sys


class Progress:
    """One line that is written over on a terminal, else a line every 10 %."""

    def __init__(self, number):
        self.number = number
        self.on_terminal = sys.stderr.isatty()
        self.shown_tenths = 0

    def show(self, done, line):
        tenths = 10 * done // self.number
        if self.on_terminal:
            print(f"\r{line}", end="\n" if done == self.number else "", file=sys.stderr, flush=True)
        elif tenths > self.shown_tenths:
            print(line, file=sys.stderr, flush=True)
        self.shown_tenths = tenths

    def leave_line(self):
        if self.on_terminal:
            print(file=sys.stderr)
