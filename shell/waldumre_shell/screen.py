"""Where lines go: answers to standard output, refusals and complaints to standard error, in the order in which they come."""
import os
import sys

from .quel import plain


class Screen:
    def __init__(self, out=None, err=None, colour=None):
        self.out, self.err = out or sys.stdout, err or sys.stderr
        wanted = self.out.isatty() and not os.environ.get("NO_COLOR") and os.environ.get("TERM") != "dumb"
        self.colour = coloured if (wanted if colour is None else colour) else None

    def say(self, lines):
        self.out.write("".join(line + "\n" for line in lines))
        self.out.flush()

    def warn(self, lines):
        self.err.write("".join(line + "\n" for line in lines))
        self.err.flush()

    def pieces(self, pieces):
        """A question with what the permits added set apart: by colour on a terminal, by braces elsewhere."""
        return plain(pieces, "\033[1;32m", "\033[0m") if self.colour else plain(pieces)


def coloured(text):
    return f"\033[1;33m{text}\033[0m"
