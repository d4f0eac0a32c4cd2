"""gapfile: from a polynomial to a filed figure, beside the checker. Nothing trusted rests on it."""

VERSION = "1.0"
