"""`python3 -m gapfile`."""
import sys

from .start import start

sys.exit(start())
