"""``python3 -m delkuthi``."""
from .command import run

run()
