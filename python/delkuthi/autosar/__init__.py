"""Tables from AUTOSAR's Timing Extensions: what an ARXML file asks about timing, as the text of a table."""
from __future__ import annotations

from .takeover import Entry, Takeover, is_arxml, take_over

__all__ = ["Entry", "Takeover", "is_arxml", "take_over"]
