"""When something was checked."""
from __future__ import annotations

import os
from datetime import datetime, timezone

from .readers import LogError


def run_date() -> datetime:
    """Now, or the time that ``SOURCE_DATE_EPOCH`` says, in UTC."""
    given = os.environ.get("SOURCE_DATE_EPOCH")
    try:
        return datetime.now(timezone.utc) if given is None else datetime.fromtimestamp(int(given), timezone.utc)
    except (ValueError, OverflowError, OSError):
        raise LogError("SOURCE_DATE_EPOCH", "", f"expected seconds since 1970, found {given}") from None
