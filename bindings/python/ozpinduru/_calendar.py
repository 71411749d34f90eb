"""The delivery year."""
from __future__ import annotations

import operator

from ._library import NO_VALUE, library


def days(year: int) -> int:
    """The days of the delivery year that starts on 1 June of `year`: 366 where the February of the next year has 29 days, else
    365. Raises ValueError for a year that 32 bits do not hold."""
    if not 0 <= operator.index(year) <= NO_VALUE:
        raise ValueError(f"{year} is no year")
    return library.ozp_days(operator.index(year))
