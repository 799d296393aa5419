"""Counts of bytes and time spans with their units."""
from __future__ import annotations

from typing import Sequence, Tuple

Units = Sequence[Tuple[float, str]]
SIZES: Units = [(1, "bytes"), (1e3, "kB"), (1e6, "MB"), (1e9, "GB"), (1e12, "TB"), (1e15, "PB")]
SPANS: Units = [(1, "s"), (60, "min"), (3600, "h")]


def unit_of(count: float, units: Units) -> tuple[float, str]:
    """The greatest of the units that is not above a count; the first if all are."""
    return next((it for it in reversed(units) if it[0] <= count), units[0])


def measured(count: float, units: Units) -> str:
    """A count with its unit, by three digits."""
    of_unit, name = unit_of(count * 1.0005 if count >= units[0][0] else count, units)
    count /= of_unit
    digits = "%.3g" % count if count < 1000 else "{:,.0f}".format(count)
    return "%s %s" % (digits, "byte" if name == "bytes" and count == 1 else name)


def size(count: float) -> str:
    """Bytes with a unit of a thousand."""
    return measured(count, SIZES)


def span(seconds: float) -> str:
    """A time span with its unit."""
    return measured(seconds, SPANS)
