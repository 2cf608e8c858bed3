"""Times of UTC, in which the leap second is told apart from the midnight behind it."""
from __future__ import annotations

import datetime
from typing import NamedTuple

LEAP = 86_400
"""The seconds of the day by which the library tells the leap second, 23:59:60."""


class Moment(NamedTuple):
    """A time. Of the leap second `leap` is True and `when` the midnight behind it, since datetime has no 23:59:60; as text it is told.

    >>> moment(datetime.date(2016, 12, 31), 0, 86_400)
    Moment(when=datetime.datetime(2017, 1, 1, 0, 0, tzinfo=datetime.timezone.utc), leap=True)
    >>> print(_)
    2016-12-31T23:59:60Z
    """

    when: datetime.datetime
    leap: bool

    def __str__(self) -> str:
        if not self.leap:
            return self.when.isoformat().replace("+00:00", "Z")
        before = (self.when - datetime.timedelta(seconds=1)).isoformat().replace("+00:00", "Z")
        return before.replace(":59:59", ":59:60")


def moment(date: datetime.date, day: int, count: int, decimals: int = 0) -> Moment:
    """The moment of so many seconds of a day, with their decimals as c/hivebasket.h has them; the day is counted from 0, which is the date.

    >>> print(moment(datetime.date(2024, 7, 15), 1, 432015, 1))
    2024-07-16T12:00:01.500000Z
    """
    midnight = datetime.datetime.combine(date, datetime.time(), datetime.timezone.utc)
    tens = 10**decimals
    return Moment(midnight + datetime.timedelta(days=day, microseconds=count * 1_000_000 // tens), count // tens == LEAP)
