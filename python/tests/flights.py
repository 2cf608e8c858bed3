"""Flights to try the package on: a glider's day of climbs and glides around a declared task, with engine noise; and a folder of them, one in twenty spoiled.

    flights.py FOLDER COUNT [LEAST MOST]     writes COUNT files of LEAST to MOST fixes
"""
from __future__ import annotations

import math
import random
import sys
from pathlib import Path
from typing import Iterator, List, Tuple

STEP = 4  # seconds from a fix to the next
METRES = 1852.0 / 1000  # of a thousandth of a minute of latitude
Fix = Tuple[int, float, float, float, int]


def _flown(rng: random.Random, fixes: int, home: Tuple[float, float], task: List[Tuple[float, float]]) -> Iterator[Fix]:
    """Seconds, place in thousandths of a minute, height and noise: a start by engine, then climbs in circles and glides towards the next point of the task."""
    (lat, lon), height, aim, climbs, turn, top, low = home, 150.0, 0, True, 0.0, 900.0, 600.0
    begin = rng.randrange(30_000, 40_000)
    for n in range(fixes):
        left = (fixes - n) * STEP
        engine = height < 600 and n < 150
        to_lat, to_lon = task[aim]
        narrow = math.cos(math.radians(lat / 60_000))
        ahead = math.atan2((to_lon - lon) * narrow, to_lat - lat)
        if math.hypot(to_lat - lat, (to_lon - lon) * narrow) * METRES < 1500 and aim < len(task) - 1:
            aim += 1
        if climbs and not engine:
            turn += 0.95
            height += rng.gauss(2.4, 1.1) * STEP if left > 900 else -1.5 * STEP
            speed, heading = 24.0, turn
            climbs = height < top and left > 900
        else:
            height += rng.gauss(2.5 if engine else -1.1, 0.5) * STEP
            speed, heading = (26.0 if engine else 36.0), ahead + rng.gauss(0, 0.12)
            if height < low and not engine and left > 900:
                climbs, top, low = True, rng.uniform(1200, 2200), rng.uniform(450, 1100)
        height = max(150.0, height)
        lat += speed * STEP * math.cos(heading) / METRES
        lon += speed * STEP * math.sin(heading) / METRES / narrow
        yield (begin + STEP * n) % 86_400, lat, lon, height, max(0, min(999, int(rng.gauss(820, 40) if engine else rng.gauss(28, 12))))


def _place(lat: float, lon: float) -> str:
    a, o = int(abs(lat)), int(abs(lon))
    return "%02d%05d%s%03d%05d%s" % (a // 60_000, a % 60_000, "NS"[lat < 0], o // 60_000, o % 60_000, "EW"[lon < 0])


def flight(number: int, fixes: int) -> List[str]:
    """The lines of a flight."""
    rng = random.Random(number)
    home = (rng.uniform(46, 54) * 60_000, rng.uniform(-2, 14) * 60_000)
    reach = min(fixes * STEP * 17 / 3, 150_000) / METRES  # a third of what is flown, at 17 m/s on the average
    way = [home, *((home[0] + reach * math.cos(b), home[1] + reach * 1.5 * math.sin(b)) for b in (rng.uniform(0, 1), rng.uniform(1.3, 2.2))), home]
    names = ("START", "NORTH MILL", "EAST BRIDGE", "FINISH")
    lines = ["AXYZ%03d" % (number % 1000), "HFDTE%02d%02d24" % (number % 28 + 1, number % 12 + 1), "HFPLTPILOTINCHARGE:PILOT %d" % number, "I033638FXA3940SIU4143ENL"]
    lines += ["C%s080000%s%04d02TRIANGLE" % (lines[1][5:], lines[1][5:], number % 10_000), "C%sHOME FIELD" % _place(*home)]
    lines += ["C%s%s" % (_place(*point), name) for point, name in zip(way, names)] + ["C%sHOME FIELD" % _place(*home)]
    for seconds, lat, lon, height, noise in _flown(rng, fixes, home, way):
        clock = "%02d%02d%02d" % (seconds // 3600, seconds // 60 % 60, seconds % 60)
        lines.append("B%s%sA%05d%05d%03d%02d%03d" % (clock, _place(lat, lon), height, height + 48, rng.randrange(3, 20), rng.randrange(6, 13), noise))
    return lines + ["GABC%08X" % rng.getrandbits(32)]


def spoiled_at(number: int, lines: int) -> int:
    """The place of the B line that is spoiled, counted from 0: behind the head of four lines and the declaration of seven, before the G line."""
    return random.Random(-number).randrange(11, lines - 1)


def make(folder: Path, count: int, least: int, most: int) -> None:
    """Flights in ten folders; of every twentieth the minutes of a latitude are spoiled."""
    for number in range(count):
        rng = random.Random(number)
        lines = flight(number, rng.randrange(least, most + 1))
        if number % 20 == 19:
            at = spoiled_at(number, len(lines))
            lines[at] = lines[at][:9] + "6" + lines[at][10:]
        club = folder / ("club%d" % (number % 10))
        club.mkdir(parents=True, exist_ok=True)
        (club / ("%05d.IGC" % number)).write_bytes("\r\n".join(lines).encode() + b"\r\n")


if __name__ == "__main__":
    words = [int(word) for word in sys.argv[2:]] if len(sys.argv) in (3, 5) else sys.exit(__doc__)
    make(Path(sys.argv[1]), words[0], *(words[1:] or [1800, 5400]))
