"""Of each file of tests/igc, what igc check, track and summary print, made from what the package answers. What igc must print is made by tests/make-expected."""
import unittest

import hivebasket
from cases import IGC


def named():
    """The names of tests/igc/args that are files, with their bytes; what igc says of the others it says on standard error."""
    for name in (IGC / "args").read_text().splitlines():
        if (IGC / "data" / name).is_file():
            yield name, (IGC / "data" / name).read_bytes()


def expected(name):
    return (IGC / name).read_bytes().decode("latin-1")


def clock(count, decimals=0):
    """A time of day as igc prints it, the leap second as 23:59:60."""
    plain, finer = divmod(count, 10**decimals)
    hours, seconds = (23, 3660) if plain == 86_400 else divmod(plain, 3600)
    minutes, seconds = (59, 60) if plain == 86_400 else divmod(seconds, 60)
    return f"{hours:02d}:{minutes:02d}:{seconds:02d}" + (f".{finer:0{decimals}d}" if decimals else "")


def tracked(data):
    fixes = hivebasket.track(data)
    lat, lon = hivebasket.degrees(fixes)
    for n, fix in enumerate(hivebasket.Fix(*(one if isinstance(one, (bytes, int)) else one.item() for one in fix)) for fix in fixes):
        at = f"{lat[n]:.{6 + fix.lat_decimals}f} {lon[n]:.{6 + fix.lon_decimals}f}"
        yield f"{fix.line} {fix.day} {clock(fix.time, fix.time_decimals)} {at} {fix.valid.decode()} {fix.pressure} {fix.gnss}\n"


def outlined(data):
    flight, told = hivebasket.check(data), hivebasket.summary(data)
    flown = ["-"] * 5
    if told.start:
        def since(moment):  # seconds behind the midnight before the flight; of the leap second 86,400
            return int((moment.when.date() - flight.date).total_seconds()) + moment.when.hour * 3600 + moment.when.minute * 60 + moment.when.second

        def shown(moment):
            days = (moment.when.date() - flight.date).days - moment.leap
            return str(moment)[11:19] + (f"+{days}" if days else "")

        lasted = since(told.end) - since(told.start)
        flown = [shown(told.start), shown(told.end), f"{lasted // 3600}:{lasted // 60 % 60:02d}:{lasted % 60:02d}", str(told.highest), str(told.lowest)]
    box = ["-" if side is None else f"{side:.6f}" for side in told[5:]]
    return " ".join([str(flight.date), *flown, str(told.fixes), *box])


def accepted(data):
    flight = hivebasket.check(data)
    counts = f"lines {flight.lines}, fixes {flight.fixes}, K lines {flight.k_lines}, N lines {flight.n_lines}"
    return f"accepted, {flight.date}, {counts}, {'signed' if flight.signed else 'not signed'}\n"


class AsIgc(unittest.TestCase):
    maxDiff = None

    def told(self, make):
        """What is made of each file, or why it is refused."""
        for name, data in named():
            try:
                yield name, make(data), True
            except hivebasket.Refused as refused:
                yield name, refused.explanation, False

    def test_checked(self):
        self.assertEqual("".join(f"{name}: {words}" for name, words, _ in self.told(accepted)), expected("checked"))

    def test_tracks(self):
        unread = [name for name in (IGC / "args").read_text().splitlines() if not (IGC / "data" / name).is_file()]
        found = "".join(f"== {name}\n{words}" for name, words, _ in self.told(lambda data: "".join(tracked(data))))
        self.assertEqual(found + "".join(f"== {name}\n" for name in unread), expected("tracks"))

    def test_summaries(self):
        found = (f"{words} {name}\n" if good else f"{name}: {words}" for name, words, good in self.told(outlined))
        self.assertEqual("".join(found), expected("summaries"))


if __name__ == "__main__":
    unittest.main()
