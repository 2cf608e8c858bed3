"""The commands: python -m hivebasket season FOLDER -o season.csv, and python -m hivebasket plot FILE -o flight.png."""
from __future__ import annotations

import argparse
import os
import sqlite3
import sys
from typing import List, Optional

from . import Refused, check, plot
from .season import BUNCH, ROADS, Bar, season


def _words() -> argparse.ArgumentParser:
    words = argparse.ArgumentParser(prog="python -m hivebasket", description="IGC flight recorder files, checked and read by proved functions.")
    verbs = words.add_subparsers(dest="verb", required=True)
    table = verbs.add_parser("season", help="one table of all IGC files of a folder; run again, it does only what has changed")
    table.add_argument("folder", metavar="FOLDER")
    table.add_argument("-o", "--output", required=True, metavar="TABLE", help="a name that ends with .csv or .sqlite")
    table.add_argument("--jobs", type=int, metavar="N", help="how many workers; one a core where none is said")
    table.add_argument("--by", choices=[name for name in ROADS if name != "cluster"], default="processes")
    table.add_argument("--cluster", default="", metavar="ADDRESS", help="a dask.distributed scheduler, as tcp://10.0.0.1:8786; its workers need this package and the folder")
    table.add_argument("--bunch", type=int, default=BUNCH, metavar="N", help=f"how many files a worker takes at a time ({BUNCH}); more on a large cluster")
    table.add_argument("--anew", action="store_true", help="tell changes by every file's bytes, not by size and time")
    picture = verbs.add_parser("plot", help="a flight as a picture: barogram, engine noise and track")
    picture.add_argument("file", metavar="FILE")
    picture.add_argument("-o", "--output", required=True, metavar="PICTURE", help="a name that ends with .png, .svg or .pdf")
    return words


def _season(given: argparse.Namespace) -> int:
    told = season(given.folder, given.output, by=given.by, jobs=given.jobs, cluster=given.cluster, bunch=max(1, given.bunch), anew=given.anew, progress=Bar())
    print(f"{told.files} files: {told.accepted} accepted, {told.refused} refused, {told.unread} unread; {told.made} rows made, {told.kept} kept; {told.seconds:.1f} s")
    return 2 if told.unread else 1 if told.refused else 0


def _plot(given: argparse.Namespace) -> int:
    flight = check(given.file)
    plot(flight, title=f"{os.path.basename(given.file)}, {flight.date}").savefig(given.output, dpi=120)
    return 0


def main(given: Optional[List[str]] = None) -> int:
    """Runs a command. The status is 0 where all is good, 1 where a file is refused, 2 where one could not be read or the words are wrong."""
    words = _words().parse_args(given)
    try:
        return _season(words) if words.verb == "season" else _plot(words)
    except Refused as refused:
        print(refused.explanation, end="")
        return 1
    except (OSError, ValueError, sqlite3.Error) as error:
        print(f"hivebasket: {error}", file=sys.stderr)
        return 2


if __name__ == "__main__":
    sys.exit(main())
