"""Where a season's rows are kept: a CSV file or an SQLite table. Rows are safe as soon as they are put, so that a season that was cut off goes on."""
from __future__ import annotations

import csv
import os
import sqlite3
from pathlib import Path
from typing import Any, Dict, Iterable, Iterator, List, Protocol, Sequence

from .rows import KINDS, Row

_TYPES = {str: "TEXT", int: "INTEGER", float: "REAL"}


class Store(Protocol):
    """A place for rows."""

    def rows(self) -> Dict[str, Row]:
        """The rows by the files' names, those of a season that was cut off too."""

    def put(self, rows: Sequence[Row]) -> None:
        """Keeps more rows; a file's last one counts."""

    def finish(self, rows: Sequence[Row]) -> None:
        """Makes these, in this order, the whole table."""


class Csv:
    """A CSV file with a heading. While a season runs its rows are put behind NAME.part; at its end the whole is written anew and renamed, so that no half of it ever stands in its place."""

    def __init__(self, path: Path) -> None:
        self._path, self._part = path, path.with_name(path.name + ".part")
        heads = next(self._read(path), None)
        if heads is not None and heads != list(Row._fields):
            raise ValueError(f"{path}: it is there, and is no season's table")
        _mend(self._part)

    @staticmethod
    def _read(path: Path) -> Iterator[List[str]]:
        if path.exists():
            with path.open(newline="", encoding="utf-8") as file:
                yield from csv.reader(file)

    @staticmethod
    def _write(path: Path, mode: str, rows: Iterable[Sequence[Any]]) -> None:
        with path.open(mode, newline="", encoding="utf-8") as file:
            csv.writer(file, lineterminator="\n").writerows(rows)
            file.flush()
            os.fsync(file.fileno())

    def rows(self) -> Dict[str, Row]:
        lines = (values for path in (self._path, self._part) for values in self._read(path))
        return {values[0]: _row(values) for values in lines if len(values) == len(Row._fields) and values != list(Row._fields)}

    def put(self, rows: Sequence[Row]) -> None:
        self._write(self._part, "a", rows)

    def finish(self, rows: Sequence[Row]) -> None:
        new = self._path.with_name(self._path.name + ".new")
        self._write(new, "w", [Row._fields, *rows])
        os.replace(new, self._path)
        self._part.unlink(missing_ok=True)


def _mend(path: Path) -> None:
    """Takes away the last line of a file where its end is missing: the run that wrote it was cut off there."""
    if not path.exists():
        return
    with path.open("r+b") as file:
        size = end = file.seek(0, os.SEEK_END)
        while end:
            start = max(0, end - 65_536)
            file.seek(start)
            found = file.read(end - start).rfind(b"\n")
            if found >= 0:
                end = start + found + 1
                break
            end = start
        if end < size:
            file.truncate(end)


def _row(values: List[str]) -> Row:
    """A row of CSV with its numbers as numbers."""
    return Row._make(KINDS[name](value) if value else None for name, value in zip(Row._fields, values))


class Sqlite:
    """The table `flights` of an SQLite file, a row for each file."""

    def __init__(self, path: Path) -> None:
        self._path = path
        heads = ", ".join(f"{name} {_TYPES[KINDS[name]]}" for name in Row._fields)
        with self._opened() as base:
            base.execute(f"CREATE TABLE IF NOT EXISTS flights ({heads}, PRIMARY KEY (file))")

    def _opened(self) -> "_Opened":
        return _Opened(self._path)

    def rows(self) -> Dict[str, Row]:
        with self._opened() as base:
            return {values[0]: Row._make(values) for values in base.execute(f"SELECT {', '.join(Row._fields)} FROM flights")}

    def put(self, rows: Sequence[Row]) -> None:
        with self._opened() as base:
            base.executemany(f"INSERT OR REPLACE INTO flights VALUES ({', '.join('?' * len(Row._fields))})", rows)

    def finish(self, rows: Sequence[Row]) -> None:
        stay = {row.file for row in rows}
        gone = [(name,) for name in self.rows() if name not in stay]
        with self._opened() as base:
            base.executemany("DELETE FROM flights WHERE file = ?", gone)


class _Opened:
    """An SQLite file opened for one transaction, then closed."""

    def __init__(self, path: Path) -> None:
        self._base = sqlite3.connect(path)

    def __enter__(self) -> sqlite3.Connection:
        return self._base.__enter__()

    def __exit__(self, *what: Any) -> None:
        try:
            self._base.__exit__(*what)
        finally:
            self._base.close()


def store_of(path: Path) -> Store:
    """The store that the name's ending tells: .csv, or .sqlite and .db."""
    if path.suffix == ".csv":
        return Csv(path)
    if path.suffix in (".sqlite", ".db"):
        return Sqlite(path)
    raise ValueError(f"{path}: the name ends neither with .csv nor with .sqlite")
