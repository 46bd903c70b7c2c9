"""Fills a desk's file by SQL, for what is tested and measured at sizes that a program's own streams reach too slowly. The file has its
tables already: a program made them by `--new`, or `make_older` did."""
import contextlib
import importlib.machinery
import importlib.util
import os
import sqlite3
import sys

sys.path.insert(0, os.path.dirname(os.path.realpath(__file__)))
from references import grn_of, lettered  # noqa: E402

# The moment of all rows, 2025-03-01 09:00:00, and its day; the day of each limit, 2025-03-08, and of each arrival, 2025-03-03.
AT, DAY, LIMIT, ARRIVAL = 1740819600, 20148, 20155, 20150
EORI, CODE, REFERENCE, COVER = "CH1234567", "AB12", 10**15, 50
DEPARTURE, DESTINATION = "CH001251", "DE005600"
# Of each state the limit, the day of arrival and the office of arrival.
STATES = {"accepted": (None, None, None), "released": (LIMIT, None, None), "arrived": (LIMIT, ARRIVAL, DESTINATION),
          "cleared": (LIMIT, ARRIVAL, DESTINATION)}
# The tables of guarantees and of lines by the version of a file.
TABLES = {1: ("guarantees1", "lines1"), 3: ("guarantees2", "lines3")}


class Shape:
    """What stands in a file: holders of these numbers, so many guarantees of each, with one code, and so many movements of each, all in one
    state. A movement has so many lines, of so many cents each, which name the holder's guarantees by turns, each so many serials apart from
    the one before."""

    def __init__(self, guarantees=1, movements=0, lines=1, state="accepted", cents=5, numbers=(1,), mrn_of=lettered, apart=1):
        self.guarantees, self.movements, self.lines, self.state = guarantees, movements, lines, state
        self.cents, self.numbers, self.mrn_of, self.apart = cents, numbers, mrn_of, apart

    def named_by(self, serial):
        """The serials of the guarantees that the lines of this movement name, in order."""
        first = (serial - 1) * self.lines
        return [(first + it * self.apart) % self.guarantees + 1 for it in range(self.lines)]

    def used(self):
        """The amount in use on each guarantee of a holder, in order."""
        rounds, more = divmod(self.movements * self.lines, max(1, self.guarantees))
        return [self.cents * (rounds + (it < more)) if self.state != "accepted" else 0 for it in range(self.guarantees)]

    def keys(self, count):
        """The holders' numbers and so many serials of each, by turns."""
        return ((number, serial) for serial in range(1, count + 1) for number in self.numbers)


def make_older(path):
    """Makes a file of version 1 of a desk of CH, without further rows, by the texts of its tables that tests/migrations has."""
    there = os.path.join(os.path.dirname(os.path.realpath(__file__)), "..", "tests", "migrations")
    loader = importlib.machinery.SourceFileLoader("migrations", there)
    migrations = importlib.util.module_from_spec(importlib.util.spec_from_loader("migrations", loader))
    loader.exec_module(migrations)
    with contextlib.closing(sqlite3.connect(path)) as database, database:
        for text in migrations.TABLES:
            database.execute(text)
        database.execute("INSERT INTO meta VALUES (1, 1, 'CH')")


def fill(path, shape, version=3):
    """Puts the rows into the tables of that version."""
    guarantees, lines = TABLES[version]
    used = [(it,) if version > 1 else () for it in shape.used()]
    rows = {
        "holders": ((number, EORI, AT, shape.guarantees, shape.movements) for number in shape.numbers),
        guarantees: ((number, serial, grn_of(number, serial), REFERENCE, COVER, None, *used[serial - 1])
                     for number, serial in shape.keys(shape.guarantees)),
        "codes": ((number, serial, CODE) for number, serial in shape.keys(shape.guarantees)),
        "movements": ((number, serial, shape.mrn_of(number, serial), f"L{serial}", DEPARTURE, DESTINATION, DAY, shape.state,
                       *STATES[shape.state]) for number, serial in shape.keys(shape.movements)),
        lines: ((number, serial, no, guarantee, shape.cents) for number, serial in shape.keys(shape.movements)
                for no, guarantee in enumerate(shape.named_by(serial), 1)),
    }
    with contextlib.closing(sqlite3.connect(path)) as database, database:
        for table, those in rows.items():
            columns = len(database.execute(f"PRAGMA table_info({table})").fetchall())
            database.executemany(f"INSERT INTO {table} VALUES ({', '.join('?' * columns)})", those)
