"""The file of a desk after a year: some ten thousand movements up to twenty millions, each made by SQL from its number, since no program
lodges so many in a few minutes. One holder has three tenths of them, as far as serials go, and the others have the rest by turns; so the
rows of a holder lie apart, as they do where holders lodge when they please. They are in all states, with one to five lines. The tables are
those that a program made by `--new`, or those of version 1 that `make_older` made."""
import contextlib
import json
import os
import sqlite3
import subprocess
import sys

sys.path.insert(0, os.path.dirname(os.path.realpath(__file__)))
from filling import ARRIVAL, AT, CODE, COVER, DAY, DEPARTURE, DESTINATION, EORI, LIMIT, REFERENCE, TABLES, make_older  # noqa: E402
from references import LETTERS  # noqa: E402

# The most movements of one holder, of how many movements there is one more holder, and how many are made by one statement.
MOST, EACH, SLICE = 999_999, 1000, 100_000
# Of a hundred movements so many are in this state; of each the limit, the day and the office of arrival, and whether its lines count.
KINDS = [(86, "written-off", LIMIT, ARRIVAL, DESTINATION, 0), (2, "written-off", LIMIT, None, None, 0), (2, "cancelled", None, None, None, 0),
         (2, "accepted", None, None, None, 0), (3, "released", LIMIT, None, None, 1), (1, "enquired", LIMIT, None, None, 1),
         (1, "arrived", LIMIT, ARRIVAL, DESTINATION, 1), (1, "discrepant", LIMIT, ARRIVAL, "FR000100", 1),
         (2, "cleared", LIMIT, ARRIVAL, DESTINATION, 1)]
# How many of a hundred are overdue on a day long after the limit and the arrival.
OVERDUE = 5
# What is known of a movement by its number, :first of all :movements being those of holder 1; and the tables that this stands in meanwhile.
PLACED = """
INSERT INTO slice WITH RECURSIVE {numbers},
turns AS (SELECT i, i * :first / :movements AS firsts, (i - 1) * :first / :movements AS before FROM numbers),
placed AS MATERIALIZED (SELECT i, :above + iif(firsts > before, 1, 2 + (i - firsts - 1) % :others) AS holder,
                        iif(firsts > before, firsts, 1 + (i - firsts - 1) / :others) AS serial FROM turns)
SELECT i, holder, serial, (serial * 37 + holder * 11) % 100, iif(holder = :above + 1, :of_first, :of_others),
       1 + (serial * 7 + holder) % 5 FROM placed"""
SERIES = "numbers (i) AS (SELECT :after + 1 UNION ALL SELECT i + 1 FROM numbers WHERE i < :upto)"
PICKED = "numbers (i) AS (SELECT value FROM json_each(:picked))"
MEANWHILE = [
    "CREATE TEMP TABLE slice (i INTEGER PRIMARY KEY, holder INTEGER, serial INTEGER, kind INTEGER, guarantees INTEGER, lines INTEGER)",
    "CREATE TEMP TABLE kinds (kind INTEGER PRIMARY KEY, state TEXT, limit_day INTEGER, arrival INTEGER, actual TEXT, counts INTEGER)",
    "CREATE TEMP TABLE nos (no INTEGER PRIMARY KEY)",
    "INSERT INTO nos VALUES (1), (2), (3), (4), (5)",
    "CREATE TEMP TABLE amounts (holder INTEGER, serial INTEGER, used INTEGER, PRIMARY KEY (holder, serial)) WITHOUT ROWID",
    "CREATE TEMP VIEW entries AS SELECT holder, serial, kind, no, 1 + (serial + no) % guarantees AS guarantee, "
    "100000 + (serial * 7919 + no * 613 + holder) % 900000 AS cents FROM slice CROSS JOIN nos ON no <= lines",
]


def weighed(number):
    """SQL for the sum of a number's six digits, each times two to the power of its place."""
    return "(" + " + ".join(f"{number} / {10 ** (5 - place)} % 10 * {1 << place}" for place in range(6)) + ")"


def reference(end=""):
    """SQL for the reference of `holder` and `serial` with its check digit: a GRN, or with the letter J at its end an MRN."""
    fixed = sum(int(LETTERS.get(letter, letter)) << place for place, letter in enumerate("25CH"))
    fixed += sum(LETTERS[letter] << 16 for letter in end)
    return f"printf('25CH%06d%06d{end}%d', holder, serial, ({fixed} + {weighed('holder')} * 16 + {weighed('serial')} * 1024) % 11 % 10)"


class Year:
    """What stands in the file: so many movements, of which holder 1 has `first` and `others` have the rest; and how many guarantees holder
    1 has, and each other. All numbers of holders are so far above these."""

    def __init__(self, movements, first=None, others=None, guarantees=(50, 5), above=0):
        self.movements, self.guarantees, self.above = movements, guarantees, above
        self.first = min(MOST, movements * 3 // 10) if first is None else first
        self.others = max(10, movements // EACH) if others is None else others
        if min(guarantees) < 5 or (movements - self.first > self.others * MOST):
            raise ValueError("each holder has at least five guarantees, and at most 999,999 movements")

    def words(self, **more):
        of_first, of_others = self.guarantees
        return {"movements": self.movements, "first": self.first, "others": self.others, "of_first": of_first, "of_others": of_others,
                "above": self.above, **more}

    def make(self, program, path):
        """The file as the program made it, filled."""
        words = [program, "pipe", "--country", "CH", "--at", str(AT), "--db", path, "--new"]
        subprocess.run(words, stdin=subprocess.DEVNULL, stdout=subprocess.DEVNULL, check=True)
        self.fill(path, 3)

    def make_first(self, path):
        """The file of version 1."""
        make_older(path)
        self.fill(path, 1)

    def fill(self, path, version):
        guarantees, lines = TABLES[version]
        with contextlib.closing(sqlite3.connect(path, isolation_level=None)) as database:
            for text in ("journal_mode = off", "synchronous = off", "locking_mode = exclusive", "cache_size = -2000000", "temp_store = memory"):
                database.execute(f"PRAGMA {text}").fetchall()
            database.execute("BEGIN")
            self.begin(database, guarantees)
            for after in range(0, self.movements, SLICE):
                self.add(database, lines, self.words(after=after, upto=min(self.movements, after + SLICE)))
            if version > 1:
                database.execute("UPDATE guarantees2 SET used = amounts.used FROM amounts "
                                 "WHERE guarantees2.holder = amounts.holder AND guarantees2.serial = amounts.serial")
            database.execute("COMMIT")
            database.execute("PRAGMA journal_mode = wal").fetchall()

    def begin(self, database, guarantees):
        """The holders, with their guarantees and a code each."""
        prepare(database)
        database.execute("INSERT INTO holders (holder, eori, last_at, grn_count, mrn_count) VALUES (?, ?, ?, ?, ?)",
                         (self.above + 1, EORI, AT, self.guarantees[0], self.first))
        numbers = "WITH RECURSIVE numbers (n) AS (SELECT 1 UNION ALL SELECT n + 1 FROM numbers WHERE n < {})"
        if self.others:
            database.execute(f"INSERT INTO holders (holder, eori, last_at, grn_count, mrn_count) {numbers.format(self.others)} "
                             "SELECT ? + n, ?, ?, ?, (? - n) / ? FROM numbers",
                             (self.above + 1, EORI, AT, self.guarantees[1], self.movements - self.first + self.others, self.others))
        database.execute(f"INSERT INTO {guarantees} (holder, serial, grn, reference, cover{', used' * (guarantees == 'guarantees2')}) "
                         f"{numbers.format(max(self.guarantees))}, keys AS MATERIALIZED (SELECT holder, n AS serial FROM holders CROSS JOIN numbers "
                         f"ON n <= grn_count) SELECT holder, serial, {reference()}, {REFERENCE}, {COVER}{', 0' * (guarantees == 'guarantees2')} FROM keys")
        database.execute(f"INSERT INTO codes (holder, serial, code) SELECT holder, serial, '{CODE}' FROM {guarantees}")

    def add(self, database, lines, words):
        """The movements of a slice, with their lines, and what they add to the amounts in use."""
        database.execute("DELETE FROM slice")
        database.execute(PLACED.format(numbers=SERIES), words)
        database.execute("INSERT INTO movements (holder, serial, mrn, lrn, departure, destination, accepted, state, limit_day, arrival, actual) "
                         f"SELECT holder, serial, {reference('J')}, printf('%06d/L-%06d', holder, serial), '{DEPARTURE}', '{DESTINATION}', {DAY}, state, "
                         "limit_day, arrival, actual FROM slice CROSS JOIN kinds USING (kind)")
        database.execute(f"INSERT INTO {lines} (holder, serial, no, guarantee, cents) SELECT holder, serial, no, guarantee, cents FROM entries")
        database.execute("INSERT INTO amounts SELECT holder, guarantee, sum(cents) FROM entries CROSS JOIN kinds USING (kind) WHERE counts "
                         "GROUP BY holder, guarantee ON CONFLICT DO UPDATE SET used = used + excluded.used")

    def some(self, dice):
        """Movements by chance, as (holder, serial), by their state."""
        picked = dice.sample(range(1, self.movements + 1), min(self.movements, 200_000))
        with contextlib.closing(sqlite3.connect(":memory:")) as database:
            prepare(database)
            database.execute(PLACED.format(numbers=PICKED), self.words(picked=json.dumps(picked)))
            found = {}
            for state, *key in database.execute("SELECT state, holder, serial FROM slice JOIN kinds USING (kind)"):
                found.setdefault(state, []).append(tuple(key))
        for those in found.values():
            dice.shuffle(those)
        return found


def prepare(database):
    """The tables that rows are made by."""
    for text in MEANWHILE:
        database.execute(text)
    kinds = [those for count, *those in KINDS for _ in range(count)]
    database.executemany("INSERT INTO kinds VALUES (?, ?, ?, ?, ?, ?)", [(kind, *those) for kind, those in enumerate(kinds)])
