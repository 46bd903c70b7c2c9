"""What tests/parts stands on: a folder with desks' files, runs of the program over them, and the rows of a file, of which a part is made."""
import contextlib
import os
import random
import shutil
import sqlite3
import subprocess
import sys
import tempfile

ROOT = os.path.dirname(os.path.dirname(os.path.realpath(__file__)))
sys.path.insert(0, os.path.join(ROOT, "bench"))
from references import grn_of, lettered  # noqa: E402

SECONDS, LAST = 300, 999_999
MEMORY = "/dev/shm" if os.path.isdir("/dev/shm") else None
AT = 1740819600  # 2025-03-01T09:00:00Z
TABLES = ["codes", "guarantees2", "holders", "lines3", "meta", "movements"]


class Differs(Exception):
    """What came isn't what is due."""


class LeftOut(Exception):
    """What a case needs isn't there."""


def due(what, wanted, got):
    """Long texts are shown from right before the first place that differs."""
    if wanted == got:
        return
    wanted, got = (it if isinstance(it, str) else repr(it) for it in (wanted, got))
    start = max(0, len(os.path.commonprefix([wanted, got])) - 60)
    raise Differs(f"{what}: {got[start:start + 300]} came, and {wanted[start:start + 300]} is due")


def remove(path):
    """A file and what lies beside it."""
    for end in ("", "-wal", "-shm", "-journal"):
        with contextlib.suppress(FileNotFoundError):
            os.remove(path + end)


def copied(path, to):
    """A copy of a file and its log, in the place of what was there."""
    remove(to)
    for end in ("", "-wal"):
        if os.path.exists(path + end):
            shutil.copyfile(path + end, to + end)
    return to


@contextlib.contextmanager
def database_of(path):
    """A copy of a file and its log, in a folder of its own, opened by sqlite3, which finds it whole. The file is left as it is."""
    with tempfile.TemporaryDirectory(prefix="parts-seen-", dir=MEMORY) as folder:
        with contextlib.closing(sqlite3.connect(copied(path, f"{folder}/desk.db"))) as database:
            due(f"the integrity of {path}", [("ok",)], database.execute("PRAGMA integrity_check").fetchall())
            due(f"the references in {path}", [], database.execute("PRAGMA foreign_key_check").fetchall())
            yield database


def held(path):
    """All rows of a file, table by table."""
    with database_of(path) as database:
        names = [name for name, in database.execute("SELECT name FROM sqlite_schema WHERE type = 'table' ORDER BY name")]
        return {name: sorted(database.execute(f"SELECT * FROM {name}").fetchall(), key=repr) for name in names}


def texts_of(path):
    """The texts of all that was made in a file, one after another."""
    with database_of(path) as database:
        return [text for text, in database.execute("SELECT sql FROM sqlite_schema WHERE sql IS NOT NULL ORDER BY rowid")]


def newest(rows):
    """The tables of the newest version, of rows whose earlier tables are empty."""
    due("rows of earlier tables", [], [row for name, those in rows.items() if name not in TABLES for row in those])
    return {name: rows[name] for name in TABLES}


def part_of(rows, first, last):
    """The rows of the holders from first to last: a row of each table but one begins with its holder."""
    return {name: [it for it in those if name == "meta" or first <= it[0] <= last] for name, those in newest(rows).items()}


def same_rows(what, wanted, got):
    """Compares rows as sets, and shows the first that is missing and the first that is too much."""
    due(f"{what}: the tables", sorted(wanted), sorted(got))
    for name, those in wanted.items():
        missing, more = sorted(set(those) - set(got[name]), key=repr), sorted(set(got[name]) - set(those), key=repr)
        due(f"{what}: rows of {name} that are missing, and others that are there", ([], []), (missing[:1], more[:1]))
        due(f"{what}: how many rows {name} has", len(those), len(got[name]))


def report_part(text, first, last):
    """The lines of a report for these holders, and their number."""
    head, *lines, _ = text.decode().splitlines(True)
    lines = [it for it in lines if first <= int(it.split()[1]) <= last]
    return f"{head}{''.join(lines)}TOTAL {len(lines)}\n".encode()


class Room:
    """A folder, and the program over files in it."""

    def __init__(self, program, folder, kills, seed):
        self.program, self.folder, self.kills, self.seed, self.dice = program, folder, kills, seed, random.Random(seed)
        self.is_by_hand = kills >= 30

    def path(self, name):
        return os.path.join(self.folder, name)

    def run(self, *words, given=b"", **more):
        """The status of a run, what it prints, and what it says on standard error."""
        ran = subprocess.run([self.program, *words], input=given, capture_output=True, timeout=SECONDS, check=False, **more)
        return ran.returncode, ran.stdout, ran.stderr.decode()

    def does(self, printed, *words, given=b""):
        due(f"what {' '.join(words)} leaves", (0, printed, ""), self.run(*words, given=given))

    def refuses(self, line, words, **more):
        due(f"what {' '.join(words)} leaves", (1, b"", f"transit-desk: {line}\n"), self.run(*words, **more))

    def new(self, name, requests=()):
        """A new desk's file, of which these requests are answered well."""
        path = self.path(name)
        remove(path)
        told = self.asked(path, requests, "--new")
        due("requests that are answered well", len(requests), told.count(b"HTTP/1.1 200 OK"))
        return path

    def asked(self, path, requests, *more):
        """What a desk over this file replies."""
        given = b"".join(request(*it) for it in requests)
        status, told, said = self.run("pipe", "--country", "CH", "--at", str(AT), "--db", path, *more, given=given)
        due("what `pipe` leaves", (0, ""), (status, said))
        return told

    def extract(self, path, first, last, into):
        """The file of a range of holders, made anew."""
        remove(self.path(into))
        self.does(b"", *extracting(path, f"{first:06}-{last:06}", self.path(into)))
        return self.path(into)

    def joins(self, path, other):
        self.does(b"", *joining(path, other))
        return path

    def checks(self, path):
        self.does(b"sound\n", "check", "--country", "CH", "--db", path)


def extracting(path, holders, into, country="CH"):
    return ["extract", "--country", country, "--db", path, "--holders", holders, "--into", into]


def joining(path, other, country="CH"):
    return ["join", "--country", country, "--db", path, "--with", other]


def request(method, target, body=""):
    body = body.encode()
    return f"{method} {target} HTTP/1.1\r\nContent-Length: {len(body)}\r\n\r\n".encode() + body


def registered(number, guarantees=1):
    """Requests that register a holder with guarantees."""
    opening = '{"reference":100000,"cover":50,"code":"AB12"}'
    return [("PUT", f"/office/holders/{number:06}", '{"eori":"CH1234567"}'),
            *[("POST", f"/office/holders/{number:06}/guarantees", opening)] * guarantees]


def declared(number, lrn, cents=100):
    line = f'{{"cents":{cents},"code":"AB12","grn":"{grn_of(number, 1)}"}}'
    return "POST", f"/holders/{number:06}/movements", f'{{"lrn":"{lrn}","departure":"CH001251","destination":"DE005600","lines":[{line}]}}'


def released(number, serial):
    return "POST", f"/office/movements/{lettered(number, serial)}/ie029", '{"limit":"2025-03-08"}'
