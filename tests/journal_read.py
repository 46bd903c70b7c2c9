"""A second reading of a desk's journal, written from the requirements and over tests/second_reading.py: the row of an accepted change, what
rows mean, and what is told of rows that are done again. `tests/journal`, `tests/replay`, `tests/feeds` and `tests/standby` compare
with it what the program that was built and the tools write."""
import collections
import contextlib
import csv
import io
import json
import os
import sqlite3

from second_reading import FIRST_MOMENT, LAST_MOMENT, Desk, Unread, act_in, asked, command_in, declaration_in, route_of

VALUES = {"IE029": "limit", "IE007": "office", "IE018": "result", "IE045": "ground"}

# A row of a journal, whose texts are as they stand without the quotes of CSV.
Row = collections.namedtuple("Row", "number at method path body reply")


class Differs(Exception):
    """What came isn't what is due."""


def due(what, wanted, got):
    if wanted == got:
        return
    if isinstance(wanted, bytes) and isinstance(got, bytes):  # the first line in which they differ
        begin = wanted.rfind(b"\n", 0, len(os.path.commonprefix([wanted, got]))) + 1
        what, wanted, got = f"{what}, from byte {begin} on", wanted[begin:], got[begin:]
    raise Differs(f"{what}: {str(got)[:300]} came, and {str(wanted)[:300]} is due")


def text_of(value):
    return json.dumps(value, separators=(",", ":"))


def body_of(answer):
    return json.dumps(answer, sort_keys=True, separators=(",", ":"))


def line_of(row):
    """The line of a row: the two texts that may have quotes or commas in them stand in quotes."""
    body, reply = ('"{}"'.format(it.replace('"', '""')) if '"' in it else it for it in (row.body, row.reply))
    return f"{row.number},{row.at},{row.method},{row.path},{body},{reply}\n".encode()


def row_of(number, at, request, answer):
    """The row of a request that was accepted with this answer: each member stands in its place, and no other."""
    method, target, body = request
    _, names = route_of(target)[0][method]
    read = json.loads(body) if names else {}
    members = {name: read[name] for name in names}
    if "lines" in members:
        members["lines"] = [{key: line[key] for key in ("cents", "code", "grn")} for line in members["lines"]]
    return Row(number, at, method, target.split("?")[0], text_of(members) if names else "", body_of(answer))


def request_of(is_acts, row):
    """The request that a row of a file stands for, if it can be read."""
    if isinstance((act_in if is_acts else declaration_in)(row), int):
        return None
    if is_acts:
        message, mrn, value = row
        body = text_of({VALUES[message]: value}) if message in VALUES else ""
        return "POST", f"/office/movements/{mrn}/{message.lower()}", body
    holder, lrn, departure, destination, lines = row
    parts = [line.split(":") for line in lines.split(";")]
    lines = [{"cents": int(amount.replace(".", "")), "code": code, "grn": grn} for grn, code, amount in parts]
    return "POST", f"/holders/{holder}/movements", text_of({"lrn": lrn, "departure": departure, "destination": destination, "lines": lines})


class Books:
    """A desk by the second reading, and the rows of what it accepted."""

    def __init__(self):
        self.desk, self.rows, self.ends = Desk(), [], collections.Counter()

    def ask(self, at, request):
        """The status and the answer; a row is kept if it was a change."""
        repeats = self.desk.repeats
        status, answer = asked(self.desk, at, request, self.ends)[:2]
        if status == 200 and self.desk.repeats == repeats and not command_in(*request)[0].startswith("see_"):
            self.rows.append(row_of(len(self.rows) + 1, at, request, answer))
        return status, answer

    def text(self):
        return b"".join(map(line_of, self.rows))

    def follow(self, text):
        """Does what the rows of a journal behind those that are known do; each has to be the row that this makes."""
        begins = self.text()
        due("the rows that were there before", begins, text[:len(begins)])
        for row in rows_in(text[len(begins):]):
            self.ask(row.at, (row.method, row.path, row.body))
        due("the rows of a journal", self.text(), text)


def rows_in(text):
    """The rows of a text of whole rows."""
    due("whole rows", b"\n", text[-1:] or b"\n")
    records = csv.reader(io.StringIO(text.decode(), newline=""), strict=True)
    return [Row(int(number), int(at), *rest) for number, at, *rest in records]


def row_in(line):
    """The row that is just this line, if there is one. A view has none."""
    try:
        number, at, method, path, body, reply = next(csv.reader([line.decode()], strict=True))
        row = row_of(int(number), int(at), (method, path, body), {})._replace(reply=reply)
        is_view = command_in(method, path, body)[0].startswith("see_")
    except (ValueError, KeyError, TypeError, csv.Error, Unread):
        return None
    return row if not is_view and len(number) <= 18 and FIRST_MOMENT <= row.at <= LAST_MOMENT and line_of(row) == line else None


def result_of(rows):
    """The result file of rows that are told these replies."""
    return b"number,reply\n" + b"".join(b'%d,"%b"\n' % (row.number, row.reply.replace('"', '""').encode()) for row in rows)


def replay_of(text, is_part=False, books=None):
    """What is due where this text is done again: the status, the result file and the line."""
    rows = [row_in(line + b"\n") for line in whole(text).split(b"\n")[:-1]]
    if None in rows:
        return 1, b"", b"transit-desk: bad journal row %d\n" % (rows.index(None) + 1)
    before = None if is_part else 0
    for row in rows:
        if before is not None and not (row.number > before if is_part else row.number == before + 1):
            return 1, b"", b"transit-desk: journal %d\n" % row.number
        before = row.number
    books = books or Books()
    told = [row._replace(reply=body_of(books.ask(row.at, (row.method, row.path, row.body))[1])) for row in rows]
    differs = next((row.number for row, now in zip(rows, told) if row != now), None)
    return (1, result_of(told), b"transit-desk: differs %d\n" % differs) if differs is not None else (0, result_of(told), b"")


def whole(text):
    """A text without what is torn off at its end."""
    return text[:text.rfind(b"\n") + 1]


def tables(file):
    """All rows of all tables of a file that no program has."""
    with contextlib.closing(sqlite3.connect(file)) as db:
        names = [name for name, in db.execute("SELECT name FROM sqlite_master WHERE type = 'table' ORDER BY name")]
        return {name: sorted(db.execute(f"SELECT * FROM {name}")) for name in names}


def content(path):
    if not os.path.exists(path):
        return None
    with open(path, "rb") as file:
        return file.read()
