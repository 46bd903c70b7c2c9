"""What tests/journal, tests/replay, tests/feeds and tests/standby stand on: a folder with a desk's file and its journal, the requests of a
short life, and that journal, views and tables agree."""
import importlib.machinery
import importlib.util
import json
import os
import subprocess
import sys

from journal_read import content, due, result_of, rows_in, tables
from references import grn_of

ROOT = os.path.dirname(os.path.dirname(os.path.realpath(__file__)))


def load(name):
    """Another script of tests/, as a module."""
    loader = importlib.machinery.SourceFileLoader(name, os.path.join(ROOT, "tests", name))
    module = importlib.util.module_from_spec(importlib.util.spec_from_loader(name, loader))
    sys.modules[name] = module
    loader.exec_module(module)
    return module


moments = load("moments")
START, SECONDS = 1_740_819_600, 300
FILE, JOURNAL = "--db", "--journal"
BOTH = FILE, JOURNAL
GRN = grn_of(1, 1)
# So many bytes has a log that holds no change. Each start writes it anew.
NO_CHANGE = 41
# Changes one after another: a holder, a guarantee, declarations.
REGISTER = "PUT", "/office/holders/000001", '{"eori":"CH1234567"}'
OPENING = "POST", "/office/holders/000001/guarantees", '{"reference":1000000000,"cover":50,"code":"AB12"}'
LIST = "GET", "/holders/000001/movements", ""


def lodging(lrn):
    body = {"lrn": lrn, "departure": "CH001251", "destination": "DE005600", "lines": [{"cents": 1, "code": "AB12", "grn": GRN}]}
    return "POST", "/holders/000001/movements", json.dumps(body)


def sent(request, close=False):
    method, target, body = request
    fields = f"Content-Length: {len(body.encode())}\r\n" + ("Connection: close\r\n" if close else "")
    return f"{method} {target} HTTP/1.1\r\n{fields}\r\n{body}".encode()


def ask(port, request):
    """The status and the answer that a connection of its own is told."""
    with moments.connected(port) as peer:
        peer.sendall(sent(request, close=True))
        told = b"".join(iter(lambda: peer.recv(65536), b""))
    return int(told[9:12]), moments.first_reply(told)[0]


class Room:
    """A folder with a desk's file and its journal."""

    def __init__(self, program, folder, country="CH"):
        self.program, self.folder, self.country = program, folder, country
        self.files = {FILE: f"{folder}/desk.db", JOURNAL: f"{folder}/journal.csv"}
        self.journal = self.files[JOURNAL]

    def words(self, job, *more, keeps=BOTH):
        return [self.program, job, "--country", self.country, *(word for it in keeps for word in (it, self.files[it])), *more]

    def run(self, words, given=b""):
        done = subprocess.run(words, input=given, capture_output=True, timeout=SECONDS, check=False)
        return done.returncode, done.stdout, done.stderr

    def pipe(self, at, requests, *more, keeps=BOTH):
        """The bodies of the replies."""
        status, told, line = self.run(self.words("pipe", "--at", str(at), *more, keeps=keeps), b"".join(map(sent, requests)))
        due("how pipe ends", (0, b""), (status, line))
        return list(moments.replies(told))

    def text(self):
        return content(self.journal)

    def put(self, name, data):
        with open(os.path.join(self.folder, name), "wb") as file:
            file.write(data)
        return os.path.join(self.folder, name)

    def all(self):
        """All files of the folder, byte for byte."""
        return {name: content(os.path.join(self.folder, name)) for name in sorted(os.listdir(self.folder))}

    def restore(self, files):
        for name in os.listdir(self.folder):
            os.remove(os.path.join(self.folder, name))
        for name, data in files.items():
            self.put(name, data)

    def refuses(self, line, *more, keeps=BOTH):
        """A start is told so, and no byte is changed."""
        before = self.all()
        words = self.words("pipe", "--at", str(START), *more, keeps=keeps)
        due("how a start ends", (1, b"", f"transit-desk: {line}\n".encode()), self.run(words, sent(REGISTER)))
        changed = {name: data for name, data in self.all().items() if data != before.get(name)}
        due("files that were changed", [], [it for it, data in changed.items() if not it.endswith("-wal") or len(data) > NO_CHANGE])


def agree(room, books):
    """The journal is that of these books, and the views are what they say."""
    books.follow(room.text())
    views = [("GET", f"/holders/{number:06}{what}", "") for number in books.desk.holders for what in ("", "/guarantees", "/movements")]
    at = max(it.last_at for it in books.desk.holders.values())
    due("the views", [books.ask(at, it)[1] for it in views], room.pipe(at, views))


def replayed(room, rows, *words):
    """What is left of these rows done again."""
    return room.run([room.program, "replay", "--country", room.country, "--file", rows, *words])


def done_again(room):
    """The journal's rows are told what they were, in memory and at a new file, whose tables are the same then."""
    again, wanted = f"{room.folder}/again.db", (0, result_of(rows_in(room.text())), b"")
    due("how the rows are done again in memory", wanted, replayed(room, room.journal))
    due("how they are at a new file", wanted, replayed(room, room.journal, "--db", again, "--new"))
    due("the check of that", (0, b"sound\n", b""), room.run([room.program, "check", "--country", room.country, "--db", again]))
    due("the tables", tables(room.files[FILE]), tables(again))
