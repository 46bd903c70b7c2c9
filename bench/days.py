"""A day's requests as they come: by chance, at the rate of each hour (a process of Poisson), each with a connection of its own, over TLS
through the nginx of package/root where nginx is installed, and else to the desk itself. Where connections are kept, a request comes over
one to nginx that is idle, if there is one of its caller. An hour is made as short as is asked for, and its rate stays: so there are fewer
requests than in a day, and each waits as long as it would. A request's time runs from the moment at which it comes, and so has what it
waits for others in it."""
import collections
import concurrent.futures
import contextlib
import os
import re
import shutil
import socket
import sys
import tempfile
import time

sys.path[:0] = [os.path.join(os.path.dirname(os.path.realpath(__file__)), it) for it in ("", "../tests")]
sys.dont_write_bytecode = True
import proxy_stand  # noqa: E402
from references import grn_of, lettered  # noqa: E402
from years import MOST  # noqa: E402

# Requests a second in each hour of a day, from midnight on, ten at the most.
RATES = (0.5, 0.5, 0.5, 0.5, 0.5, 1, 2, 5, 8, 10, 10, 9, 7, 8, 10, 10, 9, 7, 4, 2, 2, 1, 1, 0.5)
PEAK = max(RATES)
# How many of a hundred requests are of each kind.
MIXED = {"declaration": 30, "release": 22, "arrival": 10, "control": 8, "write-off": 10, "movement": 12, "guarantee": 4, "guarantees": 2, "list": 2}
# The state in which a movement is acted on, the message and its body.
ACTS = {"release": ("accepted", "ie029", '{"limit":"2025-03-08"}'), "arrival": ("released", "ie007", '{"office":"DE005600"}'),
        "control": ("arrived", "ie018", '{"result":"A1"}'), "write-off": ("cleared", "ie045", '{"ground":"results"}')}
# Of how many holders but the first movements are lodged: a caller of the proxy has a line of so many numbers.
AGENT = 400
WORKERS = 64
# The seconds after which a client gives up a connection that it kept, before nginx does, in 75.
IDLE = 50

# A request as it comes: the second of its coming, who asks, and what.
Coming = collections.namedtuple("Coming", "at who method target body")


class Requests:
    """Requests on a year's file, each of which the desk grants: no movement is acted on twice, and no LRN is used twice."""

    def __init__(self, year, dice):
        self.year, self.dice, self.lodged = year, dice, 0
        self.movements = year.some(dice)
        self.agents = sorted(dice.sample(range(2, year.others + 2), min(AGENT, year.others)))

    def callers(self):
        """Who is registered at the proxy, and for whom."""
        return {"office": "office", "holder": "000001", "agent": " ".join(f"{it:06}" for it in self.agents)}

    def declaration(self):
        """Of one to three lines, by the first holder three times in ten, as long as there are serials for it."""
        first, self.lodged = self.dice.random() < 0.3 and self.year.first < MOST, self.lodged + 1
        holder = 1 if first or not self.agents else self.dice.choice(self.agents)
        named = self.dice.sample(range(1, self.year.guarantees[holder > 1] + 1), self.dice.randint(1, 3))
        lines = ",".join('{"grn":"%s","code":"AB12","cents":%d}' % (grn_of(holder, it), self.dice.randint(1, 10**6)) for it in named)
        body = f'{{"lrn":"DAY{self.lodged}","departure":"CH001251","destination":"DE005600","lines":[{lines}]}}'
        return "holder" if holder == 1 else "agent", "POST", f"/holders/{holder:06}/movements", body

    def act(self, kind):
        state, message, body = ACTS[kind]
        if not self.movements.get(state):
            return self.movement()
        return "office", "POST", f"/office/movements/{lettered(*self.movements[state].pop())}/{message}", body

    def movement(self):
        holder, serial = self.dice.choice(self.movements["written-off"])
        return "office", "GET", f"/holders/{holder:06}/movements/{lettered(holder, serial)}", ""

    def of_kind(self, kind):
        if kind in ACTS:
            return self.act(kind)
        if kind in ("declaration", "movement"):
            return getattr(self, kind)()
        holder = self.dice.choice(self.agents or [1])
        ends = {"guarantee": f"guarantees/{grn_of(holder, 1)}", "guarantees": "guarantees", "list": "movements"}
        return "office", "GET", f"/holders/{holder:06}/{ends[kind]}", ""

    def coming(self, rates, hour):
        """The requests of a day, each of whose hours takes so many seconds."""
        at, kinds, weights = 0.0, list(MIXED), list(MIXED.values())
        for number, rate in enumerate(rates):
            at = number * hour + self.dice.expovariate(rate)
            while at < (number + 1) * hour:
                yield Coming(at, *self.of_kind(self.dice.choices(kinds, weights)[0]))
                at += self.dice.expovariate(rate)


class Door:
    """Where clients ask: nginx in front of a desk, or the desk itself. `idle` are connections by caller that are kept, if they are."""

    def __init__(self, proxy, port, keeps=False):
        self.proxy, self.port, self.idle = proxy, port, {"office": [], "holder": [], "agent": []} if keeps else {}
        self.contexts = {who: proxy.certificates.context(who) for who in ("office", "holder", "agent")} if proxy else {}

    def ask(self, coming):
        """The status of the whole reply."""
        end = "" if self.idle else "Connection: close\r\n"
        length = f"Content-Length: {len(coming.body)}\r\n" if coming.method == "POST" else ""
        request = f"{coming.method} {coming.target} HTTP/1.1\r\nHost: localhost\r\n{end}{length}\r\n{coming.body}".encode()
        if self.idle:
            return self.over_a_kept(coming.who, request)
        with self.connect(coming.who) as it:
            it.sendall(request)
            return drained(it)

    def over_a_kept(self, who, request):
        try:
            it, since = self.idle[who].pop()
        except IndexError:
            it, since = None, 0
        if time.monotonic() - since > IDLE:
            if it:
                it.close()
            it = self.connect(who)
        it.sendall(request)
        status, stays = replied(it)
        if stays:
            self.idle[who].append((it, time.monotonic()))
        else:
            it.close()
        return status

    def close(self):
        for it, _ in [it for those in self.idle.values() for it in those]:
            it.close()

    def connect(self, who):
        if self.proxy:
            return self.proxy.connect(who, self.contexts[who])
        return socket.create_connection(("127.0.0.1", self.port), timeout=600)


def drained(it):
    """The status of a reply, all of which is read: 0 where its end is missing."""
    head, came = b"", -1
    while came < 0:
        piece = it.recv(1 << 16)
        if not piece:
            return 0
        head += piece
        came = len(head) - head.find(b"\r\n\r\n") - 4 if b"\r\n\r\n" in head else -1
    while piece := it.recv(1 << 20):
        came += len(piece)
    length = re.search(rb"Content-Length: (\d+)\r\n", head)
    return int(head.split()[1]) if length and int(length[1]) == came else 0


def replied(it):
    """The status of a reply on a connection that is kept, and whether that stays: 0 where the reply's end is missing."""
    got = b""
    while b"\r\n\r\n" not in got:
        piece = it.recv(1 << 16)
        if not piece:
            return 0, False
        got += piece
    head, _, body = got.partition(b"\r\n\r\n")
    came, length = len(body), int(re.search(rb"Content-Length: (\d+)\r\n", head + b"\r\n")[1])
    while came < length and (piece := it.recv(1 << 20)):
        came += len(piece)
    return int(head.split()[1]) if came == length else 0, came == length and b"\r\nConnection: close" not in head


@contextlib.contextmanager
def door(program, port, callers, keeps=False):
    """The door to a desk on that port, with nginx in front of it where there is one."""
    if not has_nginx():
        yield Door(None, port)
        return
    with tempfile.TemporaryDirectory() as folder:
        os.chmod(folder, 0o755)
        certificates = proxy_stand.Certificates(folder)
        certificates.fingerprints = {who: certificates.fingerprints[who] for who in callers}
        with proxy_stand.Stand(program, certificates).proxy_before(port, callers) as proxy:
            with contextlib.closing(Door(proxy, port, keeps)) as it:
                yield it


def has_nginx():
    return bool(shutil.which("nginx") and shutil.which("openssl"))


def lived(there, coming, path):
    """Has each request come at its moment: the seconds that each took, in the order of their coming, and whether the log was written into the
    file meanwhile; and a line on those that weren't granted."""

    def ask(it):
        before = os.stat(path).st_mtime_ns
        try:
            status = there.ask(it)
        except OSError as why:
            status = why
        return status, time.monotonic() - began - it.at, os.stat(path).st_mtime_ns != before

    with concurrent.futures.ThreadPoolExecutor(WORKERS) as workers:
        began, asked = time.monotonic() + 0.1, []
        for it in coming:
            time.sleep(max(0.0, began + it.at - time.monotonic()))
            asked.append((it, workers.submit(ask, it)))
        told = [(it, *answer.result()) for it, answer in asked]
    wrong = [(it, status) for it, status, *_ in told if status != 200]
    line = f"{len(wrong)} of {len(told)} weren't granted: {wrong[0][0].method} {wrong[0][0].target}: {wrong[0][1]}" if wrong else None
    return [took for _, _, *took in told], line
