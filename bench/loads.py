"""Loads of many holders and movements, as exchanges: each request with the reply that is due to it, which is written out here by the rule
of references. A desk that `serve` has in memory takes them in several streams, a connection each, since a stream has 1,000 requests at
most, and is closed with the last of these."""
import os
import resource
import subprocess
import sys

sys.path.insert(0, os.path.dirname(os.path.realpath(__file__)))
sys.dont_write_bytecode = True
from references import grn_of, lettered  # noqa: E402
from sockets import SECONDS, free_port, told_over  # noqa: E402

AT, LIMIT, CENTS = "1740819600", "2025-03-08", 500_000
# How many requests a stream has; the desk closes one at its thousandth.
STREAM = 900
ACTS, STATES = ("lodge", "release", "arrive"), ("accepted", "released", "arrived")


def exchange(method, target, sent, told):
    """A request with this body, or with none, and the reply that answers with the other."""
    size = f"Content-Length: {len(sent)}\r\n" if sent else ""
    request = f"{method} {target} HTTP/1.1\r\n{size}\r\n{sent}"
    reply = f"HTTP/1.1 200 OK\r\nContent-Type: application/json\r\nContent-Length: {len(told)}\r\n\r\n{told}"
    return request.encode(), reply.encode()


def shown(holder, guarantees, movements):
    return f'{{"eori":"CH1234567","guarantees":{guarantees},"holder":"{holder:06}","movements":{movements}}}'


def register(holder):
    return exchange("PUT", f"/office/holders/{holder:06}", '{"eori":"CH1234567"}', shown(holder, 0, 0))


def open_guarantee(holder):
    """The holder's first, with the greatest reference amount."""
    sent = '{"reference":1000000000000000,"cover":50,"code":"AB12"}'
    return exchange("POST", f"/office/holders/{holder:06}/guarantees", sent, f'{{"grn":"{grn_of(holder, 1)}"}}')


def lodge(holder, serial):
    """A declaration of one line, under an LRN of the holder's number and its own."""
    line = f'{{"grn":"{grn_of(holder, 1)}","code":"AB12","cents":{CENTS}}}'
    sent = f'{{"lrn":"{holder:06}-{serial}","departure":"CH001251","destination":"DE005600","lines":[{line}]}}'
    told = f'{{"lrn":"{holder:06}-{serial}","message":"IE028","mrn":"{lettered(holder, serial)}"}}'
    return exchange("POST", f"/holders/{holder:06}/movements", sent, told)


def release(holder, serial):
    mrn = lettered(holder, serial)
    told = f'{{"limit":"{LIMIT}","message":"IE029","mrn":"{mrn}","state":"released"}}'
    return exchange("POST", f"/office/movements/{mrn}/ie029", f'{{"limit":"{LIMIT}"}}', told)


def arrive(holder, serial):
    mrn = lettered(holder, serial)
    told = f'{{"late":false,"message":"IE006","mrn":"{mrn}"}}'
    return exchange("POST", f"/office/movements/{mrn}/ie007", '{"office":"DE005600"}', told)


def see(holder, movements):
    return exchange("GET", f"/holders/{holder:06}", "", shown(holder, 1, movements))


def list_movements(holder, movements, state):
    shown = ",".join(f'{{"lrn":"{holder:06}-{serial}","mrn":"{lettered(holder, serial)}","state":"{state}"}}' for serial in range(1, movements + 1))
    return exchange("GET", f"/holders/{holder:06}/movements", "", f'{{"movements":[{shown}]}}')


def streams_of(exchanges):
    """The exchanges, as many at once as a stream takes."""
    exchanges = list(exchanges)
    return [exchanges[at : at + STREAM] for at in range(0, len(exchanges), STREAM)]


def load(holders, each, acts, lists=False):
    """The streams of a load: so many holders with a guarantee each bring so many movements each to the first so many acts, each act done by
    turns, a movement of each holder a turn; in the end each holder is seen, and the list of each one's movements if that is asked for."""
    numbers, does = range(1, holders + 1), {"lodge": lodge, "release": release, "arrive": arrive}
    yield from streams_of(register(it) for it in numbers)
    yield from streams_of(open_guarantee(it) for it in numbers)
    for act in ACTS[:acts]:
        yield from streams_of(does[act](it, serial) for serial in range(1, each + 1) for it in numbers)
    yield from streams_of(see(it, each if acts else 0) for it in numbers)
    if lists:
        yield from streams_of(list_movements(it, each, STATES[acts - 1]) for it in numbers)


def sent(stream):
    return b"".join(request for request, _ in stream)


def served(program, streams, more=()):
    """Has a run of `serve` take the streams, one after another, and returns what was told over each, and the processor's seconds of the run.
    An OSError or a TimeoutExpired says why it didn't do so to its end."""
    port, before = free_port(), resource.getrusage(resource.RUSAGE_CHILDREN)
    words = [program, "serve", "--country", "CH", "--port", str(port), "--connections", str(len(streams)), "--at", AT, *more]
    with subprocess.Popen(words, stdout=subprocess.PIPE) as run:
        try:
            if run.stdout.readline() != f"listening 127.0.0.1:{port}\n".encode():
                raise OSError("the program doesn't listen")
            told = [told_over(port, sent(stream)) for stream in streams]
            if run.wait(timeout=SECONDS):
                raise OSError(f"the program ended with the status {run.returncode}")
        finally:
            run.kill()
    after = resource.getrusage(resource.RUSAGE_CHILDREN)
    return told, after.ru_utime + after.ru_stime - before.ru_utime - before.ru_stime


def first_difference(streams, told):
    """The first stream of which not all replies came as they are due, in a line, or None."""
    for number, (stream, came) in enumerate(zip(streams, told), 1):
        due = b"".join(reply for _, reply in stream)
        if came != due:
            at = len(os.path.commonprefix([came, due]))
            return f"stream {number}, from byte {at} on: {came[at : at + 150]!r} came, and {due[at : at + 150]!r} is due"
    return None
