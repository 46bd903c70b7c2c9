"""Shapes of desks by which a cost may grow, and whether it may: for what measures and for what tests how costs grow when the size is twice
as great. A shape in memory is brought about by requests, one in a file by SQL."""
import collections
import os
import subprocess
import sys

sys.path.insert(0, os.path.dirname(os.path.realpath(__file__)))
sys.dont_write_bytecode = True
from filling import AT, Shape, fill, make_older  # noqa: E402
from references import grn_of  # noqa: E402

# What a cost may grow by at twice the size where it may not grow, since a search takes a step more, and where it may.
FLAT, LINEAR = 1.2, 2.2
# How many requests a stream has; a desk closes one at its thousandth.
STREAM = 900
RELEASE, ARRIVAL = '{"limit":"2025-03-08"}', '{"office":"DE005600"}'
OPENING = '{"reference":1000000000000000,"cover":50,"code":"AB12"}'
ALL_GUARANTEES, ALL_MOVEMENTS = ("GET", "/holders/000001/guarantees", ""), ("GET", "/holders/000001/movements", "")

# A case: its name; whether requests are asked in memory or over a file, or the job over a file; the shape of a size; the requests that are
# asked of it so many times; whether the cost may grow with the size or not at all; the size where instructions are counted, and that where
# time is taken; and how many times it is asked then.
Case = collections.namedtuple("Case", "name where shape asked may_grow counted timed times")


def view_of_one(shape, times):
    return [("GET", f"/holders/000001/guarantees/{grn_of(1, 1)}", "")] * times


def views_of_movements(shape, times):
    return [("GET", f"/holders/000001/movements/{shape.mrn_of(1, it)}", "") for it in range(1, times + 1)]


def always(request):
    return lambda shape, times: [request] * times


def acts(message, body):
    """An act of the office on one movement after another."""
    return lambda shape, times: [("POST", f"/office/movements/{shape.mrn_of(1, it)}/{message}", body) for it in range(1, times + 1)]


def cancellations(shape, times):
    return [("POST", f"/holders/000001/movements/{shape.mrn_of(1, it)}/ie014", "") for it in range(1, times + 1)]


def declaration(shape, number):
    lines = ",".join('{"grn":"%s","code":"AB12","cents":%d}' % (grn_of(1, it), shape.cents) for it in shape.named_by(number))
    body = f'{{"lrn":"L{number}","departure":"CH001251","destination":"DE005600","lines":[{lines}]}}'
    return "POST", "/holders/000001/movements", body


def declarations(shape, times):
    return [declaration(shape, shape.movements + it) for it in range(1, times + 1)]


def begun(shape):
    """The requests that bring about the shape at an empty desk."""
    for number in shape.numbers:
        yield "PUT", f"/office/holders/{number:06}", '{"eori":"CH1234567"}'
    for number, _ in shape.keys(shape.guarantees):
        yield "POST", f"/office/holders/{number:06}/guarantees", OPENING
    for it in range(1, shape.movements + 1):
        yield declaration(shape, it)
    if shape.state == "released":
        yield from acts("ie029", RELEASE)(shape, shape.movements)


def of_lines(count, state="accepted"):
    """Movements by their number, of so many lines each."""
    return lambda size, mrn_of: Shape(99, size, count, state, mrn_of=mrn_of)


def by_lines(state):
    """A hundred movements, by the number of their lines."""
    return lambda size, mrn_of: Shape(99, 100, size, state, mrn_of=mrn_of)


def by_movements(guarantees, state="accepted"):
    return lambda size, mrn_of: Shape(guarantees, size, 1, state, mrn_of=mrn_of)


def by_both(each, state="accepted"):
    """Guarantees and movements, so many of these for each guarantee."""
    return lambda size, mrn_of: Shape(max(1, size // each), size, 1, state, mrn_of=mrn_of)


def by_guarantees(size, mrn_of):
    return Shape(size, 20, 1, "released", mrn_of=mrn_of)


def by_holders(size, mrn_of):
    return Shape(1, 1, 1, "released", numbers=range(1, size + 1), mrn_of=mrn_of)


def of_lists(where, counted, lines, timed):
    """The list of movements, by their number and by that of their lines, which it doesn't show."""
    for count in (1, 9, 99):
        name, fewer = f"list of movements of {count} line{'s' * (count > 1)}", counted // max(1, count // 20)
        yield Case(name, where, of_lines(count), always(ALL_MOVEMENTS), True, fewer, timed, 20)
    yield Case("list of 100 movements, by lines", where, by_lines("accepted"), always(ALL_MOVEMENTS), False, lines, 45, 100)


CASES = [
    Case("list of guarantees, by both", "memory", by_both(20, "released"), always(ALL_GUARANTEES), True, 400, 10_000, 10),
    Case("list of guarantees, by movements", "memory", by_movements(20, "released"), always(ALL_GUARANTEES), False, 400, 10_000, 50),
    Case("view of a guarantee, by movements", "memory", by_movements(1), view_of_one, False, 1_000, 20_000, 800),
    Case("release by turns, by both", "memory", by_both(1), acts("ie029", RELEASE), False, 1_500, 2_000, 800),
    Case("release, by movements", "memory", by_movements(20), acts("ie029", RELEASE), False, 800, 20_000, 800),
    Case("declaration, by movements", "memory", by_movements(20), declarations, False, 400, 20_000, 400),
    *of_lists("memory", 50, 45, 300),
    Case("list of guarantees, by guarantees", "file", by_guarantees, always(ALL_GUARANTEES), True, 50, 1_000, 20),
    Case("list of guarantees, by movements", "file", by_movements(20, "released"), always(ALL_GUARANTEES), False, 100, 5_000, 20),
    Case("view of a guarantee, by movements", "file", by_movements(1, "released"), view_of_one, False, 100, 5_000, 800),
    Case("view of a movement, by movements", "file", by_movements(20), views_of_movements, False, 100, 5_000, 800),
    Case("declaration, by movements", "file", by_movements(20), declarations, False, 100, 5_000, 800),
    Case("release, by movements", "file", by_movements(20), acts("ie029", RELEASE), False, 100, 5_000, 800),
    *of_lists("file", 40, 9, 300),
    Case("release, by lines", "file", by_lines("accepted"), acts("ie029", RELEASE), True, 9, 45, 100),
    Case("IE007, by lines", "file", by_lines("released"), acts("ie007", ARRIVAL), False, 9, 45, 100),
    Case("IE018, by lines", "file", by_lines("arrived"), acts("ie018", '{"result":"A1"}'), False, 9, 45, 100),
    Case("IE014, by lines", "file", by_lines("accepted"), cancellations, False, 9, 45, 100),
    Case("IE045, by lines", "file", by_lines("cleared"), acts("ie045", '{"ground":"results"}'), True, 9, 45, 100),
    Case("opening, by holders", "check", by_holders, None, True, 50, 5_000, 1),
    Case("opening, by both", "check", by_both(20, "released"), None, True, 200, 10_000, 1),
    Case("report of what is overdue, by movements", "report overdue", by_movements(20, "released"), None, True, 100, 10_000, 1),
    Case("report of guarantees, by guarantees", "report guarantees", by_guarantees, None, True, 100, 10_000, 1),
    Case("migration, by both", "migrate", by_both(40, "released"), None, True, 400, 5_000, 1),
    Case("migration, by holders", "migrate", by_holders, None, True, 50, 2_000, 1),
]


# A cost that is saved at the second size, 2, and the most that it may be of the cost at the first one, 1: guarantees that follow one
# another are read together.
SAVED = [
    (Case("release of 90 lines, whose guarantees stand far apart or in a row", "file",
          lambda size, mrn_of: Shape(540, 20, 90, mrn_of=mrn_of, apart=6 if size == 1 else 1), acts("ie029", RELEASE), False, 1, 1, 1), 0.9),
]


def streams_of(requests):
    """The bytes of requests, as many at once as a stream takes."""
    told = [f"{method} {target} HTTP/1.1\r\nContent-Length: {len(body)}\r\n\r\n{body}".encode() for method, target, body in requests]
    return [told[at : at + STREAM] for at in range(0, len(told), STREAM)]


def make_file(program, case, shape, path):
    """Makes a file of the program's in which the shape stands."""
    is_older = case.where == "migrate"
    if is_older:
        make_older(path)
    else:
        words = [program, "pipe", "--country", "CH", "--at", str(AT), "--db", path, "--new"]
        subprocess.run(words, stdin=subprocess.DEVNULL, stdout=subprocess.DEVNULL, check=True)
    fill(path, shape, 1 if is_older else 3)


def words_of(case, path):
    """The words of a job over a file."""
    more = {"migrate": [], "report overdue": ["--country", "CH", "--day", "2025-03-20"]}.get(case.where, ["--country", "CH"])
    return [*case.where.split(), "--db", path, *more]
