"""A second reading of the rules of a desk of CH, written from the requirements and not from the definitions of this repository: the
account of each holder, the order of refusals, the amounts, the days, how requests and rows are read, and the texts of answers, results and
reports. `tests/rules` compares the program that was built with it, and `tests/fuzz` what it says to streams of changed bytes."""
import collections
import datetime
import functools
import json
import os
import re
import sys

sys.path.insert(0, os.path.join(os.path.dirname(os.path.realpath(__file__)), "..", "bench"))
from references import with_check_digit  # noqa: E402

PHRASES = {
    200: "OK", 400: "Bad Request", 403: "Forbidden", 404: "Not Found", 405: "Method Not Allowed", 409: "Conflict",
    413: "Payload Too Large", 431: "Request Header Fields Too Large", 501: "Not Implemented", 503: "Service Unavailable",
}
STATUS = collections.defaultdict(lambda: 409, {
    "clock-range": 503, "no-holder": 404, "no-movement": 404, "no-guarantee": 404, "bad-code": 403, "no-code": 404})
EPOCH = datetime.date(1970, 1, 1).toordinal()
FIRST_DAY, LAST_DAY = (datetime.date(*it).toordinal() - EPOCH for it in ((2000, 1, 1), (2100, 12, 31)))
FIRST_MOMENT, LAST_MOMENT = 946684800, 4102444799
COUNTING = ("released", "enquired", "arrived", "discrepant", "cleared")
CODE, OFFICE, EORI, LRN, HOLDER = (re.compile(it, re.ASCII) for it in (
    "[0-9A-Z]{4}", "[A-Z]{2}[0-9A-Z]{6}", "[A-Z]{2}[0-9A-Z]{1,15}", "[0-9A-Za-z/.-]{1,22}", "(?!000000)[0-9]{6}"))
AMOUNT = re.compile(r"(0|[1-9][0-9]*)\.([0-9]{2})", re.ASCII)


class Refused(Exception):
    """A command is refused, by this name and with these keys beside it."""


class Unread(Exception):
    """A request can't be read: its status, its body and the methods that its path has, if it has others."""


def day_text(day):
    return datetime.date.fromordinal(day + EPOCH).isoformat()


def day_of(text):
    """The number of the day that a text shows, or nothing."""
    if not re.fullmatch("[0-9]{4}-[0-9]{2}-[0-9]{2}", text, re.ASCII):
        return None
    try:
        day = datetime.date(*map(int, text.split("-"))).toordinal() - EPOCH
    except ValueError:
        return None
    return day if FIRST_DAY <= day <= LAST_DAY else None


def cents_text(cents):
    return f"{cents // 100}.{cents % 100:02}"


def fault_of(text, length):
    """Why a text is no reference of that length, or nothing."""
    if len(text) != length:
        return "length"
    if not re.fullmatch("[0-9]{2}[A-Z]{2}[0-9A-Z]*[0-9]", text, re.ASCII):
        return "form"
    return None if with_check_digit(text[:-1]) == text else "check-digit"


def owner_of(reference):
    """The holder that a well-formed reference names at a desk of CH, or nothing."""
    identifier = reference[4:-1]
    if reference[2:4] != "CH" or not re.fullmatch("[0-9]{12}([0-9J])?", identifier, re.ASCII) or identifier[:6] == "000000":
        return None
    return int(identifier[:6])


class Holder:
    """A holder's own rows."""

    def __init__(self, number, eori, at):
        self.number, self.eori, self.last_at, self.guarantees, self.movements = number, eori, at, {}, {}

    def shown(self):
        return {"eori": self.eori, "guarantees": len(self.guarantees), "holder": f"{self.number:06}", "movements": len(self.movements)}

    def used(self, grn):
        return sum(cents for m in self.movements.values() if m["state"] in COUNTING for g, cents in m["lines"] if g == grn)

    def guarantee_shown(self, grn):
        g, used = self.guarantees[grn], self.used(grn)
        return {"codes": sorted(g["codes"]), "cover": g["cover"], "ends": g["ends"] and day_text(g["ends"]), "free": g["reference"] - used,
                "grn": grn, "guaranteed": -(-g["reference"] * g["cover"] // 100), "reference": g["reference"], "used": used}

    def movement_shown(self, mrn):
        m = self.movements[mrn]
        days = {key: m[key] and day_text(m[key]) for key in ("accepted", "arrival", "limit")}
        texts = {key: m[key] for key in ("actual", "departure", "destination", "lrn", "state")}
        return {**days, **texts, "mrn": mrn, "lines": [{"cents": cents, "grn": grn} for grn, cents in m["lines"]]}


class Desk:
    """A desk of CH. Each command is a method of its name: it answers, and has changed the desk then, or raises Refused."""

    def __init__(self):
        self.holders, self.repeats = {}, 0

    def do(self, at, name, *given):
        if not FIRST_MOMENT <= at <= LAST_MOMENT:
            raise Refused("clock-range")
        self.at, self.day = at, at // 86400
        return getattr(self, name)(*given)

    def holder(self, number, changes):
        """A registered holder of this number, whose last change isn't later, if the command changes anything."""
        if number not in self.holders:
            raise Refused("no-holder")
        if changes and self.at < self.holders[number].last_at:
            raise Refused("clock-back")
        return self.holders[number]

    def owned(self, reference, kind, missing):
        """The holder that an office's act is on by the reference that it names, and what that names."""
        owner = self.holders.get(owner_of(reference))
        if owner is None:
            raise Refused(missing)
        self.holder(owner.number, True)
        return owner, self.named(getattr(owner, kind), reference, missing)

    def named(self, things, reference, missing):
        if reference not in things:
            raise Refused(missing)
        return things[reference]

    def changed(self, holder, answer):
        holder.last_at = self.at
        return answer

    def register(self, number, eori):
        if number in self.holders:
            raise Refused("holder-known")
        self.holders[number] = Holder(number, eori, self.at)
        return self.holders[number].shown()

    def open(self, number, reference, cover, code):
        holder = self.holder(number, True)
        grn = with_check_digit(f"{day_text(self.day)[2:4]}CH{number:06}{len(holder.guarantees) + 1:06}")
        holder.guarantees[grn] = {"reference": reference, "cover": cover, "ends": None, "codes": {code}}
        return self.changed(holder, {"grn": grn})

    def amend(self, grn, reference, cover):
        holder, guarantee = self.owned(grn, "guarantees", "no-guarantee")
        used = holder.used(grn)
        if reference < used:
            raise Refused("below-use", {"used": used})
        guarantee.update(reference=reference, cover=cover)
        return self.changed(holder, holder.guarantee_shown(grn))

    def revoke(self, grn):
        holder, guarantee = self.owned(grn, "guarantees", "no-guarantee")
        if guarantee["ends"] is not None:
            raise Refused("already-ended")
        guarantee["ends"] = self.day + 16
        return self.changed(holder, {"ends": day_text(guarantee["ends"]), "grn": grn})

    def has_ended(self, guarantee):
        return guarantee["ends"] is not None and guarantee["ends"] <= self.day

    def ie015(self, number, lrn, departure, destination, lines):
        holder = self.holder(number, True)
        offices, amounts = (departure, destination), [(grn, cents) for grn, _, cents in lines]
        for mrn, m in holder.movements.items():
            if m["lrn"] == lrn:
                if ((m["departure"], m["destination"]), m["lines"]) != (offices, amounts):
                    raise Refused("lrn-used")
                self.repeats += 1
                return {"lrn": lrn, "message": "IE028", "mrn": mrn}
        for grn, code, _ in lines:
            guarantee = self.named(holder.guarantees, grn, "no-guarantee")
            if code not in guarantee["codes"]:
                raise Refused("bad-code")
            if self.has_ended(guarantee):
                raise Refused("guarantee-ended")
        mrn = with_check_digit(f"{day_text(self.day)[2:4]}CH{number:06}{len(holder.movements) + 1:06}J")
        holder.movements[mrn] = {"lrn": lrn, "departure": departure, "destination": destination, "lines": amounts, "accepted": self.day,
                                 "state": "accepted", "limit": None, "arrival": None, "actual": None}
        return self.changed(holder, {"lrn": lrn, "message": "IE028", "mrn": mrn})

    def ie014(self, number, mrn):
        holder = self.holder(number, True)
        movement = self.named(holder.movements, mrn, "no-movement")
        self.move(movement, {"accepted": "cancelled"})
        return self.moved(holder, movement, "cancelled", {"message": "IE014", "mrn": mrn, "state": "cancelled"})

    def move(self, movement, ways):
        """The state that a movement comes into from its own."""
        if movement["state"] not in ways:
            raise Refused("wrong-state", {"state": movement["state"]})
        return ways[movement["state"]]

    def moved(self, holder, movement, state, answer):
        movement["state"] = state
        return self.changed(holder, answer)

    def add(self, number, grn, code):
        holder = self.holder(number, True)
        codes = self.named(holder.guarantees, grn, "no-guarantee")["codes"]
        if code in codes:
            raise Refused("code-known")
        if len(codes) == 20:
            raise Refused("codes-full")
        codes.add(code)
        return self.changed(holder, holder.guarantee_shown(grn))

    def remove(self, number, grn, code):
        holder = self.holder(number, True)
        codes = self.named(holder.guarantees, grn, "no-guarantee")["codes"]
        if code not in codes:
            raise Refused("no-code")
        if len(codes) == 1:
            raise Refused("last-code")
        codes.remove(code)
        return self.changed(holder, holder.guarantee_shown(grn))

    def ie029(self, mrn, limit):
        holder, movement = self.owned(mrn, "movements", "no-movement")
        state = self.move(movement, {"accepted": "released"})
        if not self.day <= limit <= self.day + 365:
            raise Refused("limit-date")
        for grn, cents in movement["lines"]:
            guarantee, used = holder.guarantees[grn], holder.used(grn)
            if self.has_ended(guarantee):
                raise Refused("guarantee-ended")
            if used + cents > guarantee["reference"]:
                raise Refused("over-reference", {"free": guarantee["reference"] - used, "grn": grn})
        movement["limit"] = limit
        return self.moved(holder, movement, state, {"limit": day_text(limit), "message": "IE029", "mrn": mrn, "state": state})

    def ie007(self, mrn, office):
        holder, movement = self.owned(mrn, "movements", "no-movement")
        state = self.move(movement, {"released": "arrived", "enquired": "arrived"})
        movement.update(arrival=self.day, actual=office)
        return self.moved(holder, movement, state, {"late": self.day > movement["limit"], "message": "IE006", "mrn": mrn})

    def ie018(self, mrn, result):
        holder, movement = self.owned(mrn, "movements", "no-movement")
        after = "discrepant" if result == "B1" else "cleared"
        state = self.move(movement, {"arrived": after, "discrepant": after})
        return self.moved(holder, movement, state, {"message": "IE018", "mrn": mrn, "state": state})

    def ie045(self, mrn, ground):
        holder, movement = self.owned(mrn, "movements", "no-movement")
        state = self.move(movement, {{"results": "cleared", "proof": "enquired"}[ground]: "written-off"})
        return self.moved(holder, movement, state, {"message": "IE045", "mrn": mrn, "state": state})

    def ie140(self, mrn):
        holder, movement = self.owned(mrn, "movements", "no-movement")
        state = self.move(movement, {"released": "enquired"})
        if self.day < movement["limit"] + 7:
            raise Refused("too-early")
        return self.moved(holder, movement, state, {"message": "IE140", "mrn": mrn, "state": state})

    def see_holder(self, number):
        return self.holder(number, False).shown()

    def see_guarantee(self, number, grn):
        holder = self.holder(number, False)
        self.named(holder.guarantees, grn, "no-guarantee")
        return holder.guarantee_shown(grn)

    def see_guarantees(self, number):
        holder = self.holder(number, False)
        return {"guarantees": [holder.guarantee_shown(grn) for grn in holder.guarantees]}

    def see_movement(self, number, mrn):
        holder = self.holder(number, False)
        self.named(holder.movements, mrn, "no-movement")
        return holder.movement_shown(mrn)

    def see_movements(self, number):
        movements = self.holder(number, False).movements.items()
        return {"movements": [{"lrn": m["lrn"], "mrn": mrn, "state": m["state"]} for mrn, m in movements]}

    def overdue(self, day):
        """The report of what is overdue on a day."""
        rows = []
        for number in sorted(self.holders):
            for mrn, m in self.holders[number].movements.items():
                due = {"released": m["limit"], "enquired": m["limit"], "arrived": m["arrival"] and m["arrival"] + 6}.get(m["state"])
                if due is not None and due < day:
                    kind = "control" if m["state"] == "arrived" else "arrival"
                    rows.append(f"{mrn} {number:06} {kind} {m['state']:<8} {day_text(due)} {day - due:>5}\n")
        return f"OVERDUE {day_text(day)}\n{''.join(rows)}TOTAL {len(rows)}\n"

    def all_guarantees(self):
        """The report of guarantees."""
        rows = []
        for number in sorted(self.holders):
            for grn in self.holders[number].guarantees:
                g = self.holders[number].guarantee_shown(grn)
                amounts = "".join(f"{cents_text(g[key]):>17} " for key in ("reference", "guaranteed", "used", "free"))
                rows.append(f"{grn} {number:06} {g['cover']:>3} {amounts}{g['ends'] or '-'}\n")
        return f"GUARANTEES\n{''.join(rows)}TOTAL {len(rows)}\n"

    def reports(self, day):
        """Each report on a day: the words that ask for it, and its text."""
        return [(["overdue", "--day", day_text(day)], self.overdue(day)), (["guarantees"], self.all_guarantees())]


# The paths, in parts: H, G and M stand for a holder, a GRN and an MRN. Of each its methods, and the command and the fields of each.
ROUTES = {
    "/office/holders/H": {"PUT": ("register", ["eori"])},
    "/office/holders/H/guarantees": {"POST": ("open", ["reference", "cover", "code"])},
    "/office/guarantees/G/amend": {"POST": ("amend", ["reference", "cover"])},
    "/office/guarantees/G/revoke": {"POST": ("revoke", [])},
    "/office/movements/M/ie029": {"POST": ("ie029", ["limit"])},
    "/office/movements/M/ie007": {"POST": ("ie007", ["office"])},
    "/office/movements/M/ie018": {"POST": ("ie018", ["result"])},
    "/office/movements/M/ie045": {"POST": ("ie045", ["ground"])},
    "/office/movements/M/ie140": {"POST": ("ie140", [])},
    "/holders/H": {"GET": ("see_holder", [])},
    "/holders/H/guarantees": {"GET": ("see_guarantees", [])},
    "/holders/H/guarantees/G": {"GET": ("see_guarantee", [])},
    "/holders/H/guarantees/G/codes/add": {"POST": ("add", ["code"])},
    "/holders/H/guarantees/G/codes/remove": {"POST": ("remove", ["code"])},
    "/holders/H/movements": {"GET": ("see_movements", []), "POST": ("ie015", ["lrn", "departure", "destination", "lines"])},
    "/holders/H/movements/M": {"GET": ("see_movement", [])},
    "/holders/H/movements/M/ie014": {"POST": ("ie014", [])},
}
# The same by how many parts a path has: of each path its parts, and its methods.
BY_LENGTH = collections.defaultdict(list)
for PATH, METHODS in ROUTES.items():
    BY_LENGTH[PATH.count("/") + 1].append((PATH.split("/"), METHODS))


def text_in(form):
    return lambda value: value if isinstance(value, str) and form.fullmatch(value) else None


def one_of(*words):
    return lambda value: value if value in words and isinstance(value, str) else None


def number_in(least, most):
    return lambda value: value if type(value) is int and least <= value <= most else None


def line_in(value):
    """A line's GRN, code and cents, or nothing."""
    if not isinstance(value, dict):
        return None
    grn, code, cents = (value.get(key) for key in ("grn", "code", "cents"))
    if not isinstance(grn, str) or fault_of(grn, 17) or text_in(CODE)(code) is None or number_in(1, 10**12)(cents) is None:
        return None
    return grn, code, cents


def lines_in(value):
    """One to 99 lines with distinct GRNs, or nothing."""
    if not isinstance(value, list) or not 1 <= len(value) <= 99:
        return None
    lines = [line_in(it) for it in value]
    return lines if None not in lines and len({grn for grn, _, _ in lines}) == len(lines) else None


FIELDS = {
    "eori": text_in(EORI), "reference": number_in(1, 10**15),
    "cover": lambda value: value if type(value) is int and value in (0, 30, 50, 100) else None,
    "code": text_in(CODE), "limit": lambda value: day_of(value) if isinstance(value, str) else None, "office": text_in(OFFICE),
    "result": one_of("A1", "A2", "B1"), "ground": one_of("results", "proof"), "lrn": text_in(LRN), "departure": text_in(OFFICE),
    "destination": text_in(OFFICE), "lines": lines_in,
}


def unread(status, name, **beside):
    return Unread(status, {"error": name, **beside})


def part_in(kind, text):
    """What a part of a path stands for."""
    if kind == "H":
        if not HOLDER.fullmatch(text):
            raise unread(400, "bad-holder")
        return int(text)
    fault = fault_of(text, 17 if kind == "G" else 18)
    if fault:
        raise unread(400, "bad-grn" if kind == "G" else "bad-mrn", reason=fault)
    return text


def fields_in(names, body):
    """The values of a body's fields."""
    if not names:
        return []
    try:
        read = json.loads(body, parse_int=lambda it: None if it[0] == "-" else int(it), parse_float=lambda _: None)
    except ValueError:
        read = None
    if not isinstance(read, dict):
        raise unread(400, "bad-body")
    values = []
    for name in names:
        value = FIELDS[name](read[name]) if name in read else None
        if value is None:
            raise unread(400, "bad-field", field=name)
        values.append(value)
    return values


@functools.lru_cache(1024)
def route_of(target):
    """The methods of a target's path, and the parts that stand for a number or a reference, by their letters; nothing without a path."""
    parts = target.split("?")[0].split("/")
    for names, methods in BY_LENGTH.get(len(parts), ()):
        if all(part if name in ("H", "G", "M") else name == part for name, part in zip(names, parts)):
            return methods, [(name, part) for name, part in zip(names, parts) if name in ("H", "G", "M")]
    return None, []


def command_in(method, target, body):
    """The name of the command that a request is, and what it is given."""
    methods, parts = route_of(target)
    if methods is None:
        raise unread(404, "no-route")
    if method not in methods:
        raise Unread(405, {"error": "no-method"}, ", ".join(sorted(methods)))
    command, fields = methods[method]
    given = [part_in(name, part) for name, part in parts]
    return command, given + fields_in(fields, body)


def reply_of(status, body, allow=None):
    text = json.dumps(body, sort_keys=True, separators=(",", ":"))
    line = f"Allow: {allow}\r\n" if allow else ""
    head = f"HTTP/1.1 {status} {PHRASES[status]}\r\nContent-Type: application/json\r\nContent-Length: {len(text)}\r\n{line}\r\n"
    return (head + text).encode()


def asked(desk, at, request, ends):
    """Asks a desk, and counts the end: the status of the reply, what its body says, and the methods that it lists, if it does."""
    try:
        command, given = command_in(*request)
        answer = desk.do(at, command, *given)
    except Unread as why:
        ends[why.args[1]["error"]] += 1
        return why.args
    except Refused as why:
        ends[why.args[0]] += 1
        return STATUS[why.args[0]], {"error": why.args[0], **(why.args[1] if len(why.args) > 1 else {})}
    ends[command] += 1
    return 200, answer


def replied(desk, at, request, ends):
    """The reply to a request at a desk, whose end is counted."""
    return reply_of(*asked(desk, at, request, ends))


# What the result file of acts tells of each act that was done.
REACHED = {"IE029": "released", "IE007": "arrived", "IE045": "written-off", "IE140": "enquired"}
VALUES = {"IE029": "limit", "IE007": "office", "IE018": "result", "IE045": "ground"}


def amount_in(text):
    found = AMOUNT.fullmatch(text)
    return int(found[1] + found[2]) if found else None


def declaration_in(row):
    """What a row of declarations gives the command IE015, or the first of its columns that is bad."""
    if len(row) != 5:
        return 0
    number, lrn, departure, destination, lines = row
    if not HOLDER.fullmatch(number):
        return 1
    for column, form, text in ((2, LRN, lrn), (3, OFFICE, departure), (4, OFFICE, destination)):
        if not form.fullmatch(text):
            return column
    parts = [line.split(":") for line in lines.split(";")]
    read = [{"grn": it[0], "code": it[1], "cents": amount_in(it[2])} if len(it) == 3 else None for it in parts]
    read = lines_in(read)
    return 5 if read is None else ("ie015", [int(number), lrn, departure, destination, read])


def act_in(row):
    """What a row of acts gives the command of its message, or the first of its columns that is bad."""
    if len(row) != 3:
        return 0
    message, mrn, value = row
    if message not in (*VALUES, "IE140"):
        return 1
    if fault_of(mrn, 18):
        return 2
    given = [FIELDS[VALUES[message]](value)] if message in VALUES else []
    if None in given or (not given and value):
        return 3
    return message.lower(), [mrn, *given]


def done(desk, at, rows, is_acts, ends):
    """The result file of rows, the line on standard error, and the status."""
    read = [(act_in if is_acts else declaration_in)(row) for row in rows]
    for number, it in enumerate(read, 2):
        if isinstance(it, int):
            ends["bad-csv"] += 1
            return b"", f"transit-desk: bad csv row {number} column {it}\n".encode(), 1
    out, status = ["message,mrn,outcome\n" if is_acts else "holder,lrn,outcome,mrn\n"], 0
    for row, (command, given) in zip(rows, read):
        try:
            answer = desk.do(at, command, *given)
            told = REACHED.get(row[0], answer.get("state")) if is_acts else f"IE028,{answer['mrn']}"
        except Refused as why:
            told, status = why.args[0] + ("" if is_acts else ","), 1
        out.append(",".join(row[:2]) + f",{told}\n")
    return "".join(out).encode(), b"", status
