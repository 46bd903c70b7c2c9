"""Who walks in tests/installed: what is typed, what is due, and how it went."""
import datetime
import json
import os
import re
import sys

from installed_machine import lines_of

sys.path.insert(0, os.path.join(os.path.dirname(os.path.dirname(os.path.realpath(__file__))), "bench"))
from references import with_check_digit  # noqa: E402

TODAY = datetime.datetime.now(datetime.timezone.utc).date()
LIMIT = TODAY + datetime.timedelta(days=7)
GRN = with_check_digit(f"{TODAY:%y}CH000001000001")
FIRST, SECOND = (with_check_digit(f"{TODAY:%y}CH00000100000{it}J") for it in (1, 2))
RECORDS, BACKUPS = "/var/lib/transit-desk/desk.db", "/var/backups/transit-desk"
DESK = "http://127.0.0.1:8080/"
CERTIFICATES = "/usr/share/doc/transit-desk/examples/certificates"
CALLERS = {"office": "office", "holder": "000001", "other": "000002", "agent": "000001 000003"}


def told(**members):
    """A reply of the desk, as it is told."""
    return json.dumps(members, separators=(",", ":"), sort_keys=True)


def holder(movements, guarantees=1):
    """What is told of the holder 000001."""
    return told(eori="CH1234567", guarantees=guarantees, holder="000001", movements=movements)


class Walk:
    """Who walks: what was typed, and how it went."""

    def __init__(self, machine, packages):
        self.machine, self.packages, self.passed, self.failed = machine, packages, 0, 0
        self.functions, self.fingerprints = [], {}

    def step(self, what, is_right, came):
        """Counts a step, and shows what came where it isn't right."""
        print(f"{'ok  ' if is_right else 'FAIL'} {what}", flush=True)
        if is_right:
            self.passed += 1
            return
        self.failed += 1
        for it in str(came).splitlines()[-12:]:
            print(f"     {it}", flush=True)

    def due(self, what, wanted, got):
        self.step(what, wanted == got, f"{got!r} came, and {wanted!r} is due")

    def types(self, line, said=None, status=0, what=None, **more):
        """Types a line, which has to end with this status, with this line as the last that it prints."""
        answer = b"Y\n" if line.startswith("apt ") else b""
        ended, came = self.machine.run("\n".join([*self.functions, line]), typed=answer, **more)
        last = came.rstrip("\n").split("\n")[-1]
        is_right = ended == status and said in (None, last)
        self.step(what or line, is_right, f"{came}(status {ended}; due is {status}{f', {said}' if said else ''})")
        return came

    def follows(self, page, heading, block=0, ends=None, words=None, **more):
        """Types the lines of a block of the page, in which these words are replaced, and whose replies have to be those that it shows;
        a line of ends has another status than 0. What each printed."""
        came = []
        for at, line in enumerate(lines_of(page, heading, block)):
            for word, place in (words or {}).items():
                line = line.replace(word, place)
            line, _, shown = (it.strip() for it in line.partition("  # "))
            if re.match(r"\w+\(\) \{", line):
                self.functions.append(line)
                continue
            came.append(self.types(line, shown if shown.startswith("{") else None, (ends or {}).get(at, 0), f"{page}: {line}", **more))
        return came

    def asks(self, who, target, said, what, *words, **more):
        """Asks the desk through nginx as `ask` of the page does."""
        return self.types(f"ask {who} {' '.join(words)} https://localhost{target}", said, what=what, folder="/root/trial", **more)

    def answered(self, what, movements, guarantees=1):
        """The holder is shown within some seconds."""
        self.asks("holder", "/holders/000001", holder(movements, guarantees), what, "-f --retry 20 --retry-delay 1")

    def last_line(self, command):
        return self.machine.run(command)[1].rstrip("\n").split("\n")[-1]
