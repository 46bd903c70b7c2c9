"""What tests/desks stands on: desks that serve files, nginx with the package's site before one desk or several, the table by which these are
split, clients, and runs of office/transit-desk-desks."""
import hashlib
import os
import re
import signal
import socket
import subprocess
import sys

sys.path.insert(0, os.path.dirname(os.path.realpath(__file__)))
from proxy_stand import SITE, answers, due, free_port, output, until  # noqa: E402
from second_reading import route_of  # noqa: E402

ROOT = os.path.dirname(os.path.dirname(os.path.realpath(__file__)))
TOOL = f"{ROOT}/office/transit-desk-desks"
NAMES = ("north", "south", "west")
SECONDS, LAST = 600, 999_999


class Differs(Exception):
    """What came isn't what is due."""


def ports_of(number, count):
    """Ports that no other life of this run has, nor one of another run, below those that the kernel gives to connections."""
    slot = os.getppid() * 521 + number
    while True:
        found = [15_000 + slot * 8 % 16_000 + it for it in range(count)]
        if not any(answers(it) for it in found):
            return found
        slot += 701


class Table:
    """Ranges of holders' numbers, each with the place of its desk, the place of the desk of the others, and each desk's file and port."""

    def __init__(self, folder, ranges, others, ports=None):
        self.ranges, self.others, self.names, self.path = ranges, others, NAMES, f"{folder}/table"
        self.ports, self.files = ports or [free_port() for _ in NAMES], [f"{folder}/{name}.db" for name in NAMES]
        with open(self.path, "w", encoding="ascii") as file:
            file.write("# a table of the test\n")
            for first, last, desk in ranges:
                file.write(f"{first:06} {last:06}\t{NAMES[desk]} {self.ports[desk]} {self.files[desk]} # a range\n\n")
            file.write(f"others {NAMES[others]}\n" if others is not None else "")

    def desk_of(self, number):
        found = [desk for first, last, desk in self.ranges if first <= number <= last]
        return found[0] if found else self.ranges[0][2] if self.others is None else self.others

    def desks(self):
        """The places of the desks that the table names."""
        return sorted({desk for _, _, desk in self.ranges})

    def intervals(self):
        """All numbers in order, as ranges with the place of the desk of each: those of the table, and what lies between."""
        found, rest = [], self.ranges[0][2] if self.others is None else self.others
        for first, last, desk in [*sorted(self.ranges), (LAST + 1, LAST + 1, rest)]:
            after = found[-1][1] + 1 if found else 1
            found += [(after, first - 1, rest)] if after < first else []
            found += [(first, last, desk)] if first <= LAST else []
        return found

    def map(self):
        return output([TOOL, "map", "--table", self.path])

    def desk_of_target(self, target):
        """The place of the desk of the holder whom a target names, or nothing."""
        _, parts = route_of(target)
        if not parts:
            return None
        kind, text = parts[0]
        text = text if kind == "H" else text[4:10]
        return self.desk_of(int(text)) if re.fullmatch("[0-9]{6}", text, re.ASCII) else self.desk_of(0)


class Serving:
    """A run of `serve` over a file."""

    def __init__(self, program, port, file, at, is_new=False):
        self.words = [program, "serve", "--country", "CH", "--port", str(port), "--connections", "1000000", "--at", str(at), "--db", file]
        self.port, self.run = port, None
        self.begin(["--new"] if is_new else [])

    def begin(self, more=()):
        self.run = subprocess.Popen([*self.words, *more], stdout=subprocess.PIPE, stderr=subprocess.PIPE, text=True)

    def is_open(self):
        line = self.run.stdout.readline()
        if line != f"listening 127.0.0.1:{self.port}\n":
            raise Differs(f"serve at port {self.port} doesn't listen: {line!r}, {self.run.stderr.read()!r}")
        return self

    def end(self, number=signal.SIGTERM):
        self.run.send_signal(number)
        self.run.wait(SECONDS)
        self.run.stdout.close()
        self.run.stderr.close()


class Front:
    """An nginx with the package's site, but without TLS and what is asked of certificates, before one port or by a map."""

    def __init__(self, folder, port, desk_port, desks_map=None):
        self.folder, self.port, self.run = folder, port, None
        os.makedirs(f"{folder}/transit-desk")
        os.chmod(folder, 0o755)
        with open(SITE, encoding="ascii") as it:
            site = re.sub(r" +ssl_.*;\n", "", it.read())
        for old, new in [("listen 443 ssl;", f"listen 127.0.0.1:{self.port};"), ("127.0.0.1:8080;", f"127.0.0.1:{desk_port};"),
                         ("/var/log/nginx/transit-desk.log", f"{folder}/access.log"), ("/run/nginx-transit-desk", f"{folder}/cache")]:
            due(f"places of {old!r} in the site", 1, site.count(old))
            site = site.replace(old, new)
        site, count = re.subn(r"        if \(\$transit_desk_(?:origin|caller|allowed|feed) += .*\n", "", site)
        due("questions to a caller in the site", 6, count)
        files = {"site": site, "transit-desk/callers.map": "", "nginx.conf": self.configuration()}
        if desks_map is not None:
            files["transit-desk/desks.map"] = desks_map
        for name, text in files.items():
            with open(f"{folder}/{name}", "w", encoding="ascii") as it:
                it.write(text)

    def configuration(self):
        temps = "".join(f"{kind}_temp_path {self.folder}/{kind};" for kind in ["client_body", "proxy", "fastcgi", "uwsgi", "scgi"])
        return (f"daemon off; worker_processes 1; pid {self.folder}/pid; error_log {self.folder}/error.log warn; events {{}} "
                f"http {{ access_log off; keepalive_timeout 600; {temps} include /etc/nginx/mime.types; include site; }}")

    def turn(self, desks_map):
        """Goes on by another map."""
        self.stop()
        with open(f"{self.folder}/transit-desk/desks.map", "w", encoding="ascii") as it:
            it.write(desks_map)
        self.start()

    def start(self):
        words = ["nginx", "-e", f"{self.folder}/error.log", "-c", f"{self.folder}/nginx.conf"]
        self.run = subprocess.Popen(words, stderr=subprocess.DEVNULL)
        until(f"nginx on {self.port}", 60, lambda: answers(self.port) or self.run.poll() is not None)
        if self.run.poll() is not None:
            with open(f"{self.folder}/error.log", encoding="utf-8") as it:
                raise Differs(f"nginx doesn't run: {it.read()[-600:]}")
        return self

    def stop(self):
        if self.run:
            self.run.terminate()
            self.run.wait()


class Client:
    """Asks an nginx over a connection that is kept."""

    def __init__(self, port):
        self.port, self.peer, self.rest = port, None, b""

    def ask(self, method, target, body=""):
        """The bytes of the reply but for the line of its date, its status and its body."""
        if not self.peer:
            self.peer, self.rest = socket.create_connection(("127.0.0.1", self.port), timeout=SECONDS), b""
        data = body.encode()
        head = f"{method} {target} HTTP/1.1\r\nHost: desk\r\nCache-Control: no-cache\r\nContent-Length: {len(data)}\r\n\r\n"
        self.peer.sendall(head.encode() + data)
        while b"\r\n\r\n" not in self.rest:
            self.more()
        head, _, self.rest = self.rest.partition(b"\r\n\r\n")
        length = int(re.search(rb"(?i)content-length: (\d+)|\Z", head)[1] or 0)
        while len(self.rest) < length:
            self.more()
        told, self.rest = self.rest[:length], self.rest[length:]
        if b"Connection: close" in head:
            self.close()
        return re.sub(rb"Date: .*\r\n", b"", head + b"\r\n\r\n") + told, int(head.split()[1]), told

    def more(self):
        piece = self.peer.recv(65536)
        if not piece:
            raise Differs(f"nginx closed the connection after {self.rest[-200:]!r}")
        self.rest += piece

    def close(self):
        if self.peer:
            self.peer.close()
        self.peer = None


def tool(program, *words):
    """A run of the tool: what it printed, its line, and its status."""
    more = ["--program", program] if words[0] in ("report", "batch", "acts") else []
    run = subprocess.run([TOOL, *words, *more], capture_output=True, timeout=SECONDS, check=False)
    return run.stdout, run.stderr, run.returncode


def as_the_tool_says(told):
    """What the program printed, its line as the tool says it, and its status."""
    printed, line, status = told
    return printed, line.replace(b"transit-desk: ", b"transit-desk-desks: "), status


def same(what, wanted, came, names="one desk tells {} and the three {}"):
    """Long bytes are shown from right before the first that differs."""
    if wanted == came:
        return
    if isinstance(wanted, tuple) and wanted[1:] == came[1:]:
        wanted, came = wanted[0], came[0]
    if isinstance(wanted, bytes) and isinstance(came, bytes):
        start = max(0, len(os.path.commonprefix([wanted, came])) - 40)
        wanted, came = wanted[start:start + 160], came[start:start + 160]
    raise Differs(f"{what}: {names.format(repr(wanted), repr(came))}")


def comes(what, wanted, came):
    same(what, wanted, came, "due is {}, and {} came")


def bytes_of(files):
    """Sums of files and of their logs."""
    sums = []
    for path in [f"{file}{end}" for file in files for end in ("", "-wal")]:
        if os.path.exists(path):
            with open(path, "rb") as it:
                sums.append((path, hashlib.sha256(it.read()).hexdigest()))
    return sums
