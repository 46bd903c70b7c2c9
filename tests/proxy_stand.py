"""What tests/proxy stands on: certificates, an nginx with the configuration of package/root in a folder, and what stands behind
it, which is the program, or a server that keeps the bytes it gets."""
import contextlib
import json
import os
import re
import shutil
import signal
import socket
import ssl
import subprocess
import sys
import tempfile
import threading
import time

ROOT = os.path.dirname(os.path.dirname(os.path.realpath(__file__)))
sys.path.insert(0, f"{ROOT}/bench")
from sockets import free_port  # noqa: E402

SITE = f"{ROOT}/package/root/etc/nginx/sites-available/transit-desk"
MOMENT = 1740819600  # 2025-03-01T09:00:00Z
GRN = "25CH0000010000014"
REGISTERED = {"office": "office", "holder": "000001", "other": "000002", "agent": "000001 000002  000777"}
NAMES = [*REGISTERED, "unlisted"]


def due(what, wanted, got):
    if wanted != got:
        raise AssertionError(f"{what}: due is {wanted!r}, and {got!r} came")


def within(what, seconds, taken):
    if taken > seconds:
        raise AssertionError(f"{what} took {taken:.1f} s, and {seconds} are due")


def output(words, **more):
    run = subprocess.run(words, capture_output=True, text=True, timeout=300, check=False, **more)
    due(f"the status of {words[0]} ({run.stderr.strip()[-300:]})", 0, run.returncode)
    return run.stdout


def until(what, seconds, holds):
    """Waits for something that comes by itself."""
    end = time.monotonic() + seconds
    while not holds():
        if time.monotonic() > end:
            raise AssertionError(f"{what}: not within {seconds} s")
        time.sleep(0.02)


def answers(port):
    with contextlib.suppress(OSError), socket.create_connection(("127.0.0.1", port)):
        return True
    return False


# ---- certificates

class Certificates:
    """Those of examples/certificates, one of another authority, one that has ended, and one with a known name."""

    def __init__(self, folder):
        self.folder = folder
        told = output([f"{ROOT}/examples/certificates", folder, *NAMES]).split()
        self.fingerprints = dict(zip(told[1::2], told[0::2]))
        output([f"{ROOT}/examples/certificates", f"{folder}/elsewhere", "office", "holder"])
        output([f"{ROOT}/examples/certificates", f"{folder}/again", "passing"])
        for name in "clients-ca.pem", "clients-ca.key":
            shutil.copy(f"{folder}/{name}", f"{folder}/again")
        told = output([f"{ROOT}/examples/certificates", f"{folder}/again", "holder"]).split()
        due("another certificate with the same name has another fingerprint", True, told[0] != self.fingerprints["holder"])
        output(["openssl", "x509", "-req", "-days", "0", "-CA", f"{folder}/clients-ca.pem", "-CAkey", f"{folder}/clients-ca.key",
                "-in", self.request("ended"), "-out", f"{folder}/ended.pem"])
        told = output(["openssl", "x509", "-in", f"{folder}/ended.pem", "-noout", "-fingerprint", "-sha1"])
        self.fingerprints["ended"] = told.strip().rpartition("=")[2].replace(":", "")

    def request(self, name):
        output(["openssl", "req", "-new", "-newkey", "ec", "-pkeyopt", "ec_paramgen_curve:P-256", "-nodes", "-subj", f"/CN={name}",
                "-keyout", f"{self.folder}/{name}.key", "-out", f"{self.folder}/{name}.csr"])
        return f"{self.folder}/{name}.csr"

    def context(self, who, newest=ssl.TLSVersion.TLSv1_3):
        it = ssl.create_default_context(cafile=f"{self.folder}/clients-ca.pem")
        it.maximum_version = newest
        if who:
            it.load_cert_chain(f"{self.folder}/{who}.pem", f"{self.folder}/{who}.key")
        return it


# ---- nginx, and what stands behind it

class Proxy:
    """An nginx with the package's configuration in a folder of its own, before a port of this machine."""

    def __init__(self, certificates, folder, desk_port, lines, changes=()):
        self.certificates, self.folder, self.port = certificates, folder, free_port()
        os.makedirs(f"{folder}/transit-desk")
        for name in "server.pem", "server.key", "clients-ca.pem":
            shutil.copy(f"{certificates.folder}/{name}", f"{folder}/transit-desk")
        self.write_callers(lines)
        with open(SITE, encoding="ascii") as it:
            site = it.read()
        for old, new in [("listen 443 ssl;", f"listen 127.0.0.1:{self.port} ssl;"), ("127.0.0.1:8080;", f"127.0.0.1:{desk_port};"),
                         ("/var/log/nginx/transit-desk.log", f"{folder}/access.log"), ("/run/nginx-transit-desk", f"{folder}/cache"),
                         *changes]:
            due(f"places of {old!r} in the site", 1, site.count(old))
            site = site.replace(old, new)
        with open(f"{folder}/site", "w", encoding="ascii") as it:
            it.write(site)
        temps = "".join(f"{kind}_temp_path {folder}/{kind};" for kind in ["client_body", "proxy", "fastcgi", "uwsgi", "scgi"])
        with open(f"{folder}/nginx.conf", "w", encoding="ascii") as it:
            it.write(f"daemon off; worker_processes 2; pid {folder}/pid; error_log {folder}/error.log warn;"
                     f"events {{}} http {{ access_log off; {temps} include /etc/nginx/mime.types; include site; }}")
        self.words = ["nginx", "-e", f"{folder}/error.log", "-c", f"{folder}/nginx.conf"]
        self.run = None

    def write_callers(self, lines):
        with open(f"{self.folder}/transit-desk/callers.map", "w", encoding="ascii") as it:
            it.write("".join(f'{self.certificates.fingerprints.get(who, who)} "{what}"; # {who}\n' for who, what in lines.items()))

    def start(self):
        self.run = subprocess.Popen(self.words, stderr=subprocess.DEVNULL)
        until(f"nginx on {self.port}", 60, lambda: answers(self.port) or self.run.poll() is not None)
        due(f"nginx runs ({self.errors()[-600:]})", None, self.run.poll())

    def workers(self):
        with open(f"/proc/{self.run.pid}/task/{self.run.pid}/children", encoding="ascii") as it:
            return set(it.read().split())

    def reload(self, status, *asked):
        """Has nginx read its files again, and waits until those who had read them before are gone."""
        before = self.workers()
        self.run.send_signal(signal.SIGHUP)
        until("new workers", 60, lambda: self.workers() and not self.workers() & before)
        until(f"{status} for {asked} after a reload", 60, lambda: self.ask(*asked).status == status)

    def stop(self):
        if self.run:
            self.run.terminate()
            self.run.wait()

    def errors(self):
        with contextlib.suppress(OSError), open(f"{self.folder}/error.log", encoding="utf-8", errors="replace") as it:
            return it.read().strip()
        return ""

    def log(self, count):
        """Returns the last lines of the log, of which so many are due at least."""
        def lines():
            with contextlib.suppress(FileNotFoundError), open(f"{self.folder}/access.log", "rb") as it:
                return it.read().split(b"\n")[:-1]
            return []
        until(f"{count} lines in the log", 30, lambda: len(lines()) >= count)
        return [json.loads(it) for it in lines()][-count:]

    def connect(self, who, context=None, session=None):
        plain = socket.create_connection(("127.0.0.1", self.port), timeout=60)
        context = context or self.certificates.context(who)
        return context.wrap_socket(plain, server_hostname="localhost", session=session)

    def send(self, who, sent):
        """Sends bytes on a connection of its own, and returns status, head and body of what comes back."""
        with self.connect(who) as it:
            it.sendall(sent)
            return read(it)

    def ask(self, who, method, target, body=None, *fields):
        head = [f"{method} {target} HTTP/1.1", f"Host: localhost:{self.port}", "Connection: close", *fields]
        if body is not None:
            head.append(f"Content-Length: {len(body)}")
        return self.send(who, "".join(f"{it}\r\n" for it in [*head, ""]).encode("latin-1") + (body or "").encode())


class Told:
    """A reply."""

    def __init__(self, told):
        head, _, self.body = told.decode().partition("\r\n\r\n")
        lines = head.split("\r\n")
        self.status = int(lines[0].split()[1])
        self.fields = dict(it.split(": ", 1) for it in lines[1:])

    def both(self):
        return self.status, self.body


def read(it):
    told = []
    with contextlib.suppress(ConnectionResetError, ssl.SSLEOFError):
        while piece := it.recv(65536):
            told.append(piece)
    return Told(b"".join(told))


def refusal(status, name):
    return status, f'{{"error":"{name}"}}'


class Desk:
    """The program, serving in memory."""

    def __init__(self, program, port, connections=100_000, at=MOMENT):
        self.port = port
        words = [program, "serve", "--country", "CH", "--port", str(port), "--connections", str(connections), "--at", str(at)]
        self.run = subprocess.Popen(words, stdout=subprocess.PIPE, stderr=subprocess.PIPE, text=True)
        due("its first line", f"listening 127.0.0.1:{port}\n", self.run.stdout.readline())

    def stop(self):
        self.run.kill()
        self.run.wait()
        self.run.stdout.close()
        self.run.stderr.close()


class Recorder:
    """A server in the desk's place that keeps the bytes of each connection, and answers each alike."""

    BODY = '{"movements":[]}'

    def __init__(self, reply=None):
        self.listener = socket.create_server(("127.0.0.1", 0))
        self.port = self.listener.getsockname()[1]
        reply = f"HTTP/1.1 200 OK\r\nContent-Length: {len(self.BODY)}\r\n\r\n{self.BODY}" if reply is None else reply
        self.reply, self.got, self.begun = reply.encode(), [], 0
        threading.Thread(target=self.serve, daemon=True).start()

    def serve(self):
        with contextlib.suppress(OSError):
            while True:
                it, _ = self.listener.accept()
                self.begun += 1
                threading.Thread(target=self.answer, args=(it,), daemon=True).start()

    def answer(self, it):
        with it:
            it.settimeout(10)
            got = b""
            while not whole(got) and (piece := it.recv(65536)):
                got += piece
            self.got.append(got)
            it.sendall(self.reply)

    def stop(self):
        self.listener.close()


def whole(got):
    head, end, body = got.partition(b"\r\n\r\n")
    length = re.search(rb"(?i)content-length: (\d+)", head)
    return bool(end) and len(body) >= (int(length.group(1)) if length else 0)


def declaration(lrn):
    return f'{{"lrn":"{lrn}","departure":"CH001251","destination":"DE005600","lines":[{{"cents":500000,"code":"AB12","grn":"{GRN}"}}]}}'


class Stand:
    """What a case stands on: the program, the certificates, and nginx before a desk or a recorder."""

    def __init__(self, program, certificates):
        self.program, self.certificates = os.path.realpath(program), certificates

    @contextlib.contextmanager
    def proxy_before(self, port, lines=None, changes=()):
        with tempfile.TemporaryDirectory() as folder:
            os.chmod(folder, 0o755)
            it = Proxy(self.certificates, folder, port, REGISTERED if lines is None else lines, changes)
            try:
                it.start()
                yield it
            finally:
                it.stop()

    @contextlib.contextmanager
    def served(self, lines=None, changes=()):
        """A desk with holders 000001 and 000002 and a guarantee of the first, behind nginx."""
        desk = Desk(self.program, free_port())
        try:
            with self.proxy_before(desk.port, lines, changes) as proxy:
                proxy.desk = desk
                for number in "000001", "000002":
                    due("a registration", 200, proxy.ask("office", "PUT", f"/office/holders/{number}", '{"eori":"CH1234567"}').status)
                told = proxy.ask("office", "POST", "/office/holders/000001/guarantees", '{"reference":1000000,"cover":50,"code":"AB12"}')
                due("a guarantee", (200, f'{{"grn":"{GRN}"}}'), told.both())
                yield proxy
        finally:
            desk.stop()

    @contextlib.contextmanager
    def recorded(self, reply=None, lines=None, changes=()):
        desk = Recorder(reply)
        try:
            with self.proxy_before(desk.port, lines, changes) as proxy:
                proxy.desk = desk
                yield proxy
        finally:
            desk.stop()
