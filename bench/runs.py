"""Runs of a program over a file, for what measures them: what one takes by the clock, of the processor, of memory and from the disk, with
the file in the system's cache or not; and a desk that serves the file, which is asked one request after another."""
import collections
import contextlib
import importlib.machinery
import importlib.util
import os
import re
import socket
import subprocess
import sys
import tempfile
import time

sys.path.insert(0, os.path.dirname(os.path.realpath(__file__)))
sys.dont_write_bytecode = True
from filling import AT  # noqa: E402
from sockets import free_port  # noqa: E402

# Seconds by the clock and of the processor, the most bytes of memory, and bytes that came from the disk.
Taken = collections.namedtuple("Taken", "clock processor memory disk")
# How long anything is waited for: an opening of twenty million movements takes a quarter of an hour and more.
SECONDS, STREAM = 7200, 900


class Refused(Exception):
    """A program did something else than it has to."""


def script(name):
    """A script of this folder, as a module."""
    path = os.path.join(os.path.dirname(os.path.realpath(__file__)), name)
    loader = importlib.machinery.SourceFileLoader(name, path)
    module = importlib.util.module_from_spec(importlib.util.spec_from_loader(name, loader))
    loader.exec_module(module)
    return module


def parts_of(path):
    return [it for it in (path, path + "-wal") if os.path.exists(it)]


def forget(path):
    """Has the system drop its cached pages of a file and its log, by posix_fadvise: other files keep theirs."""
    for it in parts_of(path):
        with open(it, "rb") as those:
            os.fsync(those.fileno())
            os.posix_fadvise(those.fileno(), 0, 0, os.POSIX_FADV_DONTNEED)


def recall(path):
    """Has the system read a file and its log into its cache, as far as they fit."""
    for it in parts_of(path):
        with open(it, "rb", buffering=0) as those:
            while those.read(1 << 20):
                pass


def remove(path):
    for it in (path, path + "-wal", path + "-shm", path + "-journal"):
        with contextlib.suppress(FileNotFoundError):
            os.remove(it)


def most_memory(pid):
    """The most bytes of memory that a process had so far (VmHWM), or 0 once it has ended."""
    with contextlib.suppress(OSError), open(f"/proc/{pid}/status", encoding="ascii", errors="replace") as told:
        found = re.search(r"^VmHWM:\s*(\d+) kB", told.read(), re.M)
        return int(found[1]) * 1024 if found else 0
    return 0


def from_disk(pid):
    with open(f"/proc/{pid}/io", encoding="ascii") as told:
        return int(re.search(r"^read_bytes: (\d+)", told.read(), re.M)[1])


def job(words, status=0):
    """Runs a job to its end: what it took, and the end of what it told. Its memory is looked at each hundredth of a second, and isn't known
    of a job that ends within some of them."""
    with tempfile.TemporaryFile() as told:
        began, memory = time.perf_counter(), 0
        child = subprocess.Popen(words, stdin=subprocess.DEVNULL, stdout=told, stderr=subprocess.STDOUT)
        while not os.waitid(os.P_PID, child.pid, os.WEXITED | os.WNOWAIT | os.WNOHANG):
            memory = max(memory, most_memory(child.pid))
            time.sleep(0.01)
        clock, disk = time.perf_counter() - began, from_disk(child.pid)
        _, ended, used = os.wait4(child.pid, 0)
        child.returncode = os.waitstatus_to_exitcode(ended)
        told.seek(max(0, told.seek(0, os.SEEK_END) - 200))
        last = told.read()
    if child.returncode != status:
        raise Refused(f"{' '.join(words[1:3])} ended with the status {child.returncode}: {last!r}")
    return Taken(clock, used.ru_utime + used.ru_stime, memory if clock > 0.1 else 0, disk), last


class Peer:
    """A connection, over which each request waits for its whole reply."""

    def __init__(self, port):
        self.socket, self.left = socket.create_connection(("127.0.0.1", port), timeout=SECONDS), b""

    def ask(self, request):
        """The seconds until the whole reply was there, and the head and the length of its body."""
        began = time.perf_counter()
        self.socket.sendall(request)
        got = self.left
        while b"\r\n\r\n" not in got:
            got += self.more()
        head, _, got = got.partition(b"\r\n\r\n")
        length = int(re.search(rb"Content-Length: (\d+)", head)[1])
        missing = length - len(got)
        while missing > 0:
            missing -= len(self.more())
        self.left = got[length:]
        return time.perf_counter() - began, head, length

    def more(self):
        piece = self.socket.recv(1 << 20)
        if not piece:
            raise Refused("the desk ended a connection before its reply")
        return piece


class Served:
    """A desk that serves a file, and what its opening took."""

    def __init__(self, program, path):
        self.path, self.port, self.spent = path, free_port(), script("growth").spent
        words = [program, "serve", "--country", "CH", "--at", str(AT), "--port", str(self.port), "--connections", "1000000", "--db", path]
        began = time.perf_counter()
        self.run = subprocess.Popen(words, stdout=subprocess.PIPE, stderr=subprocess.STDOUT)
        told = self.run.stdout.readline()
        clock = time.perf_counter() - began
        if told != f"listening 127.0.0.1:{self.port}\n".encode():
            self.stop()
            raise Refused(f"serve told {told!r}")
        self.opening = Taken(clock, self.spent(self.run.pid) / 1e9, self.memory(), from_disk(self.run.pid))

    def __enter__(self):
        return self

    def __exit__(self, *_):
        self.stop()

    def stop(self):
        self.run.kill()
        self.run.wait()
        self.run.stdout.close()

    def memory(self):
        return most_memory(self.run.pid)

    def ask(self, requests):
        """Asks one request after another, which may not be refused: of each the seconds, and whether the log was written into the file
        meanwhile; and the processor's seconds of all."""
        before, took, peer = self.spent(self.run.pid), [], None
        for number, (method, target, body) in enumerate(requests):
            peer = peer if number % STREAM else Peer(self.port)
            stamp = os.stat(self.path).st_mtime_ns
            seconds, head, _ = peer.ask(f"{method} {target} HTTP/1.1\r\nContent-Length: {len(body)}\r\n\r\n{body}".encode())
            if not head.startswith(b"HTTP/1.1 200 "):
                raise Refused(f"{method} {target} is told {head[:40]!r}")
            took.append((seconds, os.stat(self.path).st_mtime_ns != stamp))
        return took, (self.spent(self.run.pid) - before) / 1e9
