"""Sockets of this machine, for the programs that measure and test what `serve` tells."""
import collections
import contextlib
import random
import socket
import threading

SECONDS = 60
DICE = random.SystemRandom()
# The names by which this process holds the last ports that it was given.
HELD = collections.deque(maxlen=64)


def free_port():
    """A port that nobody has, below those that the kernel gives to connections: else one of these may take it before a program does. It
    isn't listened on here: a child that another thread begins at that moment would have it too, and the program couldn't. A name
    that the kernel has once is held in its place: no other process is given the port before a slow program listens on it."""
    while True:
        port, name = DICE.randrange(15_000, 32_000), socket.socket(socket.AF_UNIX)
        with contextlib.suppress(OSError), socket.socket() as tried:
            name.bind(f"\0transit-desk port {port}")
            tried.setsockopt(socket.SOL_SOCKET, socket.SO_REUSEADDR, 1)
            tried.bind(("127.0.0.1", port))
            HELD.append(name)
            return port
        name.close()


def told_over(port, sent):
    """All that a peer is told which sends this and then no more."""
    with socket.create_connection(("127.0.0.1", port), timeout=SECONDS) as peer:

        def send():
            with contextlib.suppress(OSError):
                peer.sendall(sent)
                peer.shutdown(socket.SHUT_WR)

        sender = threading.Thread(target=send)
        sender.start()
        told = b""
        while more := peer.recv(65536):
            told += more
        sender.join()
    return told
