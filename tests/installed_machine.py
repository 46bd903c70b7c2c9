"""What tests/installed stands on: a Debian in a container of its own, without a network, and the lines of the pages."""
import contextlib
import glob
import os
import re
import shutil
import signal
import subprocess
import tempfile
import time

ROOT = os.path.dirname(os.path.dirname(os.path.realpath(__file__)))
# No more than systemd stands on. What a person installs by the pages lies in apt's cache, since there is no network.
BASE = "systemd,systemd-sysv,dbus,procps"
CACHED = "nginx nftables openssl curl python3 sqlite3"
CLEAN = ["env", "-C", "/", "-i", "HOME=/root", "LANG=C.UTF-8", "DEBIAN_FRONTEND=noninteractive",
         "PATH=/usr/local/sbin:/usr/local/bin:/usr/sbin:/usr/bin:/sbin:/bin"]
# The person's hands: what is typed into a file lies ready below /root/typed, by the file's name.
EDITOR = '#!/bin/sh\ncat "/root/typed/$(basename "$1")" >>"$1"\n'
# Seconds that a line may take. The machine may have much else to do.
PATIENCE = 600


class CannotWalk(Exception):
    """Why nobody can walk here: there is no machine, or no such line on a page."""


def lines_of(page, heading, block=0):
    """The lines of a block below this heading of a page of docs/, before the next heading."""
    with open(f"{ROOT}/docs/{page}.md", encoding="utf-8") as it:
        found = re.search(rf"^##+ {re.escape(heading)}\n(.*?)(?=^#|\Z)", it.read(), re.M | re.S)
    blocks = re.findall(r"(?:^    .*\n)+", found[1], re.M) if found else []
    if block >= len(blocks):
        raise CannotWalk(f"docs/{page}.md has no block {block + 1} of lines below the heading '{heading}'")
    return [it[4:] for it in blocks[block].splitlines()]


def make(folder):
    """Makes a bare Debian 12 there, by debootstrap."""
    part = f"{folder}.part"
    shutil.rmtree(part, ignore_errors=True)
    words = ["debootstrap", "--variant=minbase", f"--include={BASE}", "bookworm", part]
    fill = f"apt-get -q update && apt-get -q -y install --download-only {CACHED}"
    if subprocess.run(words, stdout=2, check=False).returncode:
        raise CannotWalk(f"debootstrap made no Debian in {part}")
    with open(f"{part}/etc/hosts", "w", encoding="ascii") as it:
        it.write("127.0.0.1\tlocalhost\n")
    if subprocess.run(["chroot", part, *CLEAN, "sh", "-euc", fill], stdout=2, check=False).returncode:
        raise CannotWalk(f"apt-get in {part} didn't fetch {CACHED}")
    os.rename(part, folder)


class Machine:
    """A copy of the Debian in a folder, which is booted, and gone in the end."""

    def __init__(self, folder):
        folder = os.path.abspath(folder)
        if not os.path.exists(folder):
            make(folder)
        if not glob.glob(f"{folder}/var/cache/apt/archives/nginx_*.deb") or os.path.exists(f"{folder}/usr/bin/transit-desk"):
            raise CannotWalk(f"{folder} isn't a bare Debian as this test makes it: name another, which is made if it isn't there")
        self.work = tempfile.mkdtemp(prefix=f"{os.path.basename(folder)}.", dir=os.path.dirname(folder))
        self.root, self.container, self.first = f"{self.work}/machine", None, None
        try:
            subprocess.run(["cp", "-a", "--reflink=auto", folder, self.root], check=True)
        except BaseException:
            shutil.rmtree(self.work)
            raise

    def boot(self):
        words = ["systemd-nspawn", "--quiet", "--register=no", "--keep-unit", "--private-network", "-D", self.root, "--boot"]
        with open(f"{self.work}/boot", "wb") as said:
            self.container = subprocess.Popen(words, stdin=subprocess.DEVNULL, stdout=said, stderr=said,
                                              env={**os.environ, "SYSTEMD_NSPAWN_UNIFIED_HIERARCHY": "1"})
        end = time.monotonic() + PATIENCE
        while time.monotonic() < end and self.container.poll() is None:
            time.sleep(0.3)
            with open(f"/proc/{self.container.pid}/task/{self.container.pid}/children", encoding="ascii") as it:
                self.first = next(iter(it.read().split()), None)
            if self.first and self.run("systemctl is-system-running")[1].strip() in ("running", "degraded"):
                return
        with open(f"{self.work}/boot", encoding="utf-8", errors="replace") as it:
            raise CannotWalk(f"the machine didn't boot: {it.read()[-2000:]}")

    def reboot(self):
        """Its container ends with it, and is begun again."""
        self.run("systemctl reboot")
        try:
            self.container.wait(PATIENCE)
        except subprocess.TimeoutExpired as it:
            raise CannotWalk("the machine didn't stop") from it
        self.boot()

    def stop(self):
        if self.container and self.container.poll() is None:
            with contextlib.suppress(OSError, TypeError, subprocess.TimeoutExpired):
                os.kill(int(self.first), signal.SIGRTMIN + 4)
                self.container.wait(60)
            self.container.kill()
            self.container.wait()
        for _ in range(10):  # what ran there may write for a moment more
            shutil.rmtree(self.work, ignore_errors=True)
            if not os.path.exists(self.work):
                return
            time.sleep(1)

    def run(self, script, user=None, folder=None, typed=b""):
        """Runs a line by bash in the machine, as root or another user: its status, and what it printed."""
        words = ["nsenter", "--target", self.first, "--mount", "--uts", "--ipc", "--net", "--pid", "--cgroup", "--root", "--wd=/", *CLEAN]
        words += ["runuser", "-u", user, "--"] if user else []
        try:
            done = subprocess.run([*words, "bash", "-uc", f"cd {folder or ('/' if user else '/root')} || exit\n{script}"], input=typed,
                                  stdout=subprocess.PIPE, stderr=subprocess.STDOUT, timeout=PATIENCE, check=False)
        except subprocess.TimeoutExpired as it:
            return None, f"{(it.output or b'').decode(errors='replace')}(ended after {PATIENCE} s)\n"
        return done.returncode, done.stdout.decode(errors="replace")

    def put(self, path, content, mode="644"):
        """A file that a person has brought to the machine."""
        status, said = self.run(f"mkdir -p $(dirname {path}) && cat >{path} && chmod {mode} {path}", typed=content)
        if status:
            raise CannotWalk(f"{path}: {said}")
