"""Nodes that a script runs, and asks as an operator, a utility or a site would."""
import json
import os
import re
import resource
import shutil
import socket
import subprocess
import tempfile
import threading
import time

from findings import expect
from peers import UNTOLD

# How long is waited at most for what is to come, in seconds.
PATIENCE = 300
# The seconds between two rounds of a node that is to make one.
SELDOM = 3600
# The tables that a file of version 1 has not.
LATER = ("frozen", "frozen_share")
TOKENS = [
    {"token": f"{UNTOLD}-operator", "role": "operator"},
    {"token": f"{UNTOLD}-utility", "role": "utility"},
    {"token": f"{UNTOLD}-v1", "role": "ven", "venID": "v1"},
]


def free_port():
    with socket.socket() as it:
        it.bind(("127.0.0.1", 0))
        return it.getsockname()[1]


def request(role, method, target, value=None, more=""):
    """Returns the bytes of a request of a role, or of nobody."""
    token = f"Authorization: Bearer {UNTOLD}-{role}\r\n" if role else ""
    body = b"" if value is None else json.dumps(value).encode()
    head = f"{method} {target} HTTP/1.1\r\nHost: x\r\n{token}{more}Content-Length: {len(body)}\r\n\r\n"
    return head.encode("latin-1") + body


def parted(answer):
    """Returns the status of a reply and what its body is, where the reply is whole; else nothing twice."""
    head, is_headed, body = answer.partition(b"\r\n\r\n")
    length = re.search(rb"(?i)\ncontent-length: *(\d+)", head)
    if not is_headed or not length or len(body) != int(length[1]):
        return None, None
    return int(head.split(b" ")[1]), json.loads(body)


def init(path):
    """Has the program make a file; returns its status, and what it wrote."""
    made = subprocess.run([Node.program, "init", path], stdin=subprocess.DEVNULL, capture_output=True, check=False)
    return made.returncode, (made.stdout + made.stderr).decode("latin-1")


class Node:
    """A node below a utility at that port, or at that address, with the configuration that follows, with other members in it;
    `None` takes one away, and `text` all. What it writes goes into a file, but what it tells into a small pipe where it is not
    `heard`; and `before` is called in its process before it begins."""

    program = None

    def __init__(self, upstream, text=None, heard=True, before=None, **more):
        config = {
            "listen": "127.0.0.1:0",
            "upstream": upstream if isinstance(upstream, str) else f"http://127.0.0.1:{upstream}/openadr3",
            "upstreamToken": f"{UNTOLD}-upstream",
            "clientName": UNTOLD,
            "poll": SELDOM,
            "workers": 1,
            "tokens": TOKENS,
            "log": "debug",
            **more,
        }
        config = {name: value for name, value in config.items() if value is not None}
        self.port = int(config["listen"].rpartition(":")[2])
        self.folder = tempfile.mkdtemp(prefix="adr_node_run.")
        self.said = os.path.join(self.folder, "said")
        with open(os.path.join(self.folder, "node.json"), "w", encoding="utf-8") as it:
            it.write(text or json.dumps(config))
        with open(self.said, "wb") as it:
            how = {"cwd": self.folder, "stdin": subprocess.DEVNULL, "stdout": it, "preexec_fn": before}
            how |= {"stderr": it} if heard else {"stderr": subprocess.PIPE, "pipesize": 4096}
            self.process = subprocess.Popen([self.program, "serve", "node.json"], **how)

    def __enter__(self):
        return self

    def __exit__(self, *_):
        self.stop()
        shutil.rmtree(self.folder, ignore_errors=True)

    def hear(self):
        """From now on what it tells is read."""

        def read():
            with open(self.said, "ab", buffering=0) as it:
                while told := os.read(self.process.stderr.fileno(), 65536):
                    it.write(told)

        threading.Thread(target=read, daemon=True).start()

    def bound(self, is_bound):
        """From now on the system gives it no more memory than it has, or again all that it asks for."""
        with open(f"/proc/{self.process.pid}/statm", encoding="ascii") as it:
            has = int(it.read().split()[0]) * resource.getpagesize()
        _, most = resource.prlimit(self.process.pid, resource.RLIMIT_AS)
        resource.prlimit(self.process.pid, resource.RLIMIT_AS, (has if is_bound else most, most))

    def lines(self):
        """Returns the lines that it wrote so far, with a character for each byte."""
        with open(self.said, encoding="latin-1", newline="\n") as it:
            return it.read().split("\n")[:-1]

    def sees(self, part, times=1, seconds=PATIENCE):
        """Waits until so many lines have that part."""
        until = time.monotonic() + seconds
        is_over = False
        while sum(part in it for it in self.lines()) < times:
            if is_over:
                raise TimeoutError(f"no {part!r} within {seconds} s, or to its end: {self.lines()[-2:]}")
            time.sleep(0.02)
            is_over = time.monotonic() > until or self.process.poll() is not None

    def is_there(self):
        """Waits until it takes connections at an address that it was given, whatever it tells."""
        until = time.monotonic() + PATIENCE
        while True:
            try:
                return self.link(b"").close()
            except ConnectionRefusedError:
                if time.monotonic() > until:
                    raise
                time.sleep(0.02)

    def listens(self):
        """Waits until it has told where it listens, and whom its tokens are for."""
        self.sees("] token role=ven ")
        self.port = int(re.search(r"\] listening at=127\.0\.0\.1:(\d+) ", "\n".join(self.lines()))[1])

    def starts(self):
        """Waits until its first round is over too."""
        self.listens()
        self.sees(" since=")

    def rests(self):
        """Waits until it has written nothing for a while: what it tells is written a little later than what it does."""
        size = -1
        while (told := os.stat(self.said).st_size) != size:
            size = told
            time.sleep(0.3)

    def stop(self):
        """Ends it, if it has not ended; returns what it wrote."""
        if self.process.poll() is None:
            self.rests()
            self.process.terminate()
        self.process.wait(PATIENCE)
        return self.lines()

    def kill(self):
        """Has the system end it at once, wherever it is."""
        self.process.kill()
        self.process.wait(PATIENCE)

    def ends(self):
        """Waits for its end; returns what it wrote, and behind it its status."""
        self.process.wait(PATIENCE)
        return [*self.lines(), f"status {self.process.returncode}"]

    def link(self, said):
        """Opens a connection, and says something."""
        link = socket.create_connection(("127.0.0.1", self.port), PATIENCE)
        link.sendall(said)
        return link

    def tells(self, said):
        """Says something, and returns what comes to the end."""
        with self.link(said) as link:
            return b"".join(iter(lambda: link.recv(65536), b""))

    def ask(self, role, method, target, value=None, more=""):
        """Asks as a role would, or as nobody, and returns the whole reply."""
        return self.tells(request(role, method, target, value, more))

    def does(self, role, method, target, value=None):
        """Gives a command as a role would, which has to be taken, and returns what is answered."""
        status, shown = parted(self.ask(role, method, target, value))
        expect(status in (200, 201), f"{method} {target} is answered {status} {shown}")
        return shown

    def reads(self, role, target):
        """Returns what a role is shown, which has to be there."""
        status, value = parted(self.ask(role, "GET", target))
        if status is None:
            raise ConnectionResetError("no whole reply")
        if status != 200:
            raise ValueError(f"GET {target} is answered {status}: {value}")
        return value

    def lists(self, role, target):
        """Returns all that a role is shown in a listing, page by page."""
        found, more = [], True
        while more:
            more = self.reads(role, f"{target}?skip={len(found)}")
            found += more
        return found
