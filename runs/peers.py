"""Stand-ins on loopback for a utility and for sites, which can be told to misbehave."""
import json
import re
import socket
import socketserver
import struct
import threading

# This stands in all that a node is told and must not tell: in tokens, and in bodies but for ids.
UNTOLD = "untold"

# How a peer ends a connection behind what it has said: with an end, with a reset, or not before the node does.
CLOSES, RESETS, WAITS = "closes", "resets", "waits"


def reply(status, value, length=None):
    """Returns what a peer says that replies with a JSON value, or with bytes as they are, and how it ends."""
    body = value if isinstance(value, bytes) else json.dumps(value).encode()
    return b"HTTP/1.1 %d x\r\nContent-Length: %d\r\n\r\n%s" % (status, length or len(body), body), CLOSES


def end(link, how):
    """Ends a connection."""
    if how == WAITS:
        link.settimeout(30)
        link.recv(1)
    if how == RESETS:
        link.setsockopt(socket.SOL_SOCKET, socket.SO_LINGER, struct.pack("ii", 1, 0))
    link.close()


class Handler(socketserver.BaseRequestHandler):
    """Reads a request whole, and does what the peer says of it."""

    def handle(self):
        came = b""
        while b"\r\n\r\n" not in came:
            more = self.request.recv(65536)
            if not more:
                return
            came += more
        head, _, body = came.partition(b"\r\n\r\n")
        length = re.search(rb"(?i)content-length: *(\d+)", head)
        while length and len(body) < int(length[1]):
            body += self.request.recv(65536)
        method, target = head.decode("latin-1").split(" ")[:2]
        self.server.hears(method, target, body)
        said, how = self.server.answer(method, target.removeprefix("/openadr3"))
        try:
            self.request.sendall(said)
            end(self.request, how)
        except OSError:
            pass  # the node has ended before


class Peer(socketserver.ThreadingTCPServer):
    """A stand-in on a free port. `answer(method, target)` gives what it says, and how it ends."""

    daemon_threads = True
    request_queue_size = 128

    def __init__(self, answer):
        self.answer = answer
        super().__init__(("127.0.0.1", 0), Handler)
        self.port = self.server_address[1]
        threading.Thread(target=self.serve_forever, kwargs={"poll_interval": 0.05}, daemon=True).start()

    def __exit__(self, *_):
        self.shutdown()
        self.server_close()

    def hears(self, method, target, body):
        """Is given each request, before it is answered."""

    def handle_error(self, *_):
        """Nothing: where a node ends, connections do too."""

    def shutdown_request(self, request):
        """Closes it, without an end before, since it may be that it was reset."""
        request.close()


def always(answer):
    """A peer that gives that answer to all."""
    return lambda method, target: answer


def failing(times, answer):
    """A peer that fails so many of what is posted, and then answers."""
    left = [reply(500, {})] * times
    return lambda method, target: left.pop() if left and method == "POST" else answer(method, target)


def pages(programs, events, probe=reply(404, {}), behind=reply(200, [])):
    """A utility with these objects, one on each page; what is behind the last, and the answer for one object by its id, may be
    others. It takes reports."""

    def answer(method, target):
        if method == "POST":
            return reply(201, {"id": "u1"})
        kind, is_page, skip = target.partition("?skip=")
        if not is_page:
            return probe
        found = {"/programs": programs, "/events": events}[kind]
        at = int(skip.split("&")[0])
        return reply(200, [found[at]]) if at < len(found) else behind

    return answer


class Days:
    """A utility that is another one in each round: a round begins with the first page of programs. The first stays until the
    next may come, and the last stays."""

    def __init__(self, *days):
        self.days = list(days)
        self.may_come = threading.Event()
        self.is_begun = False

    def __call__(self, method, target):
        if target.startswith("/programs?skip=0"):
            if self.is_begun and self.may_come.is_set() and len(self.days) > 1:
                self.days.pop(0)
            self.is_begun = True
        return self.days[0](method, target)


def moment(minute):
    return f"2024-07-01T10:{minute:02}:00Z"


def program(ident, minute=0, **more):
    """Returns a program as a utility has it."""
    return {"id": ident, "modificationDateTime": moment(minute), "programName": f"{UNTOLD} {ident}", **more}


def event(ident, *setpoints, minute=0, **more):
    """Returns an event as a utility has it, with an interval for each setpoint."""
    payloads = lambda value: [{"type": "DISPATCH_SETPOINT", "values": [value]}]
    intervals = [{"id": at, "payloads": payloads(it)} for at, it in enumerate(setpoints)]
    names = {"programID": "p1", "eventName": UNTOLD}
    return {"id": ident, "modificationDateTime": moment(minute), **names, "intervals": intervals, **more}


def report(ident, name, usage):
    """Returns a report on an event as a site posts it."""
    intervals = [{"id": 0, "payloads": [{"type": "USAGE", "values": [usage]}]}]
    names = {"programID": "p1", "eventID": ident, "clientName": UNTOLD}
    return {**names, "resources": [{"resourceName": name, "intervals": intervals}]}
