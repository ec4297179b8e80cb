"""Fronts of examples/front that a script runs around a node, with servers behind TLS, and what it looks at there."""
import contextlib
import http.client
import json
import os
import ssl
import subprocess
import sys
import threading
import time

from repository import TOP

sys.path.append(f"{TOP}/examples/demo")
from web import Handler

# How long is waited for what is to come, in seconds.
PATIENCE = 40
# The two nginx of a front, by the names of their configurations.
BOTH = ("inward", "outward")
MOMENT = "2024-07-01T09:%02d:00Z"


class Held:
    """What was looked at."""

    passed, failed = 0, 0

    @classmethod
    def holds(cls, what, fact, more=""):
        """Tells whether something is as it has to be."""
        print(f"{'ok    ' if fact else 'FAILED'} {what}{f': {more}' if more and not fact else ''}", flush=True)
        cls.passed += bool(fact)
        cls.failed += not fact

    @classmethod
    def comes(cls, what, fact, seconds=PATIENCE):
        """Waits until something is as it has to be, and tells whether it came."""
        until = time.monotonic() + seconds
        while not (is_so := bool(fact())) and time.monotonic() < until:
            time.sleep(0.25)
        cls.holds(what, is_so, f"not within {seconds} s")


def event(ident, minute, *setpoints):
    """Returns an event as the utility has it, with an interval for each setpoint."""
    payloads = lambda value: [{"type": "DISPATCH_SETPOINT", "values": [value]}]
    intervals = [{"id": at, "payloads": payloads(value)} for at, value in enumerate(setpoints)]
    return {"id": ident, "modificationDateTime": MOMENT % minute, "programID": "p1", "intervals": intervals}


# ---- certificates, and servers behind TLS


def certificate(folder, name, host):
    """Makes a certificate for a host; returns the paths of it and of its key."""
    cert, key = f"{folder}/{name}.pem", f"{folder}/{name}.key"
    kind = ["-newkey", "ec", "-pkeyopt", "ec_paramgen_curve:prime256v1", "-nodes"]
    whose = ["-days", "2", "-subj", f"/CN={host}", "-addext", f"subjectAltName=DNS:{host}"]
    told = {"stdin": subprocess.DEVNULL, "stderr": subprocess.DEVNULL}
    subprocess.run(["openssl", "req", "-x509", *kind, *whose, "-keyout", key, "-out", cert], check=True, **told)
    return cert, key


class Named(Handler):
    """A handler of examples/demo, that keeps by which `Host` its server is asked."""

    def serve(self):
        self.server.hosts.add(self.headers["Host"])
        super().serve()

    do_GET = do_POST = do_PUT = do_DELETE = serve


def by_tls(server, pair):
    """Has a server speak TLS, and keep by which names it is called: in `Host`, and in the handshake."""
    context = ssl.SSLContext(ssl.PROTOCOL_TLS_SERVER)
    context.load_cert_chain(*pair)
    server.hosts, server.names = set(), set()
    context.sni_callback = lambda link, name, context: server.names.add(name)
    server.socket = context.wrap_socket(server.socket, server_side=True, do_handshake_on_connect=False)
    server.handle_error = lambda *_: None
    threading.Thread(target=server.serve_forever, kwargs={"poll_interval": 0.1}, daemon=True).start()
    return server


# ---- the front


def is_running(folder, name):
    """Whether an nginx of a front has told its number."""
    place = f"{folder}/{name}.pid"
    return os.path.exists(place) and os.stat(place).st_size > 0


@contextlib.contextmanager
def front(folder, *more, source=f"{TOP}/examples/front"):
    """Starts a front, and ends it."""
    with open(f"{folder}.said", "ab") as said:
        how = {"stdin": subprocess.DEVNULL, "stdout": said, "stderr": said}
        it = subprocess.Popen([f"{source}/run", folder, *more], **how)
    try:
        until = time.monotonic() + PATIENCE
        while not all(is_running(folder, name) for name in BOTH):
            if it.poll() is not None or time.monotonic() > until:
                raise OSError(f"the front does not start: {said_by(folder)}")
            time.sleep(0.05)
        yield it
    finally:
        it.terminate()
        it.wait(PATIENCE)


def said_by(folder):
    """Returns what a front has said."""
    with open(f"{folder}.said", encoding="utf-8") as it:
        return it.read()


def ways(folder):
    """Returns by sites where their callbacks are subscribed, without a slash at the end."""
    with open(f"{folder}/callbacks", encoding="ascii") as it:
        return {site: url.rstrip("/") for site, url in (line.split() for line in it)}


class Asker:
    """Asks at the front."""

    def __init__(self, port, ca, patience=PATIENCE, source=None):
        self.port, self.patience, self.source = port, patience, source
        self.trust = ssl.create_default_context(cafile=ca)

    def link(self):
        how = {"timeout": self.patience, "source_address": self.source, "context": self.trust}
        return http.client.HTTPSConnection("localhost", self.port, **how)

    def ask(self, token, method, target, body=None, **head):
        """Returns the status and the value of an answer."""
        link = self.link()
        try:
            if isinstance(body, (dict, list)):
                body = json.dumps(body)
            link.request(method, target, body, {"Authorization": f"Bearer {token}", **head})
            answer = link.getresponse()
            return answer.status, json.loads(answer.read())
        finally:
            link.close()
