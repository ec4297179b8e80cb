#!/usr/bin/env python3
"""A site's side of a node: sees its events, takes notifications of them, and reports what it used.

    examples/site.py URL --token T [--ca FILE] [--listen PORT]

as: examples/site.py http://127.0.0.1:8080 --token change-me-alpha --listen 9001

At its start, and after a fault, it looks whether the node has its subscription, and posts one where it has none. It
asks for all of its events, page by page, at once and then each --every seconds; between that it is told of what comes,
changes and goes. For each interval of each of its events it reports a usage, once, and in place of its report where the
order changes. In place of a meter stands `metered`: what was ordered is used, to the unit.

What a site has to see to, and does here:

- A notification may come twice: it knows the last ones again.
- A reply may be lost, and its report taken: it looks for its reports before it posts the next.
- It checks the token that a notification shows. That is made of its own token, so that it is the same after a start.
- It answers a notification first, and works then: the node waits for 4 s.
- After a fault it waits longer each time, and never asks at once again.

    --token-file FILE   the token's file, in place of --token: that one stands in the list of processes
    --ca FILE           the certificates that the node's front is held against, in place of the system's
    --callback URL      how the node finds this site, where that is not http://127.0.0.1:PORT: its front may lead there
    --cert, --key FILE  the certificate for notifications, and its key: they come by TLS then
    --seconds N         it ends by itself after so long; else by Ctrl-C or SIGTERM

At its end it prints what it counted. Needed: Python 3.8 or later, its standard library alone.
"""
import argparse
import collections
import hashlib
import hmac
import http.client
import json
import random
import signal
import socketserver
import ssl
import sys
import threading
import time
from http.server import BaseHTTPRequestHandler
from urllib.parse import urlsplit

# How many objects are asked for at once: as many as the node gives at most.
PAGE = 50
# The most bytes that a notification may have here.
MOST = 1 << 20
# How long is waited for the node and its front, in seconds.
PATIENCE = 30
# How many notifications are remembered, so that one that comes again is known.
REMEMBERED = 1000


class Failed(Exception):
    """The node did not do what it was asked. What it is counted as is its text; a `status` of 0 is none."""

    def __init__(self, kind, status=0):
        super().__init__(kind)
        self.status = status


class Counts:
    """How often what happened; sites may share it."""

    def __init__(self):
        self.lock = threading.Lock()
        self.counts = collections.Counter()
        self.begun = time.monotonic()

    def add(self, what, times=1):
        with self.lock:
            self.counts[what] += times

    def told(self):
        """Returns what was counted, as lines."""
        seconds = time.monotonic() - self.begun
        with self.lock:
            it = self.counts.copy()
        errors = {name[len("error "):]: it[name] for name in sorted(it) if name.startswith("error ")}
        return [
            f"events seen {it['events']}",
            f"reports taken {it['posted'] + it['replaced']} (new {it['posted']}, replaced {it['replaced']})",
            f"notifications received {it['notified']} (again {it['again']}, not believed {it['not believed']})",
            f"errors {sum(errors.values())}" + "".join(f", {name}: {times}" for name, times in errors.items()),
            f"requests {it['requests']} in {seconds:.1f} s, {it['requests'] / seconds:.1f} a second",
        ]


class Link:
    """The way to a node: one request a connection, as the node has it."""

    def __init__(self, url, token, counts, ca=None):
        parts = urlsplit(url)
        if parts.scheme not in ("http", "https") or not parts.hostname:
            raise ValueError(f"{url} is no address of a node")
        self.place = parts.hostname, parts.port
        self.base = parts.path.rstrip("/")
        self.trust = ssl.create_default_context(cafile=ca) if parts.scheme == "https" else None
        self.token, self.counts = token, counts

    def connection(self):
        host, port = self.place
        if self.trust:
            return http.client.HTTPSConnection(host, port, timeout=PATIENCE, context=self.trust)
        return http.client.HTTPConnection(host, port, timeout=PATIENCE)

    def ask(self, method, target, value=None):
        """Asks, and returns what the answer is; or fails."""
        body = None if value is None else json.dumps(value, separators=(",", ":")).encode()
        head = {"Authorization": f"Bearer {self.token}", "Connection": "close"}
        if body is not None:
            head["Content-Type"] = "application/json"
        self.counts.add("requests")
        link = self.connection()
        try:
            link.request(method, self.base + target, body, head)
            answer = link.getresponse()
            status, text = answer.status, answer.read()
        except ssl.SSLCertVerificationError as wrong:
            raise Failed("certificate not believed") from wrong
        except TimeoutError as wrong:
            raise Failed("no answer in time") from wrong
        except (OSError, http.client.HTTPException) as wrong:
            raise Failed(str(wrong) if isinstance(wrong, BrokeOff) else type(wrong).__name__) from wrong
        finally:
            link.close()
        try:
            told = json.loads(text)
        except ValueError as wrong:
            raise Failed(f"{status} without JSON", status) from wrong
        if not 200 <= status < 300:
            title = told.get("title", "") if isinstance(told, dict) else ""
            raise Failed(f"{status} {title}".strip(), status)
        return told

    def all_of(self, target):
        """Returns all that a listing has, page by page."""
        found, page = [], [None] * PAGE
        while len(page) == PAGE:
            page = self.ask("GET", f"{target}?skip={len(found)}&limit={PAGE}")
            found += page
        return found


class BrokeOff(ConnectionError):
    """A connection that was broken off on purpose."""


def metered(order):
    """Returns what was used in an interval; `order` is its setpoint, or none. A real site reads its meter here."""
    return 0 if order is None else order


def version(event):
    """Returns what grows with each version of an event: moments of UTC, with or without a part of a second."""
    return event["modificationDateTime"].rstrip("Z")


def named(event):
    """Returns the name of the resource that an event is for."""
    return next(it["values"][0] for it in event["targets"] if it["type"] == "RESOURCE_NAME")


def used(event):
    """Returns what was used in an event, by the ids of its intervals."""
    found = {}
    for it in event["intervals"]:
        orders = [payload["values"][0] for payload in it["payloads"] if payload["type"] == "DISPATCH_SETPOINT"]
        found[it["id"]] = metered(orders[0] if orders else None)
    return found


def reported(report):
    """Returns what a report says, by the ids of its intervals."""
    usage = lambda it: next((payload["values"][0] for payload in it["payloads"] if payload["type"] == "USAGE"), None)
    return {it["id"]: usage(it) for it in report["resources"][0]["intervals"]}


class Site:
    """A site of a node, which asks over a link as `client`, and is called at `callback`, where it is called at all."""

    def __init__(self, link, client, callback=None, every=60, say=lambda text: None):
        self.link, self.client, self.callback, self.every, self.say = link, client, callback, every, say
        self.counts = link.counts
        self.shown = hmac.new(link.token.encode(), b"notifications", hashlib.sha256).hexdigest()
        self.lock = threading.Lock()
        self.woken, self.is_over = threading.Event(), threading.Event()
        self.events = {}  # by their ids, as they are now
        self.seen = set()  # the ids of all that there were
        self.reports = None  # (id, usage) by the event's id; none while it isn't known what there is
        self.refused = {}  # by the event's id the usage that the node doesn't take
        self.had = collections.deque(maxlen=REMEMBERED)

    # ---- notifications

    def is_believed(self, authorization):
        """Whether a notification shows the token that it has to."""
        return hmac.compare_digest((authorization or "").encode("latin-1"), f"Bearer {self.shown}".encode())

    def takes(self, body):
        """Takes a notification; returns the status of the answer to it."""
        try:
            told = json.loads(body)
            kind, operation, event = told["objectType"], told["operation"], told["object"]
            mark = kind, operation, event["id"], event["modificationDateTime"]
        except (ValueError, KeyError, TypeError):
            return 400
        with self.lock:
            self.counts.add("notified")
            if mark in self.had:
                self.counts.add("again")
                return 200
            self.had.append(mark)
            if kind == "EVENT" and operation == "DELETE":
                self.events.pop(event["id"], None)
            elif kind == "EVENT":
                self.has(event)
        self.say(f"told {operation} {kind} {event['id']}")
        self.woken.set()
        return 200

    def has(self, event):
        """Keeps a version of an event, where it has none that is later. (Under the lock.)"""
        old = self.events.get(event["id"])
        if old is None or version(old) <= version(event):
            self.events[event["id"]] = event
        if event["id"] not in self.seen:
            self.seen.add(event["id"])
            self.counts.add("events")

    # ---- what it asks

    def subscribe(self):
        """Has the node tell of events, where it does not yet. Returns whether it does now: it may have no room for one
        more, or may not call this site, which goes on then by its looks alone."""
        wanted = {"objects": ["EVENT"], "operations": ["POST", "PUT", "DELETE"], "callbackUrl": self.callback}
        value = {"clientName": self.client, "objectOperations": [{**wanted, "bearerToken": self.shown}]}
        own = [it for it in self.link.all_of("/subscriptions") if it["clientName"] == self.client]
        if own and own[0]["objectOperations"] == [wanted]:
            return True
        try:
            if own:
                self.link.ask("PUT", f"/subscriptions/{own[0]['id']}", value)
            else:
                self.link.ask("POST", "/subscriptions", value)
        except Failed as wrong:
            if wrong.status not in (400, 409):
                raise
            self.counts.add(f"error {wrong}")
            self.say(f"not subscribed: {wrong}")
            return False
        self.say("subscribed")
        return True

    def look(self):
        """Asks for all events. What comes meanwhile by a notification stays: the next look tells more."""
        with self.lock:
            before = set(self.events)
        found = self.link.all_of("/events")
        with self.lock:
            for gone in before - {it["id"] for it in found}:
                self.events.pop(gone, None)
            for it in found:
                self.has(it)

    def report(self):
        """Reports on each event on which the node has no report that says what was used."""
        if self.reports is None:
            self.reports = {it["eventID"]: (it["id"], reported(it)) for it in self.link.all_of("/reports")}
        with self.lock:
            events = list(self.events.values())
        for event in events:
            ident, usage = event["id"], used(event)
            there, said = self.reports.get(ident, (None, None))
            if usage not in (said, self.refused.get(ident)):
                self.send(event, usage, there)

    def send(self, event, usage, there):
        """Reports on an event, in place of the report that is there, if one is."""
        payloads = lambda value: [{"type": "USAGE", "values": [value]}]
        intervals = [{"id": at, "payloads": payloads(value)} for at, value in usage.items()]
        resource = {"resourceName": named(event), "intervals": intervals}
        value = {"programID": event["programID"], "eventID": event["id"], "clientName": self.client}
        value["resources"] = [resource]
        try:
            if there:
                self.link.ask("PUT", f"/reports/{there}", value)
            else:
                there = self.link.ask("POST", "/reports", value)["id"]
        except Failed as wrong:
            if wrong.status not in (400, 403, 404, 409):
                raise
            # It won't be taken as it is, be it that the event is gone: what is known of reports is asked for anew.
            self.counts.add(f"error {wrong}")
            self.refused[event["id"]] = usage
            self.reports.pop(event["id"], None)
            return
        self.counts.add("replaced" if event["id"] in self.reports else "posted")
        self.reports[event["id"]] = there, usage
        self.say(f"reported on {event['id']}: {' '.join(str(it) for it in usage.values())}")

    # ---- its time

    def run(self):
        """Is a site until it is over."""
        failures, next_look, is_told = 0, 0, False
        while not self.is_over.is_set():
            self.woken.clear()
            try:
                if time.monotonic() >= next_look:
                    is_told = is_told or self.callback and self.subscribe()
                    self.look()
                    next_look = time.monotonic() + self.every * random.uniform(0.8, 1.2)
                self.report()
                failures = 0
                self.woken.wait(max(next_look - time.monotonic(), 0))
            except Failed as wrong:
                # What became of it isn't known, and the node may have been started anew: it looks before it goes on.
                self.counts.add(f"error {wrong}")
                self.say(f"failed: {wrong}")
                self.reports, is_told, next_look = None, False, 0
                failures += 1
                self.is_over.wait(min(self.every, 2 ** (failures - 1)) * random.uniform(0.8, 1.2))

    def stop(self):
        self.is_over.set()
        self.woken.set()


class Listener(socketserver.ThreadingTCPServer):
    """Takes the notifications of sites, each at a path."""

    allow_reuse_address = True
    daemon_threads = True
    request_queue_size = 128

    def __init__(self, place, sites, cert=None, key=None):
        super().__init__(place, Handler)
        self.sites = sites
        if cert:
            context = ssl.SSLContext(ssl.PROTOCOL_TLS_SERVER)
            context.load_cert_chain(cert, key)
            # (each connection shakes hands in its own thread)
            self.socket = context.wrap_socket(self.socket, server_side=True, do_handshake_on_connect=False)
        threading.Thread(target=self.serve_forever, kwargs={"poll_interval": 0.2}, daemon=True).start()

    def handle_error(self, *_):
        """Nothing: who calls and breaks off calls again."""


class Handler(BaseHTTPRequestHandler):
    timeout = 10

    def do_POST(self):
        site = self.server.sites.get(self.path)
        length = self.headers.get("Content-Length", "")
        if site is None:
            return self.answers(404)
        if not site.is_believed(self.headers.get("Authorization")):
            site.counts.add("not believed")
            return self.answers(401)
        if not length.isdigit() or int(length) > MOST:
            return self.answers(411 if not length.isdigit() else 413)
        status = site.takes(self.rfile.read(int(length)))
        return self.answers(status) if status else None

    def answers(self, status):
        self.send_response(status)
        self.send_header("Content-Length", "0")
        self.send_header("Connection", "close")
        self.end_headers()

    def log_message(self, *_):
        """Nothing: the site tells what it is told."""


def words():
    it = argparse.ArgumentParser(description="A site's side of a node.")
    it.add_argument("url")
    who = it.add_mutually_exclusive_group(required=True)
    who.add_argument("--token")
    who.add_argument("--token-file")
    it.add_argument("--ca")
    it.add_argument("--client", default="site", help="its clientName")
    it.add_argument("--listen", type=int, metavar="PORT", help="where notifications come, on 127.0.0.1; 0: a free one")
    it.add_argument("--callback", metavar="URL")
    it.add_argument("--cert")
    it.add_argument("--key")
    it.add_argument("--every", type=float, default=60, help="seconds between two looks for all events")
    it.add_argument("--seconds", type=float)
    asked = it.parse_args()
    if asked.cert and not asked.callback:
        it.error("the node speaks no TLS: with --cert say by --callback which way leads here")
    return asked


def token_of(path):
    with open(path, encoding="ascii") as it:
        return it.readline().strip()


def lasts(seconds):
    """Waits for so long, or for SIGTERM or Ctrl-C."""
    over = threading.Event()
    for it in (signal.SIGTERM, signal.SIGINT):
        signal.signal(it, lambda *_: over.set())
    over.wait(seconds)


def main():
    asked = words()
    try:
        token = asked.token or token_of(asked.token_file)
        link = Link(asked.url, token, Counts(), asked.ca)
        site = Site(link, asked.client, None, asked.every, lambda it: print(it, flush=True))
        if asked.listen is not None:
            listener = Listener(("127.0.0.1", asked.listen), {"/": site}, asked.cert, asked.key)
            site.callback = asked.callback or f"http://127.0.0.1:{listener.server_address[1]}/"
    except (OSError, ValueError) as wrong:
        print(f"examples/site.py: {wrong}", file=sys.stderr)
        return 1
    threading.Thread(target=site.run, daemon=True).start()
    lasts(asked.seconds)
    site.stop()
    print("\n".join(site.counts.told()))
    return 0


if __name__ == "__main__":
    sys.exit(main())
