#!/usr/bin/env python3
"""Gives figures of a node to a monitor, in Prometheus' text form.

    examples/metrics.py --node URL --token TOKEN [--log FILE|- | --journal UNIT ..] [--store FILE] [--backups FOLDER]
                        [--listen 127.0.0.1:9101]

    examples/metrics.py --node http://127.0.0.1:8080 --token-file FILE --journal adr_node.service

`GET /metrics` has them, and `GET /state`, in JSON for the page, what of it isn't the node's own: the link to the utility,
messages that failed last and why, limits, units, the disk and the newest copy. Each time it asks the node, as the operator, for the outbox's counts and the vens; for events
and roll-ups at most once in a while (--rest SECONDS, 60 where absent), since listing them is dear where much is shown.
Without --log or --journal nothing is told of requests, rounds, messages and limits.

    --token TOKEN      the operator's token; --token-file FILE has it in the first line of a file, and so in no list of
                       processes
    --log FILE         the node's log, read from its beginning and as it grows, also where it is put aside or cut off
                       and begun anew; `-` is standard input, at whose end this ends too, with status 1
    --journal UNIT     the log as systemd's journal has it since the machine was started, and which of these units failed
                       when they ran last: the node's and others, as that of examples/backup, each with its --journal.
                       By `journalctl`, as a user of the group systemd-journal
    --store FILE       the node's file: how long it and its log are, and how much room the disk has. It is never opened
    --backups FOLDER   copies that examples/backup made: how old the newest is, how many objects it has of each kind that
                       has a limit, and how many of its messages wait for a moment that is too far away, since the clock
                       was ahead. Of what is there now the node itself tells vens and messages alone
    --listen ADDRESS   where it listens: an IPv4 address of loopback, a colon, a port

What the log doesn't tell is not counted: at `info` it has the requests answered 500, those that weren't served, and
messages that failed; all requests, and messages sent, at `debug` alone. Lines that the node left out are counted by
themselves.

examples/alerts.yml has Prometheus' alerts, each with what it needs of this. It ends by a signal; with status 1, and a
line that says why, where it can't listen or the log can't be read; and with 2 for other words. Needed: Python 3.8 or later.
"""
import argparse
import http.client
import ipaddress
import json
import os
import re
import sqlite3
import subprocess
import sys
import threading
import time
import urllib.error
import urllib.parse
import urllib.request
from collections import Counter, deque
from datetime import datetime, timezone
from http.server import BaseHTTPRequestHandler, ThreadingHTTPServer

# The bounds by which the times of requests are counted, in milliseconds.
BOUNDS = (5, 10, 25, 50, 100, 250, 500, 1000, 2500, 5000, 10000, 20000)
LEVELS = ("ERROR", "WARN", "INFO", "DEBUG")
UNSERVED = ("request_timed_out", "request_cut", "reply_timed_out", "reply_cut")
OUTCOMES = ("sent", "failed", "not_sent", "given_up")
# What has a limit and is counted in the file, by the names of the configuration.
KINDS = ("keys", "vens", "subs", "resources", "shares", "reports", "frozen", "pending", "serial")
# A message that failed waits for a minute at most, and a lease lasts 30 s. One in a copy whose moment is further behind
# that of the copy than this, in seconds, was tried while the clock was ahead.
LATER = 120
# Of how many endpoints that failed is told at most, and of how many attempts that failed last.
ENDPOINTS, FAILURES = 1000, 100
# How long the node may take for an answer, and for one that is dear, in seconds. (Prometheus waits for ten.)
PATIENCE, LONG_PATIENCE = 5, 10


def family(name, kind, told, samples):
    """Returns the lines of a family of figures: of each sample its labels, its figure, and what its name ends with."""
    lines = [f"# HELP {name} {told}", f"# TYPE {name} {kind}"]
    for labels, figure, *end in samples:
        inner = ",".join(f'{label}="{it}"' for label, it in labels.items())
        lines.append(f"{name}{''.join(end)}{{{inner}}} {figure}" if inner else f"{name}{''.join(end)} {figure}")
    return lines


def seconds(moment):
    """Returns a moment of the log as seconds since 1970."""
    return datetime.fromisoformat(moment).replace(tzinfo=timezone.utc).timestamp()


# ---- what the log tells

LINE = re.compile(r"\[(ERROR|WARN|INFO|DEBUG) +(\w+)\] (.*) time=(\d{4}-\d\d-\d\dT\d\d:\d\d:\d\d\.\d{3})Z")
LISTENS = re.compile(r"listening at=\S+ workers=\d+ poll=(\d+)")
LIMITS = re.compile(r"limits((?: \w+=\d+)+)")
REQUEST = re.compile(r".* role=\S+(?: ven=\S+)? status=(\d+) read=\d+ written=\d+ ms=(\d+)")
NOT_SERVED = re.compile(r"(?:\S+ \S+ )?(timed out|cut) before the (request|reply) was whole.*")
ROUND = re.compile(r"(whole|broke|withheld)\b(?:: (.*?) pages=\d+)?.* since=(\d+|never)")
MESSAGE = re.compile(
    r"(sent|failed|not sent)(, and is given up)?: (.*) entry=(\d+) kind=(\w+) host=([\w.:[\]-]+) attempt=(\d+).*"
)
# What systemd writes of a unit into its journal.
UNIT_FAILED = re.compile(r"(\S+): Failed with result '[\w-]+'\.")
UNIT_IS_WELL = re.compile(r"(?:Started|Finished) (\S+?)(?: - .*|\.)|(\S+): Deactivated successfully\.")
LEFT_OUT = re.compile(r"lines were left out count=(\d+)")


class LogFigures:
    """What the lines of a log told so far."""

    def __init__(self, units=()):
        self.lines = Counter({it: 0 for it in LEVELS})
        self.left_out = self.starts = 0
        self.started, self.limits = None, {}
        # Whether it failed when it ran last, by the unit.
        self.units = {it: 0 for it in units}
        # Of each host that failed how often its message was tried, and when; the last one to fail is the last.
        self.endpoints = {}
        # The attempts that failed last, the latest first.
        self.failures = deque(maxlen=FAILURES)
        # By the status: how many there were, and how long they took; 0 of those that are to be watched.
        self.requests, self.millis, self.within = Counter({"500": 0}), Counter(), Counter()
        self.unserved = Counter({it: 0 for it in UNSERVED})
        self.rounds = Counter(whole=0, broke=0, withheld=0)
        self.broke_since, self.last_whole, self.poll, self.broke = 0, None, None, None
        self.messages = Counter({(kind, it): 0 for kind in ("notification", "report") for it in OUTCOMES})

    def take(self, line):
        """Counts what a line tells."""
        parts = LINE.fullmatch(line)
        if not parts:
            self.unit(line)
            return
        level, subject, what, moment = parts.groups()
        self.lines[level] += 1
        if subject in ("node", "log", "request", "round", "message"):
            getattr(self, subject)(what, moment)

    def unit(self, line):
        """Takes what systemd tells of a unit."""
        if found := UNIT_FAILED.fullmatch(line):
            name, has_failed = found[1], 1
        elif found := UNIT_IS_WELL.fullmatch(line):
            name, has_failed = found[1] or found[2], 0
        else:
            return
        if name in self.units:
            self.units[name] = has_failed

    def node(self, what, moment):
        if found := LISTENS.fullmatch(what):
            self.starts += 1
            self.started, self.poll = seconds(moment), int(found[1])
        elif found := LIMITS.fullmatch(what):
            self.limits = dict(it.split("=") for it in found[1].split())

    def log(self, what, _):
        if found := LEFT_OUT.fullmatch(what):
            self.left_out += int(found[1])

    def request(self, what, _):
        if found := NOT_SERVED.fullmatch(what):
            self.unserved[f"{found[2]}_{found[1].replace(' ', '_')}"] += 1
        elif found := REQUEST.fullmatch(what):
            status, millis = found[1], int(found[2])
            self.requests[status] += 1
            self.millis[status] += millis
            self.within.update((status, bound) for bound in BOUNDS if millis <= bound)

    def round(self, what, moment):
        found = ROUND.fullmatch(what)
        if not found:
            return
        outcome, why, since = found.groups()
        self.rounds[outcome] += 1
        at = seconds(moment)
        if outcome == "whole":
            self.broke_since, self.last_whole, self.broke = 0, at, None
            return
        self.broke_since += 1
        self.broke = why
        if since != "never" and self.last_whole is None:
            self.last_whole = at - int(since)

    def message(self, what, moment):
        if found := MESSAGE.fullmatch(what):
            said, given_up, why, entry, kind, host, attempt = found.groups()
            self.messages[kind, "given_up" if given_up else said.replace(" ", "_")] += 1
            self.endpoints.pop(host, None)
            if said != "sent":
                self.endpoints[host] = int(attempt), seconds(moment)
                if len(self.endpoints) > ENDPOINTS:
                    del self.endpoints[next(iter(self.endpoints))]
                names = {"host": host, "kind": kind, "entry": int(entry), "attempt": int(attempt), "why": why}
                self.failures.appendleft({**names, "isGivenUp": bool(given_up), "at": f"{moment}Z"})

    def since_whole(self):
        """Returns the seconds since the last whole round ended, or nothing before the first."""
        return None if self.last_whole is None else max(time.time() - self.last_whole, 0)

    def state(self):
        """Returns what of it the page shows."""
        round_ = {"sinceWhole": self.since_whole(), "brokeSince": self.broke_since, "poll": self.poll, "broke": self.broke}
        of = {"failures": list(self.failures), "limits": {it: int(self.limits[it]) for it in KINDS if it in self.limits}}
        return {"round": round_, "started": self.started, "units": self.units, **of}

    def times(self):
        """Returns the samples of a histogram of times, by the status."""
        for status, count in sorted(self.requests.items()):
            for bound in BOUNDS:
                yield {"status": status, "le": bound / 1000}, self.within[status, bound], "_bucket"
            yield {"status": status, "le": "+Inf"}, count, "_bucket"
            yield {"status": status}, self.millis[status] / 1000, "_sum"
            yield {"status": status}, count, "_count"

    def families(self):
        """Returns all as lines."""
        by = lambda label, counter: [({label: it}, count) for it, count in sorted(counter.items())]
        messages = [({"kind": kind, "outcome": it}, count) for (kind, it), count in sorted(self.messages.items())]
        lines = [
            *family("adr_node_log_lines_total", "counter", "Lines of the log, by level.", by("level", self.lines)),
            *family(
                "adr_node_log_lines_left_out_total",
                "counter",
                "Lines that the node left out of its log: what they would have told is counted nowhere.",
                [({}, self.left_out)],
            ),
            *family("adr_node_starts_total", "counter", "Starts of the node that the log has.", [({}, self.starts)]),
            *family(
                "adr_node_requests_total",
                "counter",
                "Requests served, by the status answered: all at the level debug, else those answered 500.",
                by("status", self.requests),
            ),
            *family(
                "adr_node_request_duration_seconds",
                "histogram",
                "How long these requests took, by the status.",
                self.times(),
            ),
            *family(
                "adr_node_requests_unserved_total",
                "counter",
                "Requests that were not read whole, or whose reply was not taken whole.",
                by("outcome", self.unserved),
            ),
            *family("adr_node_rounds_total", "counter", "Rounds, by their outcome.", by("outcome", self.rounds)),
            *family(
                "adr_node_rounds_since_whole",
                "gauge",
                "Rounds that broke off, or asked for none of many objects, since the last whole one.",
                [({}, self.broke_since)],
            ),
            *family("adr_node_messages_total", "counter", "Attempts to send a message, by their outcome.", messages),
            *family(
                "adr_node_endpoint_attempts",
                "gauge",
                "How often the message was tried that failed last, by the host that it goes to, until one is sent there"
                " (which is told at the level debug alone).",
                [({"host": it}, count) for it, (count, _) in sorted(self.endpoints.items())],
            ),
            *family(
                "adr_node_endpoint_failed_timestamp_seconds",
                "gauge",
                "When a message failed last, by the host that it goes to, until one is sent there.",
                [({"host": it}, f"{at:.3f}") for it, (_, at) in sorted(self.endpoints.items())],
            ),
            *family(
                "adr_node_limit",
                "gauge",
                "How many objects of a kind the node keeps at most, as it told when it was started last.",
                [({"kind": it}, self.limits[it]) for it in KINDS if it in self.limits],
            ),
            *family(
                "adr_node_unit_failed",
                "gauge",
                "Whether a unit of systemd failed when it ran last.",
                [({"unit": it}, has) for it, has in self.units.items()],
            ),
        ]
        if self.started is not None:
            told = "When the node was started last."
            lines += family("adr_node_start_time_seconds", "gauge", told, [({}, f"{self.started:.3f}")])
        if self.last_whole is not None:
            told = "Seconds since the last whole round ended."
            lines += family("adr_node_round_since_whole_seconds", "gauge", told, [({}, f"{self.since_whole():.3f}")])
        if self.poll is not None:
            told = "Rest between two rounds, as configured."
            lines += family("adr_node_poll_seconds", "gauge", told, [({}, self.poll)])
        return lines


class Tail:
    """A file that grows, and may be put aside or cut off, and begun anew."""

    def __init__(self, path):
        self.path, self.begun = path, b""
        self.file = open(path, "rb")  # it stays open

    def more(self):
        """Returns the lines that are new and whole."""
        while True:
            for read in iter(lambda: self.file.read(1 << 16), b""):
                *lines, self.begun = (self.begun + read).split(b"\n")
                self.begun = self.begun[-(1 << 16) :]
                yield from lines
            if not self.is_new():
                return
            try:
                file = open(self.path, "rb")  # it stays open
            except OSError:
                return
            self.file.close()
            self.file, self.begun = file, b""

    def is_new(self):
        """Whether another file is there, or the same one cut off."""
        try:
            there, here = os.stat(self.path), os.fstat(self.file.fileno())
        except OSError:
            return False
        return (there.st_dev, there.st_ino) != (here.st_dev, here.st_ino) or there.st_size < self.file.tell()


# ---- what the node tells


class Node:
    """A node, asked as the operator."""

    def __init__(self, address, token, rest):
        self.address, self.token, self.rest = address.rstrip("/"), token, rest
        # (what the environment says of proxies is not for it)
        self.opener = urllib.request.build_opener(urllib.request.ProxyHandler({}))
        self.dear, self.until = [], 0

    def ask(self, target, patience=PATIENCE):
        """Returns what the node answers, and nothing for 404."""
        head = {"Authorization": f"Bearer {self.token}"}
        question = urllib.request.Request(self.address + target, headers=head)
        try:
            with self.opener.open(question, timeout=patience) as answer:
                return json.load(answer)
        except urllib.error.HTTPError as refused:
            refused.close()
            if refused.code == 404:
                return None
            raise ValueError(f"GET {target} is answered {refused.code}") from refused

    def all_of(self, target, patience=PATIENCE):
        """Returns all that a listing has, page by page."""
        found, page = [], True
        while page:
            page = self.ask(f"{target}?limit=50&skip={len(found)}", patience)
            if not isinstance(page, list):
                raise ValueError(f"GET {target} is answered with no list")
            found += page
        return found

    def outbox(self):
        count = self.ask("/outbox")
        if count is None:
            raise ValueError("GET /outbox is answered 404")
        lines = []
        for name, member, told in (
            ("adr_node_outbox_made_total", "made", "Messages made."),
            ("adr_node_outbox_sent_total", "sent", "Messages sent."),
            ("adr_node_outbox_given_up_total", "givenUp", "Messages that failed eight times."),
            ("adr_node_outbox_dropped_total", "dropped", "Messages that went with their subscription."),
        ):
            lines += family(name, "counter", told, [({}, count[member])])
        told = "Messages that wait or are being sent."
        return lines + family("adr_node_outbox_pending", "gauge", told, [({}, count["pending"])])

    def events(self):
        """Returns the figures of events and of their roll-ups."""
        shown = [it["id"] for it in self.all_of("/events", LONG_PATIENCE)]
        events = {it.partition("-")[2] for it in shown}
        rollups = [it for it in (self.ask(f"/rollups/{event}", LONG_PATIENCE) for event in sorted(events)) if it]
        missing = [
            sum(
                len(payload["values"])
                for resource in it["resources"]
                for interval in resource["intervals"]
                for payload in interval["payloads"]
                if payload["type"] == "MISSING_RESOURCES"
            )
            for it in rollups
        ]
        incomplete = sum(it > 0 for it in missing)
        lines = []
        for name, told, figure in (
            ("adr_node_events", "Events of the utility in which a resource takes part.", len(events)),
            ("adr_node_shown_events", "Events as they are shown: one for each that takes part in one.", len(shown)),
            ("adr_node_rollups", "Events of the utility of which there is a sum.", len(rollups)),
            ("adr_node_rollups_incomplete", "Sums in which a resource has no value.", incomplete),
            ("adr_node_rollup_missing_values", "Values missing in sums, by resource and interval.", sum(missing)),
        ):
            lines += family(name, "gauge", told, [({}, figure)])
        return lines

    def families(self):
        """Returns all as lines; where the node doesn't answer, what it answered before that."""
        lines, is_up = [], 1
        try:
            lines += self.outbox()
            lines += family("adr_node_vens", "gauge", "Vens enrolled.", [({}, len(self.all_of("/vens")))])
            if time.monotonic() >= self.until:
                self.dear = []
                self.dear = self.events()
                self.until = time.monotonic() + self.rest
            lines += self.dear
        except (OSError, ValueError, LookupError, TypeError, AttributeError, http.client.HTTPException) as wrong:
            print(f"examples/metrics.py: the node doesn't answer: {wrong}", file=sys.stderr, flush=True)
            is_up = 0
        return family("adr_node_up", "gauge", "Whether the node answered all that it was asked.", [({}, is_up)]) + lines


# ---- what lies on the disk


class Store:
    """The node's file, which isn't opened."""

    def __init__(self, path):
        self.path = os.path.abspath(path)

    def disk(self):
        """Returns how much room is on its disk, and how large that is."""
        disk = os.statvfs(os.path.dirname(self.path))
        return disk.f_bavail * disk.f_frsize, disk.f_blocks * disk.f_frsize

    def state(self):
        free, whole = self.disk()
        return {"disk": {"free": free, "whole": whole}}

    def families(self):
        """Returns all as lines."""
        size = lambda it: os.stat(it).st_size if os.path.exists(it) else 0
        free, whole = self.disk()
        lines = []
        for name, told, figure in (
            ("adr_node_file_bytes", "How long the node's file is.", size(self.path)),
            ("adr_node_file_log_bytes", "How long the log beside it is.", size(f"{self.path}-wal")),
            ("adr_node_disk_free_bytes", "Room on the disk of the node's file.", free),
            ("adr_node_disk_bytes", "How large that disk is.", whole),
        ):
            lines += family(name, "gauge", told, [({}, figure)])
        return lines


class Backups:
    """Copies of the node's file in a folder. One that can't be read is none."""

    def __init__(self, folder):
        # How many objects of each kind a copy has, and how many messages wait too long; or nothing where it can't be
        # read; by its path, moment and length.
        self.folder, self.known = folder, {}

    def looked(self):
        """Returns the copies, the newest first, each with its moment, its length, how many objects it has, and how many of
        its messages wait too long."""
        paths = [os.path.join(self.folder, it) for it in os.listdir(self.folder) if it.endswith(".db")]
        there = {(path, has.st_mtime, has.st_size) for path in paths for has in [os.stat(path)]}
        self.known = {it: self.known[it] if it in self.known else counted(it[0], it[1]) for it in there}
        found = [(moment, size, *counts) for (_, moment, size), counts in self.known.items() if counts]
        return sorted(found, key=lambda it: -it[0])

    def state(self):
        newest = [{"at": moment, "counts": counts} for moment, _, counts, _ in self.looked()[:1]]
        return {"backup": newest[0] if newest else None}

    def families(self):
        """Returns all as lines."""
        found = self.looked()
        told = "Copies of the node's file that are there and can be read."
        lines = family("adr_node_backups", "gauge", told, [({}, len(found))])
        for moment, size, counts, later in found[:1]:
            told = "When the newest copy of the node's file was made."
            lines += family("adr_node_backup_timestamp_seconds", "gauge", told, [({}, f"{moment:.3f}")])
            lines += family("adr_node_backup_bytes", "gauge", "How long that copy is.", [({}, size)])
            told = "How many objects of a kind that copy has; of serial, numbers drawn."
            lines += family("adr_node_backup_objects", "gauge", told, [({"kind": it}, counts[it]) for it in counts])
            told = f"Messages of that copy that wait for a moment more than {LATER} s behind it."
            lines += family("adr_node_backup_messages_later", "gauge", told, [({}, later)])
        return lines


def counted(path, moment):
    """Returns how many objects of each kind a copy of that moment has, and how many messages wait too long; or nothing where
    it can't be read."""
    link = sqlite3.connect(f"file:{urllib.parse.quote(path)}?mode=ro&immutable=1", uri=True)
    try:
        there = [it[1] for it in link.execute("PRAGMA table_info(meta)")]
        kinds = [it for it in KINDS if it in there]
        counts = dict(zip(kinds, link.execute(f"SELECT {', '.join(kinds)} FROM meta").fetchone()))
        latest = int((moment + LATER) * 1e9)
        return counts, link.execute("SELECT count(*) FROM outbox WHERE max(due, until) > ?", (latest,)).fetchone()[0]
    except (sqlite3.Error, TypeError) as wrong:
        print(f"examples/metrics.py: {path}: {wrong}", file=sys.stderr, flush=True)
        return None
    finally:
        link.close()


# ---- the server


class Figures:
    """All figures, one question at a time."""

    def __init__(self, node, log, store, backups):
        self.node, self.log, self.lock = node, log, threading.Lock()
        self.others = [*([Store(store)] if store else []), *([Backups(backups)] if backups else [])]
        self.tail = None

    def follows(self, path):
        """From now on a file is read as the log."""
        self.tail = Tail(path)
        self.read()

    def read(self):
        for line in self.tail.more() if self.tail else ():
            self.log.take(line.decode("latin-1"))

    def take(self, line):
        with self.lock:
            self.log.take(line.decode("latin-1").rstrip("\n"))

    def text(self):
        with self.lock:
            self.read()
            lines = self.node.families() + (self.log.families() if self.log else [])
            for it in self.others:
                lines += self.tried(it.families, [])
        return "\n".join([*lines, ""]).encode()

    def state(self):
        with self.lock:
            self.read()
            found = self.log.state() if self.log else LogFigures().state()
            for it in self.others:
                found.update(self.tried(it.state, {}))
        return json.dumps(found).encode()

    def tried(self, work, otherwise):
        """Returns what comes of it, or something else where the disk refuses that."""
        try:
            return work()
        except OSError as wrong:
            print(f"examples/metrics.py: {wrong}", file=sys.stderr, flush=True)
            return otherwise


class Handler(BaseHTTPRequestHandler):
    """Tells the figures."""

    timeout = 5

    def do_GET(self):
        path, figures = self.path.partition("?")[0], self.server.figures
        kind = {"/metrics": "text/plain; version=0.0.4; charset=utf-8", "/state": "application/json"}.get(path, "text/plain")
        body = {"/metrics": figures.text, "/state": figures.state}.get(path, lambda: b"/metrics has the figures\n")()
        self.send_response_only(200 if path in ("/metrics", "/state") else 404)
        self.send_header("Content-Type", kind)
        self.send_header("Content-Length", str(len(body)))
        self.end_headers()
        self.wfile.write(body)

    def log_message(self, *_):
        """Nothing."""


class Listener(ThreadingHTTPServer):
    """A server on loopback."""

    daemon_threads = True

    def handle_error(self, *_):
        """Nothing: whoever breaks off gets no reply."""


def follow(figures, lines, server):
    """Takes lines as they come, and ends the server behind the last."""
    for line in iter(lambda: lines.readline(1 << 16), b""):
        figures.take(line)
    server.shutdown()


def journal(units):
    """Begins to read what systemd's journal has of units since the machine was started."""
    command = ["journalctl", "--quiet", "--boot", "--follow", "--lines=all", "--output=cat"]
    how = {"stdin": subprocess.DEVNULL, "stdout": subprocess.PIPE}
    return subprocess.Popen([*command, *(f"--unit={it}" for it in units)], **how)


def place(text):
    """Returns an address of loopback and a port."""
    host, _, port = text.rpartition(":")
    if not re.fullmatch("[0-9]{1,5}", port) or not ipaddress.IPv4Address(host).is_loopback:
        raise argparse.ArgumentTypeError("not an IPv4 address of loopback, a colon and a port")
    return host, int(port)


def main(words):
    reader = argparse.ArgumentParser(prog="examples/metrics.py", description="figures of a node, for Prometheus")
    reader.add_argument("--node", required=True, metavar="URL")
    token = reader.add_mutually_exclusive_group(required=True)
    token.add_argument("--token", metavar="TOKEN")
    token.add_argument("--token-file", metavar="FILE")
    log = reader.add_mutually_exclusive_group()
    log.add_argument("--log", metavar="FILE|-")
    log.add_argument("--journal", metavar="UNIT", action="append", default=[])
    reader.add_argument("--store", metavar="FILE")
    reader.add_argument("--backups", metavar="FOLDER")
    reader.add_argument("--listen", metavar="ADDRESS", type=place, default="127.0.0.1:9101")
    reader.add_argument("--rest", metavar="SECONDS", type=float, default=60)
    has = reader.parse_args(words)
    child = None
    try:
        if has.token_file:
            with open(has.token_file, encoding="ascii") as it:
                has.token = it.readline().strip()
        server = Listener(has.listen, Handler)
        log = LogFigures(has.journal) if has.log or has.journal else None
        server.figures = Figures(Node(has.node, has.token, has.rest), log, has.store, has.backups)
        child = journal(has.journal) if has.journal else None
        if has.log and has.log != "-":
            server.figures.follows(has.log)
        print(f"examples/metrics.py: listening at={has.listen[0]}:{server.server_port}", file=sys.stderr, flush=True)
        lines = child.stdout if child else sys.stdin.buffer if has.log == "-" else None
        if lines:
            threading.Thread(target=follow, args=(server.figures, lines, server), daemon=True).start()
        server.serve_forever()
        print(f"examples/metrics.py: {'the journal' if child else 'standard input'} has ended", file=sys.stderr)
    except (OSError, ValueError) as wrong:
        print(f"examples/metrics.py: {wrong}", file=sys.stderr)
    except KeyboardInterrupt:
        return 130
    finally:
        if child:
            child.terminate()
    return 1


if __name__ == "__main__":
    sys.exit(main(sys.argv[1:]))
