#!/usr/bin/env python3
"""Stands between a node and a utility with other habits, and gives the node what it reads.

    examples/adapter.py CONFIG.json        as: examples/adapter.py /etc/adr_node/adapter.json

It passes each request of the node on to the utility, and each notification of the utility on to the node, and turns
what the switches of its configuration say; where none is on, nothing. The configuration is a JSON object:

    {"listen": "127.0.0.1:8082", "utility": "https://vtn.example/openadr3", "wholeNumbers": true, "listMember": "items"}

    listen            where the node asks: an address of loopback, a colon, a port. In the node's configuration
                      `upstream` is `http://`, this, and the path of `utility`, as `http://127.0.0.1:8082/openadr3`
    utility           the utility's address above `/programs`, `/events` and `/reports`: `http` or `https`
    utilityToken      shown to the utility behind `Bearer`; absent: what the node shows is passed on
    listenForUtility  where the utility's notifications come in, in the form of `listen`; absent: nowhere.
                      `POST /notifications` alone is taken there, and passed on with the token that it shows
    node              the node's address, as `http://127.0.0.1:8080`; needed with `listenForUtility`, and only there
    seconds           how long the utility may take for a whole reply, from 0.1 to 3.5, which it is where absent: the
                      node waits 4 s

The switches. All are off at first; absent, `null` and `false` are off.

    wholeNumbers   true: a whole number that is written `100.0` or `1e2` becomes `100`. A fraction stays as it is, and
                   so does what has more than 18 digits. Numbers are read as texts: none is rounded
    listMember     a name, as "items": a list that is the member of that name of an object becomes the list. Members
                   beside it are left out: where they say that there is more elsewhere, as `next` may, that isn't
                   asked for
    pages          true: for a utility that knows no `skip`. It is asked without `skip` and `limit`, and they are
                   applied to what it sends, which has to be its whole list
    endOfList      true: 204, or 200 and `null`, is the end of a list, and so is 404 behind a first page (`skip` above
                   0) where that page, asked for again, is still a list. 404 for a first page, or for one object by its
                   id, stays
    textTargets    a type, as "RESOURCE_NAME": targets that are texts, as ["r1","r2"] of OpenADR 3.1, become targets of
                   that type, [{"type":"RESOURCE_NAME","values":["r1","r2"]}]. What isn't a list of texts alone stays
    operations     true: `CREATE` and `UPDATE` of notifications, as of OpenADR 3.1, become `POST` and `PUT`
    ownTargets     {"targetType": "VEN_NAME", "targetValues": ["alpha"]}: such a query is added to each listing. Or a
                   list of names, as ["alpha"]: an event is for somebody else that has targets of the type VEN_NAME,
                   none with one of these names, and none of RESOURCE_NAME, at which the node looks itself. Without
                   this it goes to all sites. Now it stands on pages as an element that is no object, so that nothing
                   is known of it; a notification of it is taken here, and a line at WARN tells of each version. A
                   DELETE is passed on. What was for the sites before stays as it was: have the utility delete it

Five more are for a node below a node (examples/tree/README.md), where the utility is the node above:

    stripTargets   {"VEN_NAME": "below", "RESOURCE_NAME": "below-sum"}, one of them or both: the names that this ven and
                   its resource have up there. A target of that type with that name among its values is taken off, of
                   pages, of single objects and of notifications: else nobody below has the name, and nobody takes part
    reportAs       the resource's name up there, as "below-sum": a sum (`AGGREGATED_REPORT`) goes up as the report of
                   that resource. Who is missing is left out, and told here. It goes in place of the report that is
                   there on that event, of that resource and client, whatever id the node knows it by, and as a new one
                   where there is none. What there is is asked up there, by `GET /reports`: at the first sum, and again
                   behind each fault. So nothing is kept here, and nothing lost by a start of the adapter or the node.
                   A utility that lists none (403, 404, 405, 501) is sent the node's own ids. Where a new report gets
                   404 the event isn't shown up there any more: the sum is dropped, and the node told that it was taken,
                   since others would wait behind it
    callbackUrl    how the utility finds `listenForUtility`, as "http://127.0.0.1:8083/notifications": the adapter
                   subscribes up there to programs and events, at its start, and looks each minute whether it still is.
                   With it `callbackToken`, which notifications are to show: one of the node's for its role `utility`.
                   `clientName` is that of the subscription, and "adapter" where it is absent
    lives          true: the id of an event gets behind it when it came to be up there (its `createdDateTime`), as
                   `r2-e1-at3anncvt9srabgu8`. To a node what is gone is gone for good. But up there an event goes and
                   comes back under one id, as shares, targets and names change: so it is a new one to the node. Sums go
                   up under the id there. A longer id than 100 bytes, which the node would pass over, stays as it was
    sumsEvery      seconds, from 0.1 to 60, with `reportAs` and `nodeToken`, a token of the node's operator: each report
                   of a site makes a sum, and each sum one more in each node above. With it the node is told that a sum
                   was taken, and each so many seconds the sum that it has then of such an event (`/rollups`) goes up.
                   At the start it goes up of each event that is shown up there, so that none is lost

A line on standard error tells of each request and each reply what a rule changed in it, rule by rule. What can't be
read is passed on as it is, byte for byte, and so is what no rule changes. Where a rule changes a body, its JSON is
written anew, and says the same otherwise.

A utility that is down, breaks off, or sends more than 8 MiB, is answered 502, one that is too slow 504: to the node
that is no answer. No 404 comes from the adapter itself on the node's side, but of `lives`, where an event that is asked
for by its id came to be up there at another time. Rules take a second or so for a page of 4 MB, and that is of the
node's 4 s too: where pages are large, lower `seconds`. Who reaches `listen` asks the utility by `utilityToken`: so let
the front pass on to `listenForUtility` alone.

It ends by a signal; with status 1, and a line that says why, where its configuration is no such one, or it can't
listen; and with 2 for other words. Needed: Python 3.8 or later.
"""
import http.client
import io
import ipaddress
import json
import re
import socket
import ssl
import sys
import threading
import time
import urllib.parse
from datetime import datetime, timezone
from http.server import BaseHTTPRequestHandler, ThreadingHTTPServer
from json.encoder import encode_basestring, encode_basestring_ascii

# The largest body that is passed on, in bytes.
MOST = 8 * 1024 * 1024
# How long one read or write may take, and how long a request may take to come, in seconds.
PATIENCE, ARRIVAL = 4, 10
# How many requests are served at once; others wait.
AT_ONCE = 32
# How many objects of a listing are asked for at once; how many seconds lie between two looks for the subscription.
PAGE, LOOK = 50, 60
# The statuses by which a utility says that it lists nothing; 200 where what it lists can't be read.
UNLISTED = (200, 403, 404, 405, 501)
# What of a request and of a reply is passed on, beside the body.
ASKED = ("Authorization", "Accept", "Content-Type")
REPLIED = ("Content-Type", "Content-Encoding", "WWW-Authenticate", "Allow", "Location", "Retry-After")


def tell(level, what):
    """Tells something in one line as the node's log does: of characters from a space to `~`, and not too long."""
    plain = re.sub(r"[^ -~]", lambda it: f"\\u{{{ord(it[0]):x}}}", what)[:900]
    moment = datetime.now(timezone.utc).isoformat(timespec="milliseconds").replace("+00:00", "Z")
    try:
        sys.stderr.write(f"[{level:5} adapter] {plain} time={moment}\n")
        sys.stderr.flush()
    except (OSError, ValueError):
        pass  # nobody reads it: requests are passed on all the same


# ---- JSON, whose numbers stay as they are written


class Number(str):
    """A number, as it is written."""


def no_constant(word):
    raise ValueError(f"{word} is no JSON")


def value_of(body):
    """Returns the value that a JSON text is; `ValueError` or `RecursionError` where it can't be read."""
    return json.loads(body.decode("utf-8"), parse_int=Number, parse_float=Number, parse_constant=no_constant)


def text_of(value, quoted):
    """Returns a value as JSON, each number as it is written, and texts as they are quoted."""
    if isinstance(value, Number):
        return value
    if isinstance(value, str):
        return quoted(value)
    if isinstance(value, list):
        return f"[{','.join([text_of(it, quoted) for it in value])}]"
    if isinstance(value, dict):
        return f"{{{','.join([f'{quoted(name)}:{text_of(it, quoted)}' for name, it in value.items()])}}}"
    return json.dumps(value)


def bytes_of(value):
    """Returns a value as JSON; `RecursionError` where it nests too deep."""
    try:
        return text_of(value, encode_basestring).encode("utf-8")
    except UnicodeEncodeError:  # half a character, which is no UTF-8
        return text_of(value, encode_basestring_ascii).encode("ascii")


PARTS = re.compile(r"(-?)([0-9]+)(?:\.([0-9]+))?(?:[eE]([+-]?[0-9]+))?")


def whole(number):
    """Returns a number without a point and an exponent, where it is a whole one of at most 18 digits; else as it is."""
    if number.isdigit():
        return number
    sign, before, behind, power = PARTS.fullmatch(number).groups("")
    digits = before + behind
    if not digits.strip("0"):
        return Number("0")
    if not behind and not power or len(power) > 9:
        return number
    # Where the point is, among the digits, or how far behind them.
    point = len(before) + int(power or 0)
    if point <= 0 or digits[point:].strip("0") or point - len(digits) > 18:
        return number
    found = digits[:point].ljust(point, "0").lstrip("0")
    return Number(sign + found) if len(found) <= 18 else number


# ---- the rules

# The name under which a node posts a sum, and the type of payloads by which it names whose values it lacks.
SUM, MISSING = "AGGREGATED_REPORT", "MISSING_RESOURCES"
# What the id of an event gets behind it, and how long an id is at most that a node takes.
LIFE, LONGEST = re.compile(r"-at[0-9a-z]{15}$"), 100
DIGITS = "0123456789abcdefghijklmnopqrstuvwxyz"
# What stands in place of an event for somebody else: no object, of which the node reads nothing.
NO_OBJECT = {}
# Of so many events for somebody else it is known which version was told of.
MOST_TOLD = 10_000


def life_of(value):
    """Returns the id of an event with the moment at which it came to be; nothing where there is no such."""
    ident, created = value.get("id"), value.get("createdDateTime")
    if type(value.get("programID")) is not str or type(ident) is not str or type(created) is not str:
        return None
    digits = re.sub("[^0-9]", "", created)
    if not 14 <= len(digits) <= 23:
        return None
    # (its digits, down to the nanosecond, as one number, in fewer)
    left, found = int(digits.ljust(23, "0")), ""
    while left:
        left, last = divmod(left, len(DIGITS))
        found = DIGITS[last] + found
    found = f"{ident}-at{found}"
    return found if LIFE.search(found) and len(found) <= LONGEST else None


def make_whole(value):
    """Writes the whole numbers in an object or a list as such; returns those that were written otherwise."""
    found, left = [], [value]
    for it in left:
        for at, member in list(it.items() if isinstance(it, dict) else enumerate(it)):
            if isinstance(member, (dict, list)):
                left.append(member)
            elif isinstance(member, Number) and (new := whole(member)) != member:
                it[at] = new
                found.append(member)
    return found


class Rules:
    """What is changed, by the switches."""

    def __init__(self, config):
        self.whole_numbers = config.get("wholeNumbers")
        self.list_member = config.get("listMember")
        self.pages = config.get("pages")
        self.end_of_list = config.get("endOfList")
        self.text_targets = config.get("textTargets")
        self.operations = config.get("operations")
        self.strip_targets = config.get("stripTargets")
        self.report_as, self.lives = config.get("reportAs"), config.get("lives")
        own = config.get("ownTargets")
        is_query = isinstance(own, dict)
        self.own_query = urllib.parse.urlencode(own, True, quote_via=urllib.parse.quote) if is_query else ""
        self.own_names = set() if is_query else set(own or ())
        # Which version was told of, of events for somebody else, by their ids.
        self.told_of = {}

    def query(self, query, told):
        """Returns the query with which the utility is asked for a listing."""
        parts = [it for it in query.split("&") if it]
        if self.pages:
            parts = [it for it in parts if it.partition("=")[0] not in ("skip", "limit")]
            told("pages: asked without skip and limit")
        if self.own_query:
            parts.append(self.own_query)
            told(f"ownTargets: asked with {self.own_query}")
        return "&".join(parts)

    def objects(self, values, told, is_gone=False):
        """Changes objects of the utility where rules say so; returns whether one is changed. One that is gone may be
        for somebody else."""
        numbers, targets, others, stripped, lives = [], [], [], [], []
        for at, it in enumerate(values):
            if not isinstance(it, dict):
                continue
            name = it["id"] if isinstance(it.get("id"), str) else "none"
            if self.whole_numbers and (found := make_whole(it)):
                numbers.append((name, found))
            here = it.get("targets")
            if self.text_targets and here and isinstance(here, list) and all(type(target) is str for target in here):
                it["targets"] = [{"type": self.text_targets, "values": here}]
                targets.append(name)
            if self.own_names and not is_gone and (names := self.for_others(it)):
                self.warn(name, it.get("modificationDateTime"), names)
                values[at] = NO_OBJECT
                others.append(name)
                continue
            if self.strip_targets and (taken := self.strip(it)):
                stripped.append((name, taken))
            if self.lives and (ident := life_of(it)):
                it["id"] = ident
                lives.append(ident)
        if numbers:
            name, found = numbers[0]
            count = sum(len(found) for _, found in numbers)
            told(f"wholeNumbers: {found[0]} is {whole(found[0])} first={name} numbers={count} objects={len(numbers)}")
        if targets:
            told(f"textTargets: texts are of type {self.text_targets} first={targets[0]} objects={len(targets)}")
        if others:
            told(f"ownTargets: for somebody else, left out first={others[0]} objects={len(others)}")
        if stripped:
            name, taken = stripped[0]
            told(f"stripTargets: without {' '.join(taken)} first={name} objects={len(stripped)}")
        if lives:
            told(f"lives: first={lives[0]} objects={len(lives)}")
        return bool(numbers or targets or others or stripped or lives)

    def for_others(self, value):
        """Returns the names of vens for which an event is, where it is for somebody else alone; else nothing."""
        here = value.get("targets")
        if type(value.get("programID")) is not str or not isinstance(here, list):
            return []
        kinds = [(it.get("type"), it.get("values")) for it in here if isinstance(it, dict)]
        if any(kind == "RESOURCE_NAME" for kind, _ in kinds):
            return []
        lists = [values for kind, values in kinds if kind == "VEN_NAME" and isinstance(values, list)]
        names = [it for values in lists for it in values if type(it) is str]
        return [] if self.own_names & set(names) else names

    def warn(self, name, moment, names):
        """Tells of an event for somebody else, once for each version."""
        if self.told_of.get(name) == (moment := str(moment)):
            return
        if len(self.told_of) >= MOST_TOLD:
            self.told_of = {}
        self.told_of[name] = moment
        tell("WARN", f"ownTargets: for somebody else, and shown to nobody: {' '.join(names)[:300]} id={name}")

    def strip(self, value):
        """Takes off the targets of an object that name this ven or its resource; returns their types."""
        here = value.get("targets")
        if not isinstance(here, list):
            return []
        taken = [it for it in here if self.names_us(it)]
        if taken:
            value["targets"] = [it for it in here if not self.names_us(it)]
        return [it["type"] for it in taken]

    def names_us(self, target):
        """Whether a target names this ven, or its resource."""
        kind, values = (target.get("type"), target.get("values")) if isinstance(target, dict) else (None, None)
        name = self.strip_targets.get(kind) if type(kind) is str else None
        return name is not None and isinstance(values, list) and any(type(it) is str and it == name for it in values)

    def above(self, ident):
        """Returns the id that an event has up there."""
        return LIFE.sub("", ident) if self.lives else ident

    def renamed(self, value):
        """Gives a report the id that its event has up there; returns whether that is another."""
        before = value.get("eventID") if isinstance(value, dict) else None
        if type(before) is not str or self.above(before) == before:
            return False
        value["eventID"] = self.above(before)
        return True

    def sum(self, value, told):
        """Makes a sum of a node the report of one resource; returns the event's id in the node, or nothing."""
        if not self.report_as:
            return None
        try:
            [resource] = value["resources"]
            intervals, event = resource["intervals"], value["eventID"]
            if resource["resourceName"] != SUM or type(event) is not str or type(value["clientName"]) is not str:
                return None
            found = [it for interval in intervals for it in interval["payloads"] if it["type"] == MISSING]
            missing = list(dict.fromkeys(name for it in found for name in it["values"]))
            for interval in intervals:
                interval["payloads"] = [it for it in interval["payloads"] if it["type"] != MISSING]
        except (KeyError, TypeError, ValueError):
            return None
        resource["resourceName"] = self.report_as
        value["eventID"] = self.above(event)
        names = f": {' '.join(map(str, missing))[:500]}" if missing else ""
        told(f"reportAs: the sum is that of {self.report_as} event={value['eventID']} missing={len(missing)}{names}")
        return event

    def listing(self, value, skip, limit, told):
        """Returns a listing as it is to be, and whether that is another."""
        is_changed = False
        if self.list_member and isinstance(value, dict) and self.list_member in value:
            found = value[self.list_member]
            if isinstance(found, list) or found is None and self.end_of_list:
                others = ", ".join(it for it in value if it != self.list_member)[:200]
                told(f"listMember: the list is that of {self.list_member}{', without ' if others else ''}{others}")
                value, is_changed = found, True
        if self.end_of_list and value is None:
            told("endOfList: null is an empty list")
            value, is_changed = [], True
        if not isinstance(value, list):
            return value, is_changed
        if self.pages:
            shown = value[skip : skip + limit]
            if len(shown) < len(value):
                told(f"pages: skip={skip} and limit={limit} leave {len(shown)} of {len(value)}")
                value, is_changed = shown, True
        return value, self.objects(value, told) or is_changed

    def notification(self, value, told):
        """Changes a notification where rules say so; returns whether it is changed."""
        if not isinstance(value, dict):
            return False
        values = [value.get("object")]
        is_changed = self.objects(values, told, value.get("operation") == "DELETE")
        if is_changed:
            value["object"] = values[0]
        word = {"CREATE": "POST", "UPDATE": "PUT"}.get(str(value.get("operation")))
        if self.operations and word:
            told(f"operations: {value['operation']} is {word}")
            value["operation"] = word
            is_changed = True
        return is_changed


# ---- HTTP, of which no read waits longer than it may


class Late(OSError):
    """The time is over."""


class Timed(io.RawIOBase):
    """What a socket reads, up to a moment of the steady clock."""

    def __init__(self, link, until):
        super().__init__()
        self.link, self.until = link, until

    def readable(self):
        return True

    def readinto(self, room):
        left = self.until - time.monotonic()
        if left <= 0:
            raise Late("no more in time")
        self.link.settimeout(min(left, PATIENCE))
        try:
            return self.link.recv_into(room)
        except socket.timeout as late:
            raise Late("no more in time") from late


class Link:
    """A connection as `http.client` uses one, that is over at a moment."""

    def __init__(self, link, until):
        self.link, self.until = link, until

    def sendall(self, data):
        self.link.settimeout(max(self.until - time.monotonic(), 0.01))
        try:
            self.link.sendall(data)
        except socket.timeout as late:
            raise Late("not taken in time") from late

    def makefile(self, *_):
        return io.BufferedReader(Timed(self.link, self.until))

    def close(self):
        """Nothing: it may still be read, and whoever made it closes it."""


class Reply:
    """A status, its phrase, fields and a body."""

    def __init__(self, status, phrase, fields, body):
        self.status, self.phrase, self.fields, self.body = status, phrase, fields, body

    def becomes(self, value):
        """It is 200 and this value from now on; where that can't be written, it stays."""
        try:
            self.body = bytes_of(value)
        except RecursionError:
            tell("WARN", "too deep to be written: passed on as it is")
            return
        self.status, self.phrase, self.fields = 200, "OK", [("Content-Type", "application/json")]


def problem(status, phrase, detail):
    reply = Reply(status, phrase, [("Content-Type", "application/json")], b"")
    reply.body = json.dumps({"detail": detail, "status": status, "title": phrase.replace(" ", "")}).encode()
    return reply


class Broken(Exception):
    """There is no whole reply of whoever was asked, or a request is too long to be passed on."""

    def __init__(self, status, why):
        super().__init__(why)
        self.reply = problem(status, http.client.responses[status], why)


class Server:
    """Whom requests are passed on to."""

    def __init__(self, address):
        parts = urllib.parse.urlsplit(address)
        self.host, self.path = parts.hostname, parts.path.rstrip("/")
        self.secure = ssl.create_default_context() if parts.scheme == "https" else None
        self.port = parts.port or (443 if self.secure else 80)

    def ask(self, method, target, fields, body, until):
        """Returns the reply to a request; `Broken` where there is no whole one in time."""
        kind = http.client.HTTPSConnection if self.secure else http.client.HTTPConnection
        connection, link = kind(self.host, self.port), None
        try:
            left = max(until - time.monotonic(), 0.01)
            link = socket.create_connection((self.host, self.port), min(left, PATIENCE))
            if self.secure:
                link = self.secure.wrap_socket(link, server_hostname=self.host)
            connection.sock = Link(link, until)
            connection.request(method, target, body or None, {**fields, "Connection": "close"})
            return self.read(connection.getresponse())
        except (Late, socket.timeout) as late:
            raise Broken(504, "no whole reply in time") from late
        except (OSError, http.client.HTTPException) as wrong:
            why = getattr(wrong, "strerror", None) or str(wrong) or type(wrong).__name__
            raise Broken(502, f"no whole reply: {why}") from wrong
        finally:
            if link:
                link.close()

    @staticmethod
    def read(response):
        body = response.read(MOST + 1)
        if len(body) > MOST:
            raise Broken(502, f"a reply of more than {MOST} bytes")
        if response.length:
            raise Broken(502, f"no whole reply: cut {response.length} bytes before its end")
        fields = [(name, " ".join(it.split())) for name in REPLIED for it in response.headers.get_all(name, [])]
        return Reply(response.status, response.reason, fields, body)


class Handler(BaseHTTPRequestHandler):
    """Takes one request a connection."""

    protocol_version = "HTTP/1.1"
    timeout = PATIENCE

    def setup(self):
        super().setup()
        self.rfile = io.BufferedReader(Timed(self.connection, time.monotonic() + ARRIVAL))

    def told(self, what):
        tell("INFO", f"{what} request={self.command} {self.path.partition('?')[0]}")

    def chunks(self):
        """Returns a body that comes in chunks."""
        body, line = b"", b""
        while not re.match(rb"0+\s*(;|$)", line := self.rfile.readline(1024)):
            size = re.match(rb"([0-9A-Fa-f]{1,7})\s*(;|$)", line)
            if not size:
                raise ValueError("a chunk of another form")
            if len(body) + int(size[1], 16) > MOST:
                raise Broken(413, f"a request of more than {MOST} bytes")
            body += self.rfile.read(int(size[1], 16))
            if self.rfile.readline(3) not in (b"\r\n", b"\n"):
                raise ValueError("a chunk that doesn't end")
        for _ in range(64):
            if self.rfile.readline(1024) in (b"\r\n", b"\n", b""):
                return body
        raise ValueError("too many trailers")

    def body(self):
        """Returns the body of the request."""
        lengths, codings = (self.headers.get_all(it, []) for it in ("Content-Length", "Transfer-Encoding"))
        if codings:
            if lengths or [it.strip().lower() for it in codings] != ["chunked"]:
                raise ValueError("a coding of the body that isn't known")
            return self.chunks()
        if len(lengths) > 1 or lengths and not re.fullmatch("[0-9]{1,18}", lengths[0]):
            raise ValueError("lengths of another form")
        length = int(lengths[0]) if lengths else 0
        if length > MOST:
            raise Broken(413, f"a request of more than {MOST} bytes")
        body = self.rfile.read(length)
        if len(body) < length:
            raise ValueError("a body that is cut")
        return body

    def serve(self):
        self.close_connection = True
        try:
            reply = self.answer(self.body())
        except Broken as broken:
            tell("WARN", f"{broken} request={self.command} {self.path.partition('?')[0]}")
            reply = broken.reply
        except ValueError as wrong:
            reply = problem(400, "Bad Request", str(wrong))
        self.connection.settimeout(PATIENCE)
        self.send_response_only(reply.status, reply.phrase)
        for name, it in reply.fields:
            self.send_header(name, it)
        if reply.status not in (204, 304):
            self.send_header("Content-Length", str(len(reply.body)))
        self.send_header("Connection", "close")
        self.end_headers()
        if reply.status not in (204, 304):
            self.wfile.write(reply.body)

    def do_GET(self):
        self.serve()

    do_POST = do_PUT = do_DELETE = do_GET

    def fields(self):
        """Returns what is passed on of the fields of the request."""
        return {name: self.headers[name] for name in ASKED if name in self.headers}

    def log_message(self, *_):
        """Nothing: what is changed is told."""


# What can't be read, or needn't be.
UNREAD = object()


def number_in(query, name, other):
    """Returns the number of that name in a query, or another one where there is none."""
    found = re.search(rf"(?:^|&){name}=([0-9]{{1,10}})(?:&|$)", query)
    return int(found[1]) if found else other


class FromNode(Handler):
    """Takes requests of the node, and passes them on to the utility."""

    def answer(self, body):
        it = self.server.adapter
        path, _, query = self.path.partition("?")
        kind = re.fullmatch(r"/(programs|events)(/[^/]+)?", path[len(it.utility.path) :])
        if not path.startswith(f"{it.utility.path}/"):
            self.told("not below the path of the utility's address: passed on as it is")
            kind = None
        if (it.rules.report_as or it.rules.lives) and self.command in ("POST", "PUT"):
            of_reports = f"{it.utility.path}/reports"
            if path == of_reports or path.startswith(f"{of_reports}/"):
                return self.report(body)
        if not kind or self.command != "GET":
            return self.ask(self.path, body)
        if kind[2]:
            return self.one(kind[2][1:], query)
        return self.page(path, query)

    def asks(self):
        """Returns the fields with which the utility is asked."""
        it = self.server.adapter
        return {**self.fields(), **({"Authorization": f"Bearer {it.token}"} if it.token else {})}

    def ask(self, target, body=b"", method=None):
        if not target.startswith("/") or not target.isascii():
            raise ValueError("a target of another form")
        return self.server.adapter.utility.ask(method or self.command, target, self.asks(), body, self.until)

    def report(self, body):
        """Passes on a sum as the report of one resource, or keeps it for later; any other report as it is."""
        it = self.server.adapter
        try:
            value = value_of(body)
            event = it.rules.sum(value, self.told if not it.sums.every else lambda _: None)
            if event or it.rules.renamed(value):
                body = bytes_of(value)
        except (ValueError, RecursionError):
            self.told("not read: passed on as it is")
            return self.ask(self.path, body)
        if event and it.sums.every:
            it.sums.keep(event)
            return Reply(200, "OK", [("Content-Type", "application/json")], b"{}")
        return (event and it.sums.send(value, body, self.asks(), self.until)) or self.ask(self.path, body)

    def one(self, ident, query):
        """Returns one object by its id."""
        rules = self.server.adapter.rules
        path = self.path.partition("?")[0]
        there = f"{path[:-len(ident)]}{rules.above(ident)}"
        reply = self.ask(f"{there}?{query}" if query else there)
        value = self.value_in(reply)
        values = [value]
        if rules.objects(values, self.told):
            [value] = values
            reply.becomes(value)
        if value is NO_OBJECT:
            return reply
        if there != path and isinstance(value, dict) and value.get("id") != ident:
            self.told("lives: it came to be at another time")
            return problem(404, "Not Found", "it came to be at another time")
        return reply

    def page(self, path, query):
        """Returns a page of a listing."""
        rules = self.server.adapter.rules
        skip, limit = number_in(query, "skip", 0), number_in(query, "limit", 50)

        def asked(query, told):
            query = rules.query(query, told)
            return self.ask(f"{path}?{query}" if query else path)

        reply = asked(query, self.told)
        value = self.value_in(reply)
        if rules.end_of_list and reply.status == 404 and skip:
            quiet = lambda _: None
            first = asked(re.sub(r"(^|&)skip=[^&]*", r"\1skip=0", query), quiet)
            if isinstance(rules.listing(self.value_in(first), 0, limit, quiet)[0], list):
                self.told(f"endOfList: 404 is an empty list skip={skip}")
                reply.becomes([])
        elif rules.end_of_list and reply.status == 204:
            self.told(f"endOfList: 204 is an empty list skip={skip}")
            reply.becomes([])
        elif value is not UNREAD:
            value, is_changed = rules.listing(value, skip, limit, self.told)
            if is_changed:
                reply.becomes(value)
        return reply

    def value_in(self, reply):
        """Returns the value in a reply of 200, where it can be read and a rule may change it."""
        if reply.status != 200 or not self.server.adapter.is_reading:
            return UNREAD
        try:
            return value_of(reply.body)
        except (ValueError, RecursionError):
            self.told("not read: passed on as it is")
            return UNREAD

    def serve(self):
        self.until = time.monotonic() + self.server.adapter.seconds
        super().serve()


class FromUtility(Handler):
    """Takes notifications of the utility, and passes them on to the node."""

    def answer(self, body):
        it = self.server.adapter
        if (self.command, self.path) != ("POST", "/notifications"):
            return problem(404, "Not Found", "notifications alone are taken here")
        try:
            value = value_of(body)
            if it.rules.notification(value, self.told):
                body = bytes_of(value)
            if isinstance(value, dict) and value.get("object") is NO_OBJECT:
                return Reply(200, "OK", [("Content-Type", "application/json")], b"{}")
        except (ValueError, RecursionError):
            self.told("not read: passed on as it is")
        until = time.monotonic() + ARRIVAL
        return it.node.ask("POST", f"{it.node.path}/notifications", self.fields(), body, until)


class Unlisted(Exception):
    """The utility has no list of such objects, or doesn't take one."""

    def __init__(self, why, status=200):
        super().__init__(why)
        self.status = status


class Sums:
    """What the utility is sent of a node's sums, as reports of one resource."""

    def __init__(self, adapter, config):
        # The ids of the reports up there, by their events'; none while they aren't known.
        self.adapter, self.idents, self.lock = adapter, None, threading.Lock()
        self.every, self.token = config.get("sumsEvery"), config.get("nodeToken")
        # The events of which a sum is to be sent, by the ids that the node has.
        self.kept, self.guard = {}, threading.Lock()

    def send(self, value, body, fields, until):
        """Sends a report; returns the reply, or nothing where the utility lists no reports."""
        # One at a time: else of two sums on an event the former may be the last that comes up there.
        if not self.lock.acquire(timeout=max(until - time.monotonic(), 0)):
            raise Broken(504, "an earlier sum is still being sent")
        idents, self.idents = self.idents, None
        try:
            if idents is None:
                idents = self.there(value["clientName"], fields, until)
            if idents is None:
                return None
            reply = self.replace(value["eventID"], body, idents, fields, until)
            if 200 <= reply.status < 300:
                self.idents = idents
            return reply
        finally:
            self.lock.release()

    def there(self, client, fields, until):
        """Returns the ids of the resource's reports up there, by their events'; nothing where none are listed."""
        it = self.adapter
        of_resource = lambda report: report["resources"][0]["resourceName"] == it.rules.report_as
        try:
            found = it.all_of("/reports", client, fields, until)
            idents = {report["eventID"]: report["id"] for report in found if of_resource(report)}
        except Unlisted as wrong:
            if wrong.status not in UNLISTED:
                raise Broken(502, f"no list of reports: {wrong}") from wrong
            tell("WARN", f"reportAs: no list of reports: {wrong}: the node's own ids are passed on")
            return None
        except (KeyError, IndexError, TypeError):
            tell("WARN", "reportAs: reports of another form: the node's own ids are passed on")
            return None
        tell("INFO", f"reportAs: reports that are there: {len(idents)}")
        return idents

    def replace(self, event, body, idents, fields, until):
        """Puts a report in place of that on its event, where one is there, and else as a new one."""
        ask = self.adapter.utility.ask
        reports = f"{self.adapter.utility.path}/reports"
        if event in idents:
            reply = ask("PUT", f"{reports}/{urllib.parse.quote(idents[event], '')}", fields, body, until)
            if reply.status != 404:
                return reply
            del idents[event]
        reply = ask("POST", reports, fields, body, until)
        if reply.status == 404:
            tell("WARN", f"reportAs: the event isn't shown up there any more: the sum is dropped event={event}")
            return Reply(200, "OK", [("Content-Type", "application/json")], b"{}")
        try:
            made = value_of(reply.body) if 200 <= reply.status < 300 else {}
            if type(made["id"]) is str:
                idents[event] = made["id"]
        except (ValueError, RecursionError, KeyError, TypeError):
            pass  # what it is called is asked for another time
        return reply

    # ---- sums that are kept for a while, where `sumsEvery` is on

    def keep(self, event):
        """From now on a sum of an event is to be sent."""
        with self.guard:
            self.kept[event] = None

    def keep_all(self):
        """So is one of each event up there: which were kept before a start nobody knows."""
        it = self.adapter
        until = time.monotonic() + it.seconds
        found = it.all_of("/events", None, it.own_fields(), until)
        it.rules.objects(found, lambda _: None)
        for event in found:
            if event is not NO_OBJECT:
                self.keep(event["id"])

    def look(self):
        """Sends the present sum of each event that is kept; those that can't be sent now stay."""
        with self.guard:
            kept, self.kept = self.kept, {}
        for event in kept:
            try:
                self.tell_above(event)
            except (Broken, Unlisted, ValueError, KeyError, TypeError, RecursionError) as wrong:
                self.keep(event)
                tell("WARN", f"sumsEvery: not sent: {wrong or type(wrong).__name__} event={event}")

    def tell_above(self, event):
        """Sends the sum that the node has now of an event, if it has one."""
        it = self.adapter
        until = time.monotonic() + it.seconds
        fields = {"Accept": "application/json", "Authorization": f"Bearer {self.token}"}
        reply = it.node.ask("GET", f"{it.node.path}/rollups/{urllib.parse.quote(event, '')}", fields, b"", until)
        if reply.status == 404:
            return
        if reply.status != 200:
            raise Unlisted(f"the node answers {reply.status}")
        whole = value_of(reply.body)
        value = {name: whole[name] for name in ("clientName", "eventID", "programID", "resources")}
        if not it.rules.sum(value, lambda what: tell("INFO", what)):
            raise Unlisted("the node's sum is of another form")
        fields = {**it.own_fields(), "Content-Type": "application/json"}
        reply = self.send(value, bytes_of(value), fields, until)
        if reply is None or not 200 <= reply.status < 300:
            raise Unlisted(f"the utility answers {reply.status}" if reply else "the utility lists no reports")

    def run(self):
        is_begun = False
        while True:
            try:
                if not is_begun:
                    self.keep_all()
                    is_begun = True
            except (Broken, Unlisted) as wrong:
                tell("WARN", f"sumsEvery: no list of events: {wrong}")
            self.look()
            time.sleep(self.every)


class Subscriber:
    """Has the utility tell of programs and events."""

    def __init__(self, adapter, config):
        self.adapter, self.client = adapter, config.get("clientName", "adapter")
        self.url, self.token = config["callbackUrl"], config["callbackToken"]

    def ask(self, method, target, value):
        """Asks the utility, which has to take it."""
        it = self.adapter
        fields = {**it.own_fields(), "Content-Type": "application/json"}
        until = time.monotonic() + it.seconds
        reply = it.utility.ask(method, f"{it.utility.path}{target}", fields, json.dumps(value).encode(), until)
        if not 200 <= reply.status < 300:
            raise Unlisted(f"{method} {target} is answered {reply.status}")

    def look(self, is_first):
        """Has the subscription be there. At the first time it is put anew: nobody shows which token it has."""
        it = self.adapter
        hook = {"objects": ["PROGRAM", "EVENT"], "operations": ["POST", "PUT", "DELETE"], "callbackUrl": self.url}
        value = {"clientName": self.client, "objectOperations": [{**hook, "bearerToken": self.token}]}
        found = it.all_of("/subscriptions", self.client, it.own_fields(), time.monotonic() + it.seconds)
        own = [one["id"] for one in found if one.get("clientName") == self.client]
        if own and not is_first:
            return
        if own:
            self.ask("PUT", f"/subscriptions/{urllib.parse.quote(own[0], '')}", value)
        else:
            self.ask("POST", "/subscriptions", value)
        tell("INFO", f"callbackUrl: subscribed to programs and events {'again' if own else 'anew'}")

    def run(self):
        is_first, failures = True, 0
        while True:
            try:
                self.look(is_first)
                is_first, failures = False, 0
            except (Broken, Unlisted) as wrong:
                failures += 1
                tell("WARN", f"callbackUrl: not subscribed: {wrong}")
            time.sleep(min(LOOK, 2 ** (failures - 1)) if failures else LOOK)


class Listener(ThreadingHTTPServer):
    """Serves so many requests at once."""

    daemon_threads = True
    request_queue_size = 64

    def __init__(self, at, handler, adapter):
        host, _, port = at.rpartition(":")
        self.address_family = socket.AF_INET6 if ":" in host else socket.AF_INET
        self.adapter, self.free = adapter, threading.BoundedSemaphore(AT_ONCE)
        super().__init__((host.strip("[]"), int(port)), handler)

    def process_request(self, request, client_address):
        self.free.acquire()
        super().process_request(request, client_address)

    def process_request_thread(self, request, client_address):
        try:
            super().process_request_thread(request, client_address)
        finally:
            self.free.release()

    def server_bind(self):
        """Binds without a look at names of hosts."""
        self.socket.setsockopt(socket.SOL_SOCKET, socket.SO_REUSEADDR, 1)
        self.socket.bind(self.server_address)
        self.server_address = self.socket.getsockname()
        self.server_name, self.server_port = self.server_address[:2]

    def handle_error(self, *_):
        """Nothing: whoever breaks off gets no reply."""


# ---- the configuration


class BadConfiguration(Exception):
    """The configuration is no such one."""


def is_switch(value):
    return isinstance(value, bool)


def is_text(value):
    return isinstance(value, str) and 0 < len(value) <= 1024 and value.isprintable()


def is_name(value):
    return is_text(value) and len(value.encode()) <= 128


def is_token(value):
    return isinstance(value, str) and bool(re.fullmatch("[!-~]{1,1024}", value))


def is_place(value):
    """Whether a text is an address of loopback, a colon and a port."""
    parts = re.fullmatch(r"(\d+\.\d+\.\d+\.\d+|\[[0-9a-f:]+\]):([0-9]{1,5})", str(value))
    try:
        return bool(parts) and int(parts[2]) < 65536 and ipaddress.ip_address(parts[1].strip("[]")).is_loopback
    except ValueError:
        return False


def is_address(value):
    try:
        parts = urllib.parse.urlsplit(value) if is_text(value) and value.isascii() else None
        is_http = parts and parts.scheme in ("http", "https") and parts.hostname and not parts.username
        return bool(is_http and parts.port != 0)
    except ValueError:
        return False


def is_seconds(value):
    return isinstance(value, (int, float)) and not isinstance(value, bool) and 0.1 <= value <= 3.5


def is_rest(value):
    return isinstance(value, (int, float)) and not isinstance(value, bool) and 0.1 <= value <= 60


def is_targets(value):
    """Whether a value is a query for targets, or a list of names."""
    if isinstance(value, list):
        return bool(value) and all(map(is_name, value))
    if not isinstance(value, dict) or set(value) != {"targetType", "targetValues"}:
        return False
    values = value["targetValues"]
    return is_text(value["targetType"]) and isinstance(values, list) and bool(values) and all(map(is_text, values))


def is_own(value):
    """Whether a value is names by the types of their targets."""
    if not isinstance(value, dict) or not value or not set(value) <= {"VEN_NAME", "RESOURCE_NAME"}:
        return False
    return all(map(is_name, value.values()))


FORMS = {
    "listen": (is_place, "an address of loopback, a colon and a port"),
    "utility": (is_address, "an address that begins with http:// or https://, without a user"),
    "utilityToken": (is_token, "1 to 1024 characters from ! to ~"),
    "listenForUtility": (is_place, "an address of loopback, a colon and a port"),
    "node": (is_address, "an address that begins with http:// or https://, without a user"),
    "seconds": (is_seconds, "a number from 0.1 to 3.5"),
    "wholeNumbers": (is_switch, "true or false"),
    "listMember": (is_text, "a name"),
    "pages": (is_switch, "true or false"),
    "endOfList": (is_switch, "true or false"),
    "textTargets": (is_text, "a type of targets"),
    "operations": (is_switch, "true or false"),
    "ownTargets": (is_targets, "an object of targetType and targetValues, a list of texts, or a list of names"),
    "stripTargets": (is_own, "an object of VEN_NAME or RESOURCE_NAME or both, each a name"),
    "reportAs": (is_name, "a name of 1 to 128 bytes"),
    "callbackUrl": (is_address, "an address that begins with http:// or https://, without a user"),
    "callbackToken": (is_token, "1 to 1024 characters from ! to ~"),
    "clientName": (is_name, "a name of 1 to 128 bytes"),
    "lives": (is_switch, "true or false"),
    "sumsEvery": (is_rest, "a number of seconds from 0.1 to 60"),
    "nodeToken": (is_token, "1 to 1024 characters from ! to ~"),
}
SWITCHES = ("wholeNumbers", "listMember", "pages", "endOfList", "textTargets", "operations", "ownTargets")
SWITCHES += ("stripTargets", "reportAs", "callbackUrl", "lives", "sumsEvery")
# Those by which a page or an object is changed.
READING = tuple(it for it in SWITCHES if it not in ("reportAs", "callbackUrl", "sumsEvery"))


def configuration(path):
    """Returns the configuration in a file."""
    try:
        with open(path, encoding="utf-8") as it:
            read = json.load(it)
    except (OSError, ValueError) as wrong:
        raise BadConfiguration(wrong) from wrong
    if not isinstance(read, dict):
        raise BadConfiguration("no JSON object")
    config = {name: it for name, it in read.items() if it is not None and not (it is False and name in SWITCHES)}
    for name, value in config.items():
        if name not in FORMS:
            raise BadConfiguration(f"{name}: not a known member")
        is_good, form = FORMS[name]
        if not is_good(value):
            raise BadConfiguration(f"{name}: not {form}")
    for name in ("listen", "utility"):
        if name not in config:
            raise BadConfiguration(f"{name}: missing")
    if ("node" in config) != ("listenForUtility" in config):
        raise BadConfiguration("node and listenForUtility: one without the other")
    if ("callbackUrl" in config) != ("callbackToken" in config):
        raise BadConfiguration("callbackUrl and callbackToken: one without the other")
    if "callbackUrl" in config and not ("node" in config and "utilityToken" in config):
        raise BadConfiguration("callbackUrl: needs node, listenForUtility and utilityToken")
    if "sumsEvery" in config and not all(it in config for it in ("node", "nodeToken", "utilityToken", "reportAs")):
        raise BadConfiguration("sumsEvery: needs reportAs, node, nodeToken and utilityToken")
    return config


class Adapter:
    """The two sides, and the rules between them."""

    def __init__(self, config):
        self.rules, self.token = Rules(config), config.get("utilityToken")
        self.is_reading = any(it in config for it in READING)
        self.sums = Sums(self, config)
        self.seconds = config.get("seconds", 3.5)
        self.utility = Server(config["utility"])
        self.sides = [Listener(config["listen"], FromNode, self)]
        if "node" in config:
            self.node = Server(config["node"])
            self.sides.append(Listener(config["listenForUtility"], FromUtility, self))
        self.subscriber = Subscriber(self, config) if "callbackUrl" in config else None
        on = " ".join(it for it in SWITCHES if it in config)
        places = " ".join("{}:{}".format(*it.server_address[:2]) for it in self.sides)
        tell("INFO", f"listening at={places} on={on or 'none'}")

    def own_fields(self):
        """Returns the fields with which the adapter asks the utility for itself."""
        return {"Accept": "application/json", "Authorization": f"Bearer {self.token}"}

    def all_of(self, path, client, fields, until):
        """Returns what a listing up there has, of a client or in all, page by page; `Unlisted` where it is none."""
        found, more = {}, True
        while more:
            parts = [f"clientName={urllib.parse.quote(client, '')}"] if client else []
            parts += [] if self.rules.pages else [f"skip={len(found)}", f"limit={PAGE}"]
            parts += [self.rules.own_query] if self.rules.own_query and not client else []
            reply = self.utility.ask("GET", f"{self.utility.path}{path}?{'&'.join(parts)}", fields, b"", until)
            try:
                value = value_of(reply.body) if reply.status == 200 else None
            except (ValueError, RecursionError) as wrong:
                raise Unlisted(f"GET {path} can't be read") from wrong
            if self.rules.list_member and isinstance(value, dict):
                value = value.get(self.rules.list_member)
            if value is None and self.rules.end_of_list and (found or reply.status in (200, 204)):
                value = []
            has_id = lambda it: isinstance(it, dict) and type(it.get("id")) is str
            if not isinstance(value, list) or not all(map(has_id, value)):
                raise Unlisted(f"GET {path} is answered {reply.status}", reply.status)
            more = {it["id"]: it for it in value if it["id"] not in found}
            found.update(more)
        return list(found.values())

    def run(self):
        for it in self.sides[1:]:
            threading.Thread(target=it.serve_forever, daemon=True).start()
        if self.subscriber:
            threading.Thread(target=self.subscriber.run, daemon=True).start()
        if self.sums.every:
            threading.Thread(target=self.sums.run, daemon=True).start()
        self.sides[0].serve_forever()


def main(words):
    if len(words) != 1:
        print("usage: examples/adapter.py CONFIG.json", file=sys.stderr)
        return 2
    try:
        Adapter(configuration(words[0])).run()
    except BadConfiguration as wrong:
        print(f"examples/adapter.py: bad configuration: {wrong}", file=sys.stderr)
    except OSError as wrong:
        print(f"examples/adapter.py: can't listen: {wrong}", file=sys.stderr)
    except KeyboardInterrupt:
        return 130
    return 1


if __name__ == "__main__":
    sys.exit(main(sys.argv[1:]))
