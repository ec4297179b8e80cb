#!/usr/bin/env python3
"""A small stand-in for the utility's server (the VTN of OpenADR 3.0).

It serves below /openadr3 what the node asks of a utility: GET of /programs and /events with `skip` and `limit`, GET of
one of them by its id, POST of /reports and PUT of /reports/ID. Whoever does not show the token gets 401.

By itself:   python3 utility.py PORT FILE [TOKEN]
serves the objects of a JSON file, {"programs": [..], "events": [..]}, and prints each request. The file is read again at
each request, so who edits it changes what the utility has.
"""
import json
import sys
import threading
from urllib.parse import parse_qs, urlsplit

sys.dont_write_bytecode = True
from web import Server

BASE = "/openadr3"


def problem(status, title):
    return status, {"status": status, "title": title}


class Utility:
    def __init__(self, token, objects=None):
        self.token = token
        self.lock = threading.Lock()
        self.objects = objects or {"programs": [], "events": []}
        self.reports = {}
        self.seen = []  # (method, target, status, body) of each request

    def held(self):
        """The programs and events that there are."""
        return self.objects

    def put(self, kind, value):
        """Publishes an object, or a newer version of it."""
        with self.lock:
            others = [o for o in self.objects[kind] if o["id"] != value["id"]]
            self.objects[kind] = others + [value]

    def remove(self, kind, ident):
        with self.lock:
            self.objects[kind] = [o for o in self.objects[kind] if o["id"] != ident]

    def requests(self, method, prefix):
        """The targets, statuses and bodies of the requests of that method whose target begins so."""
        with self.lock:
            return [(t, s, b) for m, t, s, b in self.seen if m == method and t.startswith(prefix)]

    def answer(self, method, target, token, body):
        with self.lock:
            try:
                status, value = self.reply(method, target, token, body)
            except ValueError:
                status, value = problem(400, "Bad Request")
            self.seen.append((method, target, status, body))
        self.show(method, target, status, body)
        return status, value

    def show(self, method, target, status, body):
        pass

    def reply(self, method, target, token, body):
        if token != self.token:
            return problem(401, "Unauthorized")
        parts = urlsplit(target)
        if not parts.path.startswith(BASE + "/"):
            return problem(404, "Not Found")
        kind, _, ident = parts.path[len(BASE) + 1:].partition("/")
        if kind == "reports":
            return self.report(method, ident, body)
        if method != "GET" or kind not in ("programs", "events"):
            return problem(404, "Not Found")
        if ident:
            found = [o for o in self.held()[kind] if o["id"] == ident]
            return (200, found[0]) if found else problem(404, "Not Found")
        query = parse_qs(parts.query)
        skip = int(query.get("skip", ["0"])[0])
        limit = int(query.get("limit", ["50"])[0])
        return 200, self.held()[kind][skip:skip + limit]

    def report(self, method, ident, body):
        value = json.loads(body)
        if method == "POST" and not ident:
            ident = "u%d" % (len(self.reports) + 1)
            self.reports[ident] = value
            return 201, {"id": ident, "objectType": "REPORT", **value}
        if method == "PUT" and ident in self.reports:
            self.reports[ident] = value
            return 200, {"id": ident, "objectType": "REPORT", **value}
        return problem(404, "Not Found")


class FileUtility(Utility):
    """A utility whose objects stand in a file."""

    def __init__(self, token, path):
        super().__init__(token)
        self.path = path

    def held(self):
        with open(self.path, encoding="utf-8") as file:
            return json.load(file)

    def show(self, method, target, status, body):
        print(method, target, status, body.decode("utf-8", "replace"), flush=True)


def main(arguments):
    if len(arguments) not in (2, 3):
        print("usage: utility.py PORT FILE [TOKEN]", file=sys.stderr)
        return 2
    utility = FileUtility(arguments[2] if len(arguments) == 3 else "change-me-upstream", arguments[1])
    Server(int(arguments[0]), utility.answer).run()
    return 0


if __name__ == "__main__":
    sys.exit(main(sys.argv[1:]))
