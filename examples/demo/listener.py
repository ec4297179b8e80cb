#!/usr/bin/env python3
"""A small stand-in for whoever is notified: it takes each POST, and can be told to fail some first.

By itself:   python3 listener.py PORT [FAILURES]
prints each notification; of each path it answers the first FAILURES with 503 (none where it is not said).
"""
import json
import sys
import threading
import time

sys.dont_write_bytecode = True
from web import Server


class Listener:
    def __init__(self):
        self.lock = threading.Lock()
        self.failures = {}  # by path: how many are still to fail
        self.seen = []  # (seconds, path, token, status, value) of each notification

    def fail(self, path, times):
        """Has the next ones at a path fail."""
        with self.lock:
            self.failures[path] = times

    def at(self, path):
        """The seconds, tokens, statuses and values of the notifications at a path."""
        with self.lock:
            return [(when, token, status, value) for when, there, token, status, value in self.seen if there == path]

    def answer(self, method, target, token, body):
        if method != "POST":
            return 405, {"status": 405, "title": "Method Not Allowed"}
        with self.lock:
            left = self.left(target)
            self.failures[target] = max(left - 1, 0)
            status = 503 if left else 200
            self.seen.append((time.monotonic(), target, token, status, json.loads(body)))
        self.show(target, status, body)
        return status, {}

    def left(self, path):
        return self.failures.get(path, 0)

    def show(self, target, status, body):
        pass


class PrintingListener(Listener):
    def __init__(self, times):
        super().__init__()
        self.times = times

    def left(self, path):
        return self.failures.get(path, self.times)

    def show(self, target, status, body):
        print(target, status, body.decode("utf-8", "replace"), flush=True)


def main(arguments):
    if len(arguments) not in (1, 2):
        print("usage: listener.py PORT [FAILURES]", file=sys.stderr)
        return 2
    listener = PrintingListener(int(arguments[1]) if len(arguments) == 2 else 0)
    Server(int(arguments[0]), listener.answer).run()
    return 0


if __name__ == "__main__":
    sys.exit(main(sys.argv[1:]))
