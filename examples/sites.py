#!/usr/bin/env python3
"""Many sites of a node at once, a few of which fail, for a trial.

    examples/sites.py --config-for N >tokens.json       prints the `tokens` to put into the node's configuration
    examples/sites.py URL --many N --tokens tokens.json [--operator-token T] [--program p1] [--seconds 30]

It enrols N vens, `site-1` and so on, each with a resource and a share in the program, and runs N sites of
examples/site.py for so long. What is enrolled already stays, also a share. --tokens is what --config-for printed, or
the node's whole configuration; its operator enrols, or the one of --operator-token. Over a new file the node gives the
vens the ids v1 to vN, and so they stand in `tokens`; where it has drawn numbers before, say by --first which it draws
next.

Of the sites some fail, --failing of each of these kinds:

    silent      doesn't answer the notifications that it gets
    slow        sends all that it asks a few bytes at a time
    breaking    breaks off each fifth of its requests in the midst

    --resources N       how many resources each ven has: `site-1-a`, `site-1-b` and so on; at most 26
    --shares N          shares are from 1 to N, in turn; 1 where it isn't said
    --tell              prints a line, with its moment, for what each site is told, does and fails at
    --ca FILE           the certificates that the node's front is held against, in place of the system's
    --listen PORT       where notifications come, on 127.0.0.1; where it isn't said, at a free port
    --callback URL      how the node finds that, where it is not http://127.0.0.1:PORT: its front may lead there
    --cert, --key FILE  the certificate for notifications, and its key: they come by TLS then

At its end it prints what all sites counted. Tokens of --config-for are random: no two runs have one in common.
"""
import argparse
import importlib.util
import itertools
import json
import os
import secrets
import string
import sys
import threading
import time

sys.dont_write_bytecode = True
# (Python has a module `site` of its own, so that this one goes by another name)
HERE = os.path.dirname(os.path.realpath(__file__))
SOURCE = importlib.util.spec_from_file_location("site_of_a_node", f"{HERE}/site.py")
site = importlib.util.module_from_spec(SOURCE)
SOURCE.loader.exec_module(site)

# How many bytes a slow site sends at once, and how long it rests behind them.
PIECE, REST = 40, 0.1
# For how long a silent site holds who tells it something: longer than the node waits.
SILENCE = 6
# How long lies between the starts of two sites, in seconds: all at once would be more than the node's queue takes.
APART = 0.005


def tokens(many, first):
    """Returns tokens for so many sites, an operator and a utility."""
    new = lambda role, **more: {"token": secrets.token_urlsafe(32), "role": role, **more}
    return [new("operator"), new("utility"), *(new("ven", venID=f"v{first + it}") for it in range(many))]


# ---- sites that fail


class Slow(site.Link):
    """A link that sends a few bytes at a time."""

    def connection(self):
        link = super().connection()
        send = link.send

        def slowly(data):
            for at in range(0, len(data), PIECE):
                send(data[at:at + PIECE])
                time.sleep(REST)

        link.send = slowly
        return link


class Breaking(site.Link):
    """A link that breaks off in the midst, each fifth time."""

    times = 0

    def connection(self):
        link = super().connection()
        send = link.send

        def half(data):
            send(data[:len(data) // 2])
            link.close()
            raise site.BrokeOff("broke off on purpose")

        self.times += 1
        if self.times % 5 == 0:
            link.send = half
        return link


class Silent(site.Site):
    """A site that doesn't answer who tells it something."""

    def takes(self, body):
        super().takes(body)
        self.is_over.wait(SILENCE)
        return None


KINDS = {
    "silent": (site.Link, Silent),
    "slow": (Slow, site.Site),
    "breaking": (Breaking, site.Site),
}


# ---- enrolment


def patiently(link, *what):
    """Asks, and again where the front says that this is too often."""
    while True:
        try:
            return link.ask(*what)
        except site.Failed as wrong:
            if wrong.status != 429:
                raise
            time.sleep(1)


def enrolled(operator, many, program, resources=1, shares=1):
    """Enrols so many vens, each with so many resources, with shares up to the greatest; returns the ids of the vens."""
    there = {it["venName"]: it["id"] for it in operator.all_of("/vens")}
    names = [f"site-{it + 1}" for it in range(many)]
    # All vens first, so that their ids are in the order of their names.
    idents = [there.get(it) or patiently(operator, "POST", "/vens", {"venName": it})["id"] for it in names]
    has_share = {it["resourceID"] for it in patiently(operator, "GET", f"/shares/{program}")}
    turn = itertools.cycle(range(1, shares + 1))
    for name, ident in zip(names, idents):
        own = patiently(operator, "GET", f"/vens/{ident}/resources") if name in there else []
        for letter in string.ascii_lowercase[len(own):resources]:
            own.append(patiently(operator, "POST", f"/vens/{ident}/resources", {"resourceName": f"{name}-{letter}"}))
        for it, share in zip(own[:resources], turn):
            if it["id"] not in has_share:
                patiently(operator, "PUT", f"/shares/{program}/{it['id']}", {"share": share})
    return idents


# ---- all of it


def words():
    it = argparse.ArgumentParser(description="Many sites of a node at once.")
    it.add_argument("url", nargs="?")
    it.add_argument("--config-for", type=int, metavar="N", help="print the tokens for N sites, and end")
    it.add_argument("--first", type=int, default=1, metavar="M", help="the number of the first ven")
    it.add_argument("--many", type=int, metavar="N", help="how many sites")
    it.add_argument("--tokens", metavar="FILE")
    it.add_argument("--operator-token", metavar="T")
    it.add_argument("--program", default="p1", help="in which they have a share")
    it.add_argument("--failing", type=int, default=1, metavar="N", help="how many sites of each kind fail")
    it.add_argument("--resources", type=int, default=1, choices=range(1, 27), metavar="N")
    it.add_argument("--shares", type=int, default=1, metavar="N")
    it.add_argument("--tell", action="store_true")
    it.add_argument("--every", type=float, default=10, help="seconds between two looks of a site for all events")
    it.add_argument("--seconds", type=float, default=30)
    it.add_argument("--ca")
    it.add_argument("--listen", type=int, default=0, metavar="PORT")
    it.add_argument("--callback", metavar="URL")
    it.add_argument("--cert")
    it.add_argument("--key")
    asked = it.parse_args()
    if asked.cert and not asked.callback:
        it.error("the node speaks no TLS: with --cert say by --callback which way leads here")
    if asked.config_for is None and not (asked.url and asked.many and asked.tokens):
        it.error("either --config-for N, or URL, --many N and --tokens FILE")
    return asked


def telling(ident):
    """Returns what prints a line of a site, whole, with its moment in seconds since 1970."""
    return lambda text: sys.stdout.write(f"{time.time():.3f} {ident} {text}\n") and sys.stdout.flush()


def run(asked):
    """Runs the sites; returns what they counted."""
    with open(asked.tokens, encoding="utf-8") as it:
        known = json.load(it)
    known = known["tokens"] if isinstance(known, dict) else known
    token_of = {it["venID"]: it["token"] for it in known if it["role"] == "ven"}
    operators = [it["token"] for it in known if it["role"] == "operator"]
    if not (asked.operator_token or operators):
        raise ValueError("no token of an operator: say --operator-token")
    operator = site.Link(asked.url, asked.operator_token or operators[0], site.Counts(), asked.ca)
    idents = enrolled(operator, asked.many, asked.program, asked.resources, asked.shares)
    if missing := [it for it in idents if it not in token_of]:
        raise ValueError(f"{asked.tokens} has no token for {' '.join(missing)}: print it with --first {idents[0][1:]}")

    counts, sites, kinds = site.Counts(), {}, [it for it in KINDS for _ in range(asked.failing)]
    listener = site.Listener(("127.0.0.1", asked.listen), sites, asked.cert, asked.key)
    base = (asked.callback or f"http://127.0.0.1:{listener.server_address[1]}").rstrip("/")
    # The last ones fail.
    for ident, kind in zip(idents, [None] * (asked.many - len(kinds)) + kinds[-asked.many:]):
        link, of = KINDS.get(kind, (site.Link, site.Site))
        link = link(asked.url, token_of[ident], counts, asked.ca)
        tell = [telling(ident)] if asked.tell else []
        sites[f"/{ident}"] = of(link, f"client-{ident}", f"{base}/{ident}", asked.every, *tell)
    print(f"sites {len(sites)}, {asked.failing} of each of {', '.join(KINDS)}", flush=True)
    threads = [threading.Thread(target=it.run, daemon=True) for it in sites.values()]
    for it in threads:
        it.start()
        time.sleep(APART)
    print(f"sites started {len(threads)}", flush=True)
    site.lasts(asked.seconds)
    for it in sites.values():
        it.stop()
    for it in threads:
        it.join(5)
    return counts


def main():
    asked = words()
    if asked.config_for is not None:
        print(json.dumps(tokens(asked.config_for, asked.first), indent=2))
        return 0
    try:
        print("\n".join(run(asked).told()))
    except (OSError, ValueError, site.Failed) as wrong:
        print(f"examples/sites.py: {wrong}", file=sys.stderr)
        return 1
    return 0


if __name__ == "__main__":
    sys.exit(main())
