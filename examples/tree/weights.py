#!/usr/bin/env python3
"""Keeps the shares of nodes right that are below a node: each is the sum of the shares of the node's own resources.

    examples/tree/weights.py CONFIG.json [--once]        as: examples/tree/weights.py /etc/adr_node/weights.json

It reads `/shares` of each node below, and puts their sum as the share of the resource that this node is above, program
by program, as resources come and go and shares change. The configuration is a JSON object:

    {"above": "http://127.0.0.1:8080", "token": "change-me-operator", "every": 5,
     "nodes": [{"node": "http://127.0.0.1:8090", "token": "change-me", "ven": "below-1", "resource": "below-1-sum"}]}

    above, token   the node above, and a token of its operator
    every          seconds between two looks, 5 where it is absent
    programs       the ids of the programs; where it is absent all that the node above has
    divisor        each sum is divided by this, to the nearest whole number from 1 on: one for all nodes, 1 where it is
                   absent. A share is at most 1,000,000: where a sum is more it is left as it was, and told
    nodes          for each node below its address, a token of its operator, and the names of its ven and of its
                   resource up there

A node that doesn't answer keeps the share that it has: so it keeps its part of an order while it is away. One whose
sum is 0 loses its share, and its part goes to the others: so its adapter has to have `lives`, or the orders of that day
never come back to it.

Between a change down there and its sum up there some seconds pass. Meanwhile the parts of an order still sum to it:
they are only in the proportions from before.

It tells each change in a line on standard error. With --once it looks once, and ends with status 0, or with 1 where it
couldn't reach all; else it ends by a signal. Needed: Python 3.8 or later.
"""
import argparse
import json
import os
import re
import sys
import time
from datetime import datetime, timezone

sys.dont_write_bytecode = True
sys.path.insert(0, os.path.dirname(os.path.dirname(os.path.realpath(__file__))))
from sites import site

# The greatest share.
MOST = 1_000_000


def tell(level, what):
    """Tells something in one line, as the node's log does."""
    plain = re.sub(r"[^ -~]", lambda it: f"\\u{{{ord(it[0]):x}}}", what)[:900]
    moment = datetime.now(timezone.utc).isoformat(timespec="milliseconds").replace("+00:00", "Z")
    print(f"[{level:5} weights] {plain} time={moment}", file=sys.stderr, flush=True)


class Unfit(Exception):
    """The node above has no such ven or resource."""


class Below:
    """A node below, and what it is up there."""

    def __init__(self, config):
        self.link = site.Link(config["node"], config["token"], site.Counts())
        self.ven, self.resource, self.ident = config["ven"], config["resource"], None

    def known(self, above):
        """Returns its resource's id up there."""
        if self.ident is None:
            idents = [it["id"] for it in above.all_of("/vens") if it["venName"] == self.ven]
            found = above.all_of(f"/vens/{idents[0]}/resources") if idents else []
            own = [it["id"] for it in found if it["resourceName"] == self.resource]
            if not own:
                raise Unfit(f"there is no ven {self.ven} with a resource {self.resource} above")
            self.ident = own[0]
        return self.ident


class Weights:
    """The shares of nodes below."""

    def __init__(self, config):
        self.above = site.Link(config["above"], config["token"], site.Counts())
        self.nodes = [Below(it) for it in config["nodes"]]
        self.programs, self.divisor = config.get("programs"), config.get("divisor", 1)
        self.every = config.get("every", 5)
        self.told = {}

    def tell(self, about, what):
        """Tells what is amiss, once until it is something else."""
        if self.told.get(about) != what:
            self.told[about] = what
            if what:
                tell("WARN", f"{about}: {what}")

    def look(self):
        """Puts each share that isn't right; returns whether all were reached."""
        try:
            programs = self.programs or [it["id"] for it in self.above.all_of("/programs")]
            shares = {it: self.of(self.above, it) for it in programs}
        except site.Failed as wrong:
            self.tell("above", str(wrong))
            return False
        self.tell("above", None)
        return all([self.put(node, shares) for node in self.nodes])

    @staticmethod
    def of(link, program):
        """Returns the shares of a program, by the ids of their resources."""
        return {it["resourceID"]: it["share"] for it in link.ask("GET", f"/shares/{program}")}

    def put(self, node, shares):
        """Puts the shares of a node that aren't right; returns whether it was reached."""
        try:
            ident = node.known(self.above)
            for program, there in shares.items():
                total = sum(self.of(node.link, program).values())
                wanted = max(1, (total + self.divisor // 2) // self.divisor) if total else 0
                has = there.get(ident, 0)
                if wanted > MOST:
                    self.tell(f"{node.ven} {program}", f"a share of {wanted}, above {MOST}: raise the divisor")
                elif wanted != has:
                    self.above.ask("PUT", f"/shares/{program}/{ident}", {"share": wanted})
                    tell("INFO", f"share ven={node.ven} program={program} resource={ident} is={wanted} was={has}")
        except (site.Failed, Unfit) as wrong:
            node.ident = None
            self.tell(node.ven, str(wrong))
            return False
        self.tell(node.ven, None)
        return True

    def run(self):
        while True:
            self.look()
            time.sleep(self.every)


def main():
    it = argparse.ArgumentParser(description="Keeps the shares of nodes below a node right.")
    it.add_argument("config")
    it.add_argument("--once", action="store_true")
    asked = it.parse_args()
    try:
        with open(asked.config, encoding="utf-8") as file:
            weights = Weights(json.load(file))
    except (OSError, ValueError, KeyError, TypeError, AttributeError) as wrong:
        print(f"examples/tree/weights.py: bad configuration: {type(wrong).__name__}: {wrong}", file=sys.stderr)
        return 1
    if asked.once:
        return 0 if weights.look() else 1
    try:
        weights.run()
    except KeyboardInterrupt:
        return 130
    return 0


if __name__ == "__main__":
    sys.exit(main())
