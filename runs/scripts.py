"""Scripts for the program: their lines, what the node has by then, and how a run answers them."""
import argparse
import collections
import contextlib
import dataclasses
import datetime
import json
import os
import random
import subprocess
import sys
import tempfile
import time

from findings import Wrong
from repository import TOP

PROGRAM = f"{TOP}/crates/adr_node/out/adr_node"
# How long is waited at most for a reply, in seconds.
PATIENCE = 120
# How much of a line and of its reply is shown where they are wrong.
SHOWN = 300
# The loop of `.ci/run`; its names are global there too, which takes longer than names of a function do.
LOOP = """
import time
begun = time.process_time()
total = 0
for number in range(20000000):
    total += number
print(time.process_time() - begun)"""


class Late(Wrong):
    """A reply takes longer than is waited for it."""


# ---- the lines of a script, and what the node has by then

# The moment of the first line, and that before the first version of the utility's objects.
START = datetime.datetime(2024, 7, 1, 10)
VERSIONS = datetime.datetime(2024, 6, 1, 10)
# After how many seconds a message is tried again that failed once, twice and so on. None fails more often here.
AGAIN = (1, 2, 4, 8, 16, 32, 60)
# How many messages are being sent at once, which is less than there are receivers.
SENDERS = 8


def moment(start, seconds):
    return (start + datetime.timedelta(seconds=seconds)).strftime("%Y-%m-%dT%H:%M:%SZ")


def text(value):
    return json.dumps(value, separators=(",", ":"))


@dataclasses.dataclass
class Ven:
    id: str
    name: str
    resources: list


@dataclasses.dataclass
class Resource:
    id: str
    name: str
    ven: Ven


@dataclasses.dataclass
class Entry:
    """An entry of the outbox: for the utility of what event it has the sum, and for a subscription none."""

    number: int
    receiver: str
    event: str
    leases: int = 0
    due: int = 0
    is_leased: bool = False


class Script:
    """Lines, each with how its reply has to begin. What the node has is followed as far as later lines name it."""

    def __init__(self):
        self.chance = random.Random(1)
        self.lines, self.replies, self.setup = [], [], 0
        self.second = self.version = self.serial = 0
        self.vens, self.resources, self.subscriptions = [], [], []
        self.weights = collections.defaultdict(dict)
        # By the utility's event: of each resource the values reported, by the number of their revision.
        self.usages = collections.defaultdict(lambda: collections.defaultdict(dict))
        self.reports = []
        self.waiting = collections.defaultdict(collections.deque)
        self.summed = set()

    def below(self, number):
        """Returns a whole number from 0. Of a seeded generator Python promises the same sequence of this call alone."""
        return int(self.chance.random() * number)

    def one_of(self, choices):
        return choices[self.below(len(choices))]

    def draw(self):
        """Returns the next number, as the node draws it for ids, revisions and entries."""
        self.serial += 1
        return self.serial

    def say(self, who, words, reply):
        self.lines.append(f"{moment(START, self.second)} {who} {words}")
        self.replies.append(reply)

    def measured(self):
        """From here on lines are measured."""
        self.setup = len(self.lines)
        self.second += 1

    def taken(self):
        """Returns what was said since, and how the replies have to begin."""
        said = self.lines, self.replies
        self.lines, self.replies = [], []
        return said

    # ---- enrolment

    def ven(self):
        ven = Ven(f"v{self.draw()}", f"site-{len(self.vens):04}", [])
        self.vens.append(ven)
        self.say("operator", f"POST /vens {text({'venName': ven.name})}", "201 {")
        return ven

    def resource(self, ven):
        resource = Resource(f"r{self.draw()}", f"unit-{len(self.resources):05}", ven)
        self.resources.append(resource)
        ven.resources.append(resource)
        self.say("operator", f"POST /vens/{ven.id}/resources {text({'resourceName': resource.name})}", "201 {")
        return resource

    def portfolio(self, vens, resources):
        """Enrols vens, and resources of each in turn."""
        for _ in range(vens):
            self.ven()
        for at in range(resources):
            self.resource(self.vens[at % vens])

    def share(self, program, resource):
        """Sets a share to another weight than it had."""
        weight = 1 + self.below(800)
        weight += weight == self.weights[program].get(resource.id)
        self.weights[program][resource.id] = weight
        shown = {"programID": program, "resourceID": resource.id, "share": weight}
        self.say("operator", f"PUT /shares/{program}/{resource.id} {text({'share': weight})}", f"200 {text(shown)}")

    def with_shares(self, vens, resources, *programs):
        """Enrols vens, resources of each in turn, and a share of each resource in each of the programs."""
        self.portfolio(vens, resources)
        for program in programs:
            for it in self.resources:
                self.share(program, it)

    def unshare(self, program, resource):
        self.weights[program].pop(resource.id)
        shown = {"programID": program, "resourceID": resource.id, "share": 0}
        self.say("operator", f"DELETE /shares/{program}/{resource.id}", f"200 {text(shown)}")

    # ---- what the utility has

    def stamp(self):
        """Returns a moment that is later than those of all versions before."""
        self.version += 1
        return moment(VERSIONS, self.version)

    def event(self, name, program, turn, targets=None):
        """Returns a version of an event. While the weights stay, each part is another in each turn: what is split is
        twice the sum of the weights for each turn, and up to once more."""
        total = sum(self.weights[program].values())
        setpoint = (2 * turn + 2) * total + self.below(total)
        return {
            "id": name,
            "modificationDateTime": self.stamp(),
            "programID": program,
            "eventName": "dispatch",
            "priority": 1,
            "intervalPeriod": {"start": "2024-07-01T12:00:00Z", "duration": "PT15M"},
            "intervals": [{"id": 0, "payloads": [{"type": "DISPATCH_SETPOINT", "values": [setpoint]}]}],
            **({"targets": [{"type": "RESOURCE_NAME", "values": targets}]} if targets else {}),
        }

    def page(self, events, changes=""):
        self.say("node", f"page events {text(events)}", f"changes {changes}")

    def program(self, name, turn):
        """Has the utility rename a program, which each subscription is told."""
        value = {"id": name, "modificationDateTime": self.stamp(), "programName": f"name {turn}"}
        self.say("node", f"page programs {text([value])}", "changes 1 skipped 0")
        self.tell(self.subscriptions)

    # ---- reports

    def say_usage(self, who, method, target, event, resource, reply, interval=0):
        """Says what a resource used in an interval, each time another value."""
        revision = self.draw()
        usage = {"id": interval, "payloads": [{"type": "USAGE", "values": [1000 + revision]}]}
        body = {
            "programID": "p1",
            "eventID": f"{resource.id}-{event}",
            "clientName": "site",
            "resources": [{"resourceName": resource.name, "intervals": [usage]}],
        }
        self.say(who, f"{method} {target} {text(body)}", reply)
        return revision

    def who(self, resource):
        """Who asks about a resource: its site, or the operator."""
        return self.one_of(["operator", f"ven:{resource.ven.id}"])

    def report(self, event, resource):
        revision = self.say_usage(self.who(resource), "POST", "/reports", event, resource, "201 {")
        self.reports.append((f"p{revision}", event, resource))
        self.tell_sum(event, resource, f"p{revision}", revision)

    def replace(self, at):
        """Has a report say another value; returns its event."""
        report, event, resource = self.reports[at]
        revision = self.say_usage(self.who(resource), "PUT", f"/reports/{report}", event, resource, "200 {")
        self.tell_sum(event, resource, report, revision)
        return event

    def remove(self, at):
        report, event, resource = self.reports.pop(at)
        self.say(self.who(resource), f"DELETE /reports/{report}", "200 {")
        self.tell_sum(event, resource, report, None)

    def tell_sum(self, event, resource, report, revision):
        """A report of a resource has that revision now, or is gone. Where a roll-up is left, and another value counts
        in it, the utility is told."""
        of_resource = self.usages[event][resource.id]
        before = max(of_resource.values(), default=None)
        if revision:
            of_resource[report] = revision
        else:
            of_resource.pop(report)
        is_left = any(self.usages[event].values())
        if is_left and before != max(of_resource.values(), default=None):
            self.tell(["upstream"], event)

    # ---- the outbox

    def subscribe(self, kind):
        name = f"s{self.draw()}"
        url = f"http://127.0.0.1:{9000 + len(self.subscriptions)}/n"
        hook = {"objects": [kind], "operations": ["POST", "PUT", "DELETE"], "callbackUrl": url}
        self.say("operator", f"POST /subscriptions {text({'clientName': 'ops', 'objectOperations': [hook]})}", "201 {")
        self.subscriptions.append(name)

    def tell(self, receivers, event=""):
        """A change makes an entry for each of these."""
        for it in receivers:
            self.waiting[it].append(Entry(self.draw(), it, event))

    def next_entry(self):
        """Returns what a lease finds now: the least number of the first entries of all receivers that are due."""
        heads = [it[0] for it in self.waiting.values() if it]
        due = [it for it in heads if not it.is_leased and it.due <= self.second]
        return min(due, key=lambda it: it.number, default=None)

    def lease(self):
        """Leases the next entry and returns it, or none where none is due."""
        entry = self.next_entry()
        if entry:
            entry.leases += 1
            entry.is_leased = True
            self.say("node", "lease", f"job {entry.number} {entry.leases} {entry.receiver} ")
        return entry

    def settle(self, entry, is_sent):
        entry.is_leased = False
        if is_sent:
            self.waiting[entry.receiver].popleft()
            # (the utility gives an id to the first sum of an event, which those after it replace)
            given = f" u{entry.number}" if entry.event and entry.event not in self.summed else ""
            self.summed.add(entry.event)
            self.say("node", f"sent {entry.number} {entry.leases}{given}", "done")
        else:
            entry.due = self.second + AGAIN[entry.leases - 1]
            self.say("node", f"failed {entry.number} {entry.leases}", "done")

    def drain(self, fails=0):
        """Sends all that waits. Of that many one fails, where a number is given, and is tried again."""
        sending, settled = collections.deque(), 0
        while sending or any(self.waiting.values()):
            while len(sending) < SENDERS and (entry := self.lease()):
                sending.append(entry)
            if sending:
                settled += 1
                self.settle(sending.popleft(), not fails or settled % fails)
            if not sending or not settled % 100:
                self.second += 1


# ---- runs


def is_over(process):
    """Whether a process has ended; what the system tells of it can still be asked for."""
    return os.waitid(os.P_PID, process.pid, os.WEXITED | os.WNOHANG | os.WNOWAIT) is not None


def hear(process, said, count, patience=PATIENCE):
    """Reads replies until there are so many, or the program is over: each is written as soon as it is there. None may take
    longer than so many seconds."""
    pieces, lines, is_last = [], 0, False
    until = time.monotonic() + patience
    while lines < count and not is_last:
        is_last = is_over(process)
        piece = said.read()
        pieces.append(piece)
        lines += piece.count(b"\n")
        if piece:
            until = time.monotonic() + patience
        elif time.monotonic() > until:
            raise Late(f"there is no reply to line {lines + 1} within {patience:.0f} s")
        else:
            time.sleep(0.01)
    return b"".join(pieces).decode("latin-1").split("\n")[:-1]


def most_memory(process):
    """Returns the most memory that a running process had so far, in MB. What the system tells of one that is over
    counts what this script had too, since the process began as a copy of it."""
    with open(f"/proc/{process.pid}/status", encoding="ascii") as lines:
        kilobytes = [it.split()[1] for it in lines if it.startswith("VmHWM:")]
    return int(kilobytes[0]) * 1024 / 1e6 if kilobytes else 0


def check(lines, wanted, replies):
    """Holds that each line was answered as it has to be: what is wanted is how its reply begins, or with an LF all of it."""
    for line, start, has in zip(lines, wanted, replies):
        if not f"{has}\n".startswith(start):
            raise Wrong(f"{line[:SHOWN]}\n    is answered: {has[:SHOWN]}\n    and not:     {start.rstrip()} ..")


def seconds_of(process):
    """Returns the processor seconds of all threads that a process had so far. The number of its clock is made as
    `clock_getcpuclockid` makes it."""
    return time.clock_gettime(~process.pid << 3 | 2)


def states(process):
    """Gives in what state each thread of a process is that goes on meanwhile."""
    for it in os.listdir(f"/proc/{process.pid}/task"):
        with contextlib.suppress(OSError), open(f"/proc/{process.pid}/task/{it}/stat", encoding="latin-1") as stat:
            yield stat.read().rpartition(")")[2].split()[0]


class Played:
    """A program that plays a script, as it comes, over tables in memory."""

    def __init__(self, program):
        self.room = tempfile.TemporaryDirectory()
        with open(f"{self.room.name}/said", "wb") as said, open(f"{self.room.name}/told", "wb") as told:
            self.process = subprocess.Popen([program, "script"], stdin=subprocess.PIPE, stdout=said, stderr=told)
        self.said = open(f"{self.room.name}/said", "rb")

    def __enter__(self):
        return self

    def __exit__(self, *_):
        self.process.kill()
        with contextlib.suppress(BrokenPipeError):
            self.process.stdin.close()
        self.process.wait()
        self.said.close()
        self.room.cleanup()

    def answer(self, lines, wanted, patience=PATIENCE):
        """Has lines answered; returns the replies."""
        with contextlib.suppress(BrokenPipeError):  # (where it is over, replies are wanting)
            self.process.stdin.write("".join(f"{it}\n" for it in lines).encode())
            self.process.stdin.flush()
        replies = hear(self.process, self.said, len(lines), patience)
        check(lines, wanted, replies)
        if len(replies) != len(lines):
            with open(f"{self.room.name}/told", encoding="latin-1") as told:
                raise Wrong(f"{len(replies)} of {len(lines)} lines are answered, and it ends: {told.read().strip()}")
        return replies


def is_program(path):
    """Whether a path is that of a program."""
    return os.access(path, os.X_OK) and not os.path.isdir(path)


def chosen(words, all_of):
    """Returns which of these are named, in their order."""
    named = words.split(",")
    lacking = [it for it in named if it not in all_of]
    if lacking:
        raise argparse.ArgumentTypeError(f"{lacking[0]!r} is none of {', '.join(all_of)}")
    return [it for it in all_of if it in named]


def loop():
    """Returns the seconds that the loop takes."""
    return float(subprocess.run([sys.executable, "-c", LOOP], capture_output=True, check=True).stdout)
