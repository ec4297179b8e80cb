"""Scripts of seven kinds, each in three sizes, for what measures what lines cost."""
from scripts import AGAIN, Script, text

SIZES = ("small", "medium", "large")


# ---- the kinds: each makes a script, and returns in words what grows, and how much of it there is


def enrol(script, vens, resources):
    """Enrolment of vens, resources and shares, with no event."""
    script.measured()
    script.portfolio(vens, resources)
    for program in ("p1", "p2"):
        for it in script.resources:
            script.share(program, it)
    return f"{vens} vens, {resources:,} resources, {2 * resources:,} shares", resources


def pages(script, resources):
    """Pages of events for resources, newer each time."""
    script.with_shares(20, resources, "p1")
    script.measured()
    for turn in range(3):
        script.page([script.event(f"e{at:04}", "p1", turn) for at in range(50)], f"{50 * resources} skipped 0")
        script.second += 1
    return f"pages of 50 events for {resources} resources", resources


def shares(script, resources):
    """Share edits under events; each tenth takes a share away."""
    script.with_shares(20, resources, "p1")
    script.page([script.event(f"e{at:04}", "p1", 0) for at in range(10)], f"{10 * resources} skipped 0")
    script.measured()
    for at in range(1, 201):
        resource = script.one_of(script.resources)
        if at % 10 == 0 and resource.id in script.weights["p1"]:
            script.unshare("p1", resource)
        else:
            script.share("p1", resource)
    return f"share edits under 10 events of {resources} resources", resources


def listing(script, ven, count, filters):
    """Lists events for the operator or a ven, which are so many, with `skip`, `limit` and filters, or without."""
    words = [f"skip={script.below(count)}"] if script.below(2) else []
    words += [f"limit={script.one_of([1, 5, 10, 20, 50])}"] if script.below(2) else []
    query = "&".join(words + filters)
    script.say(f"ven:{ven.id}" if ven else "operator", f"GET /events{'?' if query else ''}{query}", "200 [{")


def listings(script, resources):
    """Listings of events by the operator and by vens, with all filters."""
    script.with_shares(20, resources, "p1", "p2")
    for program in ("p1", "p2"):
        events = [script.event(f"{program}-{at:04}", program, 0) for at in range(10)]
        script.page(events, f"{10 * resources} skipped 0")
    script.measured()
    for _ in range(500):
        is_of_ven = script.below(5) < 2
        resource = script.one_of(script.resources)
        ven = resource.ven
        seen = len(ven.resources) if is_of_ven else resources
        count, filters = script.one_of(
            [
                (20 * seen, []),
                (10 * seen, [f"programID={script.one_of(['p1', 'p2'])}"]),
                (20 * len(ven.resources), ["targetType=VEN_NAME", f"targetValues={ven.name}"]),
                (20, ["targetType=RESOURCE_NAME", f"targetValues={resource.name}"]),
            ]
        )
        listing(script, ven if is_of_ven else None, count, filters)
    return f"listings of {20 * resources:,} shown events", resources


def reports(script, resources, count):
    """Reports posted and replaced, with a roll-up read after each fourth. Sums are sent after each fiftieth."""
    script.with_shares(20, resources, "p1")
    script.page([script.event(f"e{at:04}", "p1", 0) for at in range(10)], f"{10 * resources} skipped 0")
    script.measured()
    for at in range(1, count + 1):
        script.second += 1
        if at > 10 and not script.below(5):
            event = script.replace(script.below(len(script.reports)))
        else:
            event = f"e{script.below(10):04}"
            script.report(event, script.one_of(script.resources))
        if at % 4 == 0:
            script.say("operator", f"GET /rollups/{event}", "200 {")
        if at % 20 == 0:
            script.say("operator", f"GET /reports?skip={script.below(at // 2)}&limit=10", "200 [{")
        if at % 50 == 0 or at == count:
            script.drain()
    return f"{count:,} reports on {10 * resources:,} shown events", count


def outbox(script, resources):
    """Leases and settlements of the entries of ten receivers, of which each fiftieth fails first."""
    script.portfolio(5, resources)
    for it in script.resources:
        script.share("p1", it)
    for _ in range(10):
        script.subscribe("EVENT")
    changes = 5 * resources
    script.page([script.event(f"e{at:04}", "p1", 0) for at in range(5)], f"{changes} skipped 0")
    for _ in range(changes):
        script.tell(script.subscriptions)
    script.measured()
    script.drain(50)
    counts = {"dropped": 0, "givenUp": 0, "made": 10 * changes, "pending": 0, "sent": 10 * changes}
    script.say("operator", "GET /outbox", f"200 {text(counts)}")
    return f"{10 * changes:,} entries wait for 10 receivers", changes


# ---- lines of all kinds mixed
#
# Entries are followed to the number, so only what can be foreseen is told to anybody: subscriptions are about programs
# alone, and reports are on the events of p1, whose shares and names of resources stay. All else moves in p2 and p3.


class Mixed(Script):
    """A script of all kinds of lines, and its steps."""

    def __init__(self):
        super().__init__()
        self.turn = 0
        self.gone = 0

    def begin(self, resources):
        """What stands before: every eighth resource has no share in p1, and may be renamed."""
        self.portfolio(20, resources)
        self.stable = [it for at, it in enumerate(self.resources) if at % 8 < 7]
        self.others = [it for at, it in enumerate(self.resources) if at % 8 == 7]
        for it in self.stable:
            self.share("p1", it)
        for at, it in enumerate(self.resources):
            self.share(("p2", "p3")[at % 2], it)
        for it in ("p1", "p2", "p3"):
            self.program(it, 0)
        self.kept = [f"k{at:02}" for at in range(5)]
        self.page([self.event(it, "p1", 0) for it in self.kept], f"{5 * len(self.stable)} skipped 0")
        self.moved = [f"e{at:04}" for at in range(20)]
        events = [self.event(it, ("p2", "p3")[at % 2], 0) for at, it in enumerate(self.moved)]
        self.page(events, f"{10 * resources} skipped 0")
        for _ in range(3):
            self.subscribe("PROGRAM")
        return 5 * len(self.stable) + 10 * resources

    def step(self):
        self.turn += 1
        self.second += self.turn % 3 == 0
        self.one_of(STEPS)(self)

    def version_of_one(self):
        """Returns a version of an event that may be in another program now, and may name some resources."""
        targets = [self.one_of(self.resources).name for _ in range(5)] if not self.below(3) else None
        return self.event(self.one_of(self.moved), self.one_of(["p2", "p3"]), self.turn, targets)

    def edit_share(self):
        program, resource = self.one_of(["p2", "p3"]), self.one_of(self.resources)
        if resource.id in self.weights[program] and not self.below(8):
            self.unshare(program, resource)
        else:
            self.share(program, resource)

    def page_of_events(self):
        self.page([self.version_of_one() for _ in range(1 + self.below(3))])

    def notify(self):
        told = {"objectType": "EVENT", "operation": "PUT", "object": self.version_of_one()}
        self.say("utility", f"POST /notifications {text(told)}", "200 {}")

    def page_of_programs(self):
        self.program("p2", self.turn)

    def come_and_go(self):
        self.gone += 1
        self.page([self.event(f"x{self.gone:04}", "p2", self.turn)])
        self.say("node", f"gone events x{self.gone:04}", "changes ")

    def scan(self):
        self.say("node", "scan begin", "done")
        self.page_of_events()
        self.say("node", "probes 10", "probes ")
        self.say("node", "scan end", "probes ")

    def post_report(self):
        self.report(self.one_of(self.kept), self.one_of(self.stable))

    def put_report(self):
        if self.reports:
            self.replace(self.below(len(self.reports)))

    def remove_report(self):
        if self.reports:
            self.remove(self.below(len(self.reports)))

    def send(self):
        """Leases some entries and settles each at once; one of eight fails."""
        for _ in range(4):
            if entry := self.lease():
                self.settle(entry, entry.leases == len(AGAIN) or self.below(8))

    def rename_resource(self):
        resource = self.one_of(self.others)
        resource.name = f"name-{self.turn:05}"
        target = f"/vens/{resource.ven.id}/resources/{resource.id}"
        self.say("operator", f"PUT {target} {text({'resourceName': resource.name})}", "200 {")

    def rename_ven(self):
        ven = self.one_of(self.vens)
        ven.name = f"place-{self.turn:04}"
        self.say("operator", f"PUT /vens/{ven.id} {text({'venName': ven.name})}", "200 {")

    def add_resource(self):
        self.others.append(self.resource(self.one_of(self.vens)))
        self.share("p2", self.others[-1])

    def read_event(self):
        resource = self.one_of(self.stable)
        self.say(self.who(resource), f"GET /events/{resource.id}-{self.one_of(self.kept)}", "200 {")

    def list_events(self):
        """Lists by one of the filters. What is in p1 is there whatever moves."""
        resource = self.one_of(self.stable)
        ven = self.one_of([None, resource.ven])
        filters = [
            [],
            ["programID=p1"],
            ["targetType=VEN_NAME", f"targetValues={resource.ven.name}"],
            ["targetType=RESOURCE_NAME", f"targetValues={resource.name}"],
        ]
        listing(self, ven, len(self.kept), self.one_of(filters))

    def read_sum(self):
        found = [it for it in self.kept if any(self.usages[it].values())]
        if found:
            self.say("operator", f"GET /rollups/{self.one_of(found)}", "200 {")

    def list_resources(self):
        resource = self.one_of(self.stable)
        self.say(self.who(resource), f"GET /vens/{resource.ven.id}/resources?limit=20", "200 [{")

    def list_others(self):
        """Lists or reads what is not listed by a step of its own."""
        one = ["/vens/v1", "/programs/p1", f"/subscriptions/{self.subscriptions[0]}", "/outbox"]
        several = ["/vens", "/programs", "/shares/p1", "/reports?limit=10", "/subscriptions"]
        self.say("operator", f"GET {self.one_of(one + several)}", "200 ")


# Of each step as many as there are of it in some hundred.
STEPS = [
    it
    for count, it in [
        (13, Mixed.edit_share),
        (8, Mixed.page_of_events),
        (4, Mixed.notify),
        (3, Mixed.page_of_programs),
        (1, Mixed.come_and_go),
        (1, Mixed.scan),
        (8, Mixed.post_report),
        (5, Mixed.put_report),
        (1, Mixed.remove_report),
        (6, Mixed.send),
        (2, Mixed.rename_resource),
        (1, Mixed.rename_ven),
        (1, Mixed.add_resource),
        (10, Mixed.read_event),
        (14, Mixed.list_events),
        (5, Mixed.read_sum),
        (4, Mixed.list_resources),
        (8, Mixed.list_others),
    ]
    for _ in range(count)
]


def mixed(script, resources):
    """Lines of all kinds mixed."""
    count = script.begin(resources)
    script.measured()
    while len(script.lines) < script.setup + 1000:
        script.step()
    return f"all kinds of lines over {count:,} shown events", resources


# Each kind with its numbers in the three sizes.
KINDS = {
    enrol: [(5, 50), (20, 200), (80, 800)],
    pages: [(10,), (50,), (250,)],
    shares: [(10,), (50,), (250,)],
    listings: [(10,), (50,), (250,)],
    reports: [(10, 40), (50, 200), (250, 1000)],
    outbox: [(8,), (40,), (200,)],
    mixed: [(8,), (40,), (200,)],
}
NAMES = [it.__name__ for it in KINDS]


def made(kind, size):
    """Makes a script; returns it, in words what grows, and how much of it there is."""
    script = Mixed() if kind is mixed else Script()
    return script, *kind(script, *KINDS[kind][SIZES.index(size)])
