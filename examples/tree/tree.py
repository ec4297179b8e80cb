"""Nodes below one: their configurations and files, and all of them as processes on one machine.

Of each node there is a name: `above`, and `below-1`, `below-2` and so on. In the folder of a tree are

    NAME.json            the configuration of a node, as for /etc/adr_node
    NAME.adapter.json    that of the adapter between a node below and the one above
    weights.json         that of weights.py
    NAME/adr.db          the file of a node, and its log
    NAME.log, ..         what each process tells
"""
import json
import os
import secrets
import signal
import subprocess
import sys
import time

HERE = os.path.dirname(os.path.realpath(__file__))
EXAMPLES = os.path.dirname(HERE)
sys.path.insert(0, EXAMPLES)
from sites import site, tokens

ABOVE = "above"
# How long is waited for a process to listen, in seconds.
PATIENCE = 60


def names(nodes):
    """Returns the names of so many nodes below."""
    return [f"below-{it + 1}" for it in range(nodes)]


def token():
    return secrets.token_urlsafe(32)


def written(folder, name, value):
    """Writes a configuration, which has tokens in it, for its owner alone."""
    place = os.open(os.path.join(folder, name), os.O_WRONLY | os.O_CREAT | os.O_TRUNC, 0o600)
    with open(place, "w", encoding="utf-8") as it:
        json.dump(value, it, indent=2)
        it.write("\n")


def make(folder, nodes, vens, upstream, upstream_token, port, sums_every=None, more=None):
    """Writes the configurations of so many nodes below one, each with so many vens; with none below that of the one
    alone, with so many vens. `port` gives a port at each call; `sums_every` is the adapters' `sumsEvery`, where it is
    on; `more` are more members of each node's configuration."""
    os.makedirs(folder, mode=0o700)
    common = {"store": "adr.db", "poll": 10, "workers": 8, "log": "info", "callbacks": ["127.0.0.0/8"], **(more or {})}
    above, below = f"http://127.0.0.1:{port()}", []
    config = {"listen": above.removeprefix("http://"), "upstream": upstream, "upstreamToken": upstream_token}
    config |= {"clientName": "aggregator", **common, "tokens": tokens(nodes or vens, 1)}
    written(folder, f"{ABOVE}.json", config)
    ups = [it["token"] for it in config["tokens"] if it["role"] == "ven"]
    for name, up in zip(names(nodes), ups):
        at, down, side = (f"127.0.0.1:{port()}" for _ in range(3))
        own = tokens(vens, 1)
        [utility] = [it["token"] for it in own if it["role"] == "utility"]
        node = {"listen": at, "upstream": f"http://{down}", "clientName": name, **common, "tokens": own}
        written(folder, f"{name}.json", node)
        adapter = {"listen": down, "utility": above, "utilityToken": up}
        adapter |= {"listenForUtility": side, "node": f"http://{at}"}
        adapter |= {"callbackUrl": f"http://{side}/notifications", "callbackToken": utility, "clientName": name}
        adapter |= {"stripTargets": {"VEN_NAME": name, "RESOURCE_NAME": f"{name}-sum"}, "reportAs": f"{name}-sum"}
        adapter |= {"lives": True, "sumsEvery": sums_every, "nodeToken": operator(node)}
        written(folder, f"{name}.adapter.json", adapter)
        below.append({"node": f"http://{at}", "token": operator(node), "ven": name, "resource": f"{name}-sum"})
    written(folder, "weights.json", {"above": above, "token": operator(config), "every": 2, "nodes": below})


def setpoints(event):
    """Returns the setpoints of an event, by the ids of its intervals."""
    values = lambda it: [one["values"][0] for one in it["payloads"] if one["type"] == "DISPATCH_SETPOINT"]
    return {it["id"]: values(it)[0] for it in event["intervals"] if values(it)}


def operator(config):
    """Returns the token of a node's operator."""
    return next(it["token"] for it in config["tokens"] if it["role"] == "operator")


class Process:
    """One of a tree's processes, which may be started again."""

    def __init__(self, folder, name, command, cwd=None):
        self.said, self.command, self.cwd = os.path.join(folder, f"{name}.log"), command, cwd or folder
        self.name, self.process = name, None

    def start(self):
        with open(self.said, "ab") as it:
            how = {"cwd": self.cwd, "stdin": subprocess.DEVNULL, "stdout": it, "stderr": it}
            self.process = subprocess.Popen(self.command, **how)

    def is_running(self):
        return self.process is not None and self.process.poll() is None

    def ends(self, how=signal.SIGTERM):
        """Ends it by a signal, if it runs."""
        if self.is_running():
            self.process.send_signal(how)
        if self.process is not None:
            self.process.wait(PATIENCE)

    def text(self):
        with open(self.said, encoding="utf-8", errors="replace") as it:
            return it.read()

    def tells(self, part, seconds=PATIENCE):
        """Waits until it has told that."""
        until = time.monotonic() + seconds
        while part not in self.text():
            if time.monotonic() > until or not self.is_running():
                raise TimeoutError(f"{self.name} doesn't tell {part!r}: {self.text()[-500:]}")
            time.sleep(0.1)


class Tree:
    """The nodes of a folder, with all that belongs to them."""

    def __init__(self, program, folder):
        self.program, self.folder = os.path.abspath(program), os.path.abspath(folder)
        read = lambda name: json.load(open(os.path.join(self.folder, f"{name}.json"), encoding="utf-8"))
        self.names = []
        while os.path.exists(os.path.join(self.folder, f"below-{len(self.names) + 1}.json")):
            self.names.append(f"below-{len(self.names) + 1}")
        self.configs = {it: read(it) for it in [ABOVE, *self.names]}
        self.links, self.processes = {}, {}
        for name, config in self.configs.items():
            self.links[name] = site.Link(f"http://{config['listen']}", operator(config), site.Counts())
            self.add(name, [self.program, "serve", f"{self.folder}/{name}.json"], f"{self.folder}/{name}")
        for name in self.names:
            self.add(f"{name}.adapter", self.python("adapter.py", f"{self.folder}/{name}.adapter.json"))
        self.add("weights", self.python("tree/weights.py", f"{self.folder}/weights.json"))

    @staticmethod
    def python(script, *words):
        return [sys.executable, "-B", f"{EXAMPLES}/{script}", *words]

    def add(self, name, command, cwd=None):
        self.processes[name] = Process(self.folder, name, command, cwd)

    def ask(self, name, method, target, value=None):
        """Asks a node as its operator."""
        return self.links[name].ask(method, target, value)

    def begins(self, name):
        """Makes a node's file, where there is none, and starts the node."""
        store = f"{self.folder}/{name}/adr.db"
        if not os.path.exists(store):
            os.makedirs(os.path.dirname(store), mode=0o700, exist_ok=True)
            subprocess.run([self.program, "init", store], stdin=subprocess.DEVNULL, check=True)
        self.processes[name].start()
        self.is_there(name)

    def is_there(self, name):
        """Waits until a node answers."""
        until = time.monotonic() + PATIENCE
        while True:
            try:
                return self.ask(name, "GET", "/programs?limit=1")
            except site.Failed:
                if time.monotonic() > until or not self.processes[name].is_running():
                    raise
                time.sleep(0.05)

    def enrol(self):
        """Enrols the nodes below in the one above, where they aren't."""
        there = {it["venName"]: it["id"] for it in self.links[ABOVE].all_of("/vens")}
        # All vens first, so that their ids are in the order of their tokens.
        for name in self.names:
            if name not in there:
                there[name] = self.ask(ABOVE, "POST", "/vens", {"venName": name})["id"]
        for name in self.names:
            resources = f"/vens/{there[name]}/resources"
            if not self.ask(ABOVE, "GET", resources):
                self.ask(ABOVE, "POST", resources, {"resourceName": f"{name}-sum"})

    def start(self):
        """Starts all but the sites."""
        self.begins(ABOVE)
        self.enrol()
        for name in self.names:
            self.processes[f"{name}.adapter"].start()
            self.processes[f"{name}.adapter"].tells("] listening ")
            self.begins(name)
        self.processes["weights"].start()

    def sites(self, name, many, *words):
        """Starts so many sites of a node."""
        url = f"http://{self.configs[name]['listen']}"
        words = [url, "--many", str(many), "--tokens", f"{self.folder}/{name}.json", "--failing", "0", *words]
        self.add(f"{name}.sites", self.python("sites.py", *words))
        self.processes[f"{name}.sites"].start()

    def stop(self):
        """Ends all, the sites first."""
        for it in reversed(list(self.processes.values())):
            if it.is_running():
                it.process.terminate()
        for it in self.processes.values():
            it.ends()
