"""What receives the messages of a node, answers all of them 200, and keeps the moment of each: nginx, or where there is
none a server of Python's in some processes."""
import contextlib
import multiprocessing
import os
import re
import selectors
import shutil
import signal
import socket
import subprocess
import time

from findings import expect
from nodes import free_port

NGINX = """daemon off;
pid {room}/nginx.pid;
error_log {room}/error.log;
worker_processes 1;
events {{ worker_connections 4096; }}
http {{
    log_format message "$msec $request_uri";
    access_log {room}/messages message;
    client_body_temp_path {room}/body;
    proxy_temp_path {room}/proxy;
    fastcgi_temp_path {room}/fastcgi;
    uwsgi_temp_path {room}/uwsgi;
    scgi_temp_path {room}/scgi;
    server {{
        listen 127.0.0.1:{port} backlog=4096;
        location / {{ return 200 "{{}}"; }}
    }}
}}
"""
# How many processes receive where no nginx does.
RECEIVERS = 3


def nginx():
    """Returns where nginx is, if it is there."""
    return shutil.which("nginx", path=os.environ.get("PATH", "") + ":/usr/sbin:/usr/local/sbin")


def is_open(port):
    """Whether somebody listens there."""
    with socket.socket() as it:
        return it.connect_ex(("127.0.0.1", port)) == 0


@contextlib.contextmanager
def by_nginx(room):
    """nginx receives; gives its port."""
    port = free_port()
    os.chmod(room, 0o711)  # (it has a user of its own, who goes through it)
    with open(f"{room}/nginx.conf", "w", encoding="ascii") as it:
        it.write(NGINX.format(room=room, port=port))
    command = [nginx(), "-p", room, "-e", f"{room}/error.log", "-c", f"{room}/nginx.conf"]
    process = subprocess.Popen(command, stdin=subprocess.DEVNULL, stderr=subprocess.DEVNULL)
    try:
        until = time.monotonic() + 10
        while not is_open(port):
            expect(process.poll() is None and time.monotonic() < until, "nginx does not start")
            time.sleep(0.05)
        yield port
    finally:
        process.terminate()
        process.wait(10)


class Receiver:
    """A process of Python's that answers 200 to all that comes, on connections that stay, and keeps what came."""

    def __init__(self, place, path):
        self.place = place
        self.kept = os.open(path, os.O_WRONLY | os.O_APPEND)
        self.waits = selectors.DefaultSelector()
        self.waits.register(place, selectors.EVENT_READ)

    def run(self, above):
        """Receives until the process above is gone."""
        while os.getppid() == above:
            for key, _ in self.waits.select(1):
                if key.fileobj is self.place:
                    self.accept()
                elif not self.hears(key.fileobj, key.data):
                    self.waits.unregister(key.fileobj)
                    key.fileobj.close()

    def accept(self):
        with contextlib.suppress(BlockingIOError):  # (another process has it)
            link, _ = self.place.accept()
            self.waits.register(link, selectors.EVENT_READ, bytearray())

    def hears(self, link, came):
        """Reads what has come, and answers each request that is whole; returns whether the connection stays."""
        try:
            more = link.recv(65536)
            came += more
            stays = bool(more)
            while stays and (length := whole(came)):
                os.write(self.kept, b"%.3f %s\n" % (time.time(), came.split(b" ", 2)[1]))
                stays = not re.search(rb"(?i)\nconnection: *close", came[:length])
                end = b"" if stays else b"Connection: close\r\n"
                link.sendall(b"HTTP/1.1 200 OK\r\nContent-Length: 2\r\n%s\r\n{}" % end)
                del came[:length]
            return stays
        except OSError:
            return False


def whole(came):
    """Returns how many bytes the first request has, or 0 where it is not whole."""
    end = came.find(b"\r\n\r\n") + 4
    found = re.search(rb"(?i)\ncontent-length: *(\d+)", came[:end])
    length = end + (int(found[1]) if found else 0)
    return length if end > 3 and len(came) >= length else 0


def receive(place, path, above):
    """What a process of a receiver runs. An interrupt is for the process above, which ends it."""
    signal.signal(signal.SIGINT, signal.SIG_IGN)
    signal.signal(signal.SIGTERM, signal.SIG_DFL)
    Receiver(place, path).run(above)


@contextlib.contextmanager
def by_python(room):
    """Processes of Python's receive; gives their port."""
    with socket.create_server(("127.0.0.1", 0), backlog=4096) as place:
        place.setblocking(False)
        how = {"target": receive, "args": (place, f"{room}/messages", os.getpid()), "daemon": True}
        them = [multiprocessing.get_context("fork").Process(**how) for _ in range(RECEIVERS)]
        try:
            for it in them:
                it.start()
            yield place.getsockname()[1]
        finally:
            for it in them:
                if it.pid:
                    it.terminate()
                    it.join()


def who():
    """Tells who receives."""
    return "nginx" if nginx() else f"{RECEIVERS} processes of Python (there is no nginx here)"


def receiver(room):
    """What receives messages on a port that it gives, and keeps a line for each in `messages` of a folder: its moment,
    in seconds since 1970, and its target."""
    with open(f"{room}/messages", "wb"):
        pass
    return by_nginx(room) if nginx() else by_python(room)
