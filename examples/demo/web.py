"""What the stand-ins for the utility and for a site's callback have in common: a small HTTP server on loopback."""
import json
import socketserver
import threading
from http.server import BaseHTTPRequestHandler


class Server(socketserver.ThreadingMixIn, socketserver.TCPServer):
    """A server on 127.0.0.1 that hands each request to `answer(method, target, token, body)`.

    `answer` gives a status and a value that is written as JSON. Port 0 is a free port, which `port` tells."""

    allow_reuse_address = True
    daemon_threads = True
    request_queue_size = 64

    def __init__(self, port, answer):
        self.answer = answer
        super().__init__(("127.0.0.1", port), Handler)
        self.port = self.server_address[1]

    def start(self):
        """Serves in a thread of its own."""
        threading.Thread(target=self.serve_forever, kwargs={"poll_interval": 0.1}, daemon=True).start()

    def run(self):
        """Serves until whoever started it interrupts it."""
        try:
            self.serve_forever()
        except KeyboardInterrupt:
            pass

    def stop(self):
        self.shutdown()
        self.server_close()


class Handler(BaseHTTPRequestHandler):
    timeout = 10

    def serve(self):
        body = self.rfile.read(int(self.headers.get("Content-Length", 0)))
        scheme, _, token = self.headers.get("Authorization", "").partition(" ")
        shown = token if scheme.lower() == "bearer" else None
        status, value = self.server.answer(self.command, self.path, shown, body)
        text = json.dumps(value, separators=(",", ":")).encode()
        self.send_response(status)
        self.send_header("Content-Type", "application/json")
        self.send_header("Content-Length", str(len(text)))
        self.end_headers()
        self.wfile.write(text)

    do_GET = do_POST = do_PUT = do_DELETE = serve

    def log_message(self, *_):
        """Nothing: who answers prints what is to be seen."""
