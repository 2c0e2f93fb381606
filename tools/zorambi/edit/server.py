"""The page and its requests, on 127.0.0.1 alone. Whoever asks has to know the secret of the address, and to name this very host; a page
from elsewhere is turned away. What is asked is bounded in size and in time."""

import hmac
import json
import secrets
import threading
import time
from http.server import BaseHTTPRequestHandler, ThreadingHTTPServer

from session import Wrong

HOST = "127.0.0.1"
# Bytes of a request's body: a row with every formula row in its set has fewer.
LARGEST = 65536
# What is sent beyond that is read for a moment, so that the sender hears why it is turned away.
DISCARDED = 2**25
SECONDS = 2

HEADERS = {
    "Cache-Control": "no-store",
    "Content-Security-Policy": "frame-ancestors 'none'",
    "Cross-Origin-Resource-Policy": "same-origin",
    "Referrer-Policy": "no-referrer",
    "X-Content-Type-Options": "nosniff",
}


class Server(ThreadingHTTPServer):
    daemon_threads = True

    def __init__(self, session):
        super().__init__((HOST, 0), Handler)
        self.session = session
        self.host = f"{HOST}:{self.server_port}"
        self.origin = f"http://{self.host}"
        self.secret = secrets.token_urlsafe(24)
        self.address = f"{self.origin}/{self.secret}/"
        self.ticket = None
        self.ticket_lock = threading.Lock()

    def ticket_address(self):
        """An address that leads to the page once."""
        self.ticket = secrets.token_urlsafe(24)
        return f"{self.origin}/{self.ticket}"

    def takes_ticket(self, path):
        with self.ticket_lock:
            takes = self.ticket is not None and is_same(path, f"/{self.ticket}")
            if takes:
                self.ticket = None
            return takes

    def handle_error(self, request, client_address):
        """A connection that breaks is no concern of the terminal's."""


def is_same(given, wanted):
    return hmac.compare_digest(given.encode(), wanted.encode())


class Handler(BaseHTTPRequestHandler):
    server_version, sys_version = "zorambi", ""
    # Seconds for a request to come.
    timeout = 10

    def do_GET(self):
        if self.is_of_this_host() and self.server.takes_ticket(self.path):
            self.answer(303, b"", "text/plain", {"Location": f"/{self.server.secret}/"})
        elif self.is_welcome(""):
            self.answer(200, self.server.session.page.encode(), "text/html; charset=utf-8")

    def do_POST(self):
        body = self.body() if self.is_welcome("do") else None
        if body is None:
            return
        try:
            self.tell(200, self.server.session.do(json.loads(body)))
        except (Wrong, ValueError, RecursionError) as error:
            self.tell(400, {"words": f"The request is not understood: {error}"})
        except Exception as error:  # told on the page, so that it does not wait for ever
            self.tell(500, {"words": f"The program failed: {error!r}."})
        if self.server.session.is_ended:
            threading.Thread(target=self.server.shutdown, daemon=True).start()

    # ---- who may ask

    def is_of_this_host(self):
        return self.headers.get_all("Host") == [self.server.host]

    def is_welcome(self, name):
        """The secret is in the path; then the name has to be right too."""
        start = f"/{self.server.secret}/"
        knows = is_same(self.path[: len(start)], start)
        origins = self.headers.get_all("Origin", [self.server.origin])
        if not self.is_of_this_host() or not knows or origins != [self.server.origin]:
            self.turn_away(403, "Turned away: open the whole address that 'zorambi edit' printed.")
            return False
        if self.path != start + name:
            self.turn_away(404, "There is no such page: open the address that 'zorambi edit' printed.")
            return False
        return True

    def body(self):
        """The bytes of a request, if they are JSON and not too many."""
        length = self.headers.get("Content-Length", "")
        if self.headers.get("Content-Type") != "application/json":
            return self.turn_away(415, "A request is JSON.")
        if "Transfer-Encoding" in self.headers or not (length.isascii() and length.isdigit()):
            return self.turn_away(411, "A request says how long it is.")
        if len(length) > 9 or int(length) > LARGEST:
            return self.turn_away(413, f"A request has at most {LARGEST} bytes.")
        body = self.rfile.read(int(length))
        return body if len(body) == int(length) else None

    # ---- answers

    def answer(self, status, body, kind, more=None):
        self.send_response(status)
        for name, value in {**HEADERS, "Content-Type": kind, "Content-Length": str(len(body)), **(more or {})}.items():
            self.send_header(name, value)
        self.end_headers()
        if self.command != "HEAD":
            self.wfile.write(body)

    def tell(self, status, told):
        self.answer(status, json.dumps(told).encode(), "application/json")

    def turn_away(self, status, words):
        self.answer(status, (words + "\n").encode(), "text/plain; charset=utf-8")
        self.wfile.flush()
        self.discard()

    def discard(self):
        """Reads on for a moment: a connection that is closed with bytes unread is reset, and the answer is lost."""
        self.close_connection = True
        end = time.monotonic() + SECONDS
        left = DISCARDED
        try:
            self.connection.shutdown(1)
            self.connection.settimeout(0.2)
            while left > 0 and time.monotonic() < end:
                read = len(self.connection.recv(65536))
                if read == 0:
                    return
                left -= read
        except OSError:
            pass

    def send_error(self, code, message=None, explain=None):
        """Nothing that was sent is said again."""
        self.answer(code, b"The request is not understood.\n", "text/plain; charset=utf-8")
        self.close_connection = True

    def log_message(self, *_):
        """Requests are not told on the terminal."""
