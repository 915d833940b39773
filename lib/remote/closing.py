"""closing.py PORT [STATUS]: an HTTP server of this machine alone, or a proxy in front of none, that keeps what is put there, gives it with that status
(200), and closes each connection after one answer without saying so.
"""

import http.server
import sys

kept = {}
status = int(sys.argv[2]) if len(sys.argv) > 2 else 200


class Closing(http.server.BaseHTTPRequestHandler):
    """Answers one request of a connection."""

    protocol_version = "HTTP/1.1"

    def log_message(self, *_):
        """Logs nothing."""

    def answer(self, status, body=b""):
        """Answers as a server does that keeps the connection open, and closes it."""
        self.send_response(status)
        self.send_header("Content-Length", str(len(body)))
        self.end_headers()
        self.close_connection = True
        return body

    def do_HEAD(self):
        """Whether something is kept there."""
        self.answer(status if self.path in kept else 404)

    def do_GET(self):
        """What is kept there."""
        found = kept.get(self.path)
        self.wfile.write(self.answer(404) if found is None else self.answer(status, found))

    def do_PUT(self):
        """Keeps what comes."""
        kept[self.path] = self.rfile.read(int(self.headers["Content-Length"]))
        self.answer(201)


http.server.ThreadingHTTPServer(("127.0.0.1", int(sys.argv[1])), Closing).serve_forever()
