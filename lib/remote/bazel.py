#!/usr/bin/env python3
"""bazel.py PORT: a store that takes nothing but GET, HEAD and PUT of /ac/ and 64 hexadecimal digits, as bazel-remote does. With TOKEN in its
environment it wants that in each request."""
import http.server
import os
import re
import sys

KEPT = {}
TOKEN = os.environ.get("TOKEN")


class Answers(http.server.BaseHTTPRequestHandler):
    """Answers of one connection, which stays open."""

    protocol_version = "HTTP/1.1"

    def log_message(self, *_):
        """Logs nothing."""

    def answer(self, code, body=b""):
        """Sends a status and what comes with it."""
        self.send_response(code)
        self.send_header("Content-Length", str(len(body)))
        self.end_headers()
        if self.command != "HEAD":
            self.wfile.write(body)

    def refuses(self):
        """Whether this is no request for such a store; then it is answered here."""
        if TOKEN and self.headers["Authorization"] != f"Bearer {TOKEN}":
            self.answer(401)
        elif not re.fullmatch("/ac/[0-9a-f]{64}", self.path):
            self.answer(400)
        else:
            return False
        return True

    def do_GET(self):
        """Sends what is there."""
        if not self.refuses():
            self.answer(200, KEPT[self.path]) if self.path in KEPT else self.answer(404)

    do_HEAD = do_GET

    def do_PUT(self):
        """Puts something there."""
        body = self.rfile.read(int(self.headers["Content-Length"]))
        if not self.refuses():
            KEPT[self.path] = body
            self.answer(200)


http.server.ThreadingHTTPServer(("127.0.0.1", int(sys.argv[1])), Answers).serve_forever()
