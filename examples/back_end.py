#!/usr/bin/env python3
"""Back ends to try the collector with: `python3 examples/back_end.py PORT..`. At each of these ports of this machine one takes
every request, and prints a line of it, until it is interrupted.
"""

import sys
from http.server import BaseHTTPRequestHandler, ThreadingHTTPServer
from threading import Thread


class BackEnd(BaseHTTPRequestHandler):
    def do_POST(self):
        body = self.rfile.read(int(self.headers["Content-Length"]))
        print(f"back end at {self.server.server_port}: {self.command} {self.path}, {len(body)} bytes", flush=True)
        self.send_response(200)
        self.send_header("Content-Length", "0")
        self.end_headers()

    def log_message(self, *_):
        pass


def main(ports):
    *others, last = [ThreadingHTTPServer(("127.0.0.1", port), BackEnd) for port in ports]
    for other in others:
        Thread(target=other.serve_forever, daemon=True).start()
    try:
        last.serve_forever()
    except KeyboardInterrupt:
        pass


main([int(word) for word in sys.argv[1:]] or sys.exit(__doc__))
