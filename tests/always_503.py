#!/usr/bin/env python3
"""A program whose server answers each request with 503, and does nothing else.

The contracts allow these replies: lack of memory may come at any time, in place of any reply to a
command. Each other order is run by the program that the environment's BEHIND names.
"""

import os
import socketserver
import sys

BODY = b'{"fault":"no-memory","number":20}'
REPLY = (
    b"HTTP/1.1 503 Service Unavailable\r\nContent-Type: application/json\r\n"
    b"Content-Length: %d\r\nConnection: keep-alive\r\n\r\n%b" % (len(BODY), BODY)
)


class Requests(socketserver.StreamRequestHandler):
    """The requests of one connection: a head up to an empty line, and a body of its length."""

    def handle(self):
        length = 0
        for line in self.rfile:
            name, _, value = line.partition(b":")
            if name.lower() == b"content-length":
                length = int(value)
            if not line.strip():
                self.rfile.read(length)
                self.wfile.write(REPLY)
                length = 0


def serve(port):
    socketserver.ThreadingTCPServer.daemon_threads = True
    with socketserver.ThreadingTCPServer(("127.0.0.1", port), Requests) as server:
        print(f"listening 127.0.0.1:{server.server_address[1]}", flush=True)
        server.serve_forever()


if __name__ == "__main__":
    if sys.argv[1:2] not in (["serve"], ["run"]):
        os.execv(os.environ["BEHIND"], [os.environ["BEHIND"], *sys.argv[1:]])
    serve(int(sys.argv[sys.argv.index("--port") + 1]))
