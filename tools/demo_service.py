"""A small service on 127.0.0.1 that speaks the shelf model: it answers ListTitles.

Usage: demo_service.py PORT FOLDER. It writes the last request to FOLDER/request, and makes
FOLDER/ready once it listens. It answers one request at a time until it is ended.
"""

import http.server
import json
import pathlib
import sys

TITLES = {"Titles": ["Dune", "Emma"]}


class Service(http.server.BaseHTTPRequestHandler):
    protocol_version = "HTTP/1.1"
    folder = pathlib.Path(".")

    def do_POST(self):
        body = self.rfile.read(int(self.headers.get("Content-Length", "0")))
        head = self.requestline + "\n" + str(self.headers)
        (self.folder / "request").write_bytes(head.encode() + body + b"\n")
        known = self.headers.get("X-Amz-Target", "").endswith(".ListTitles")
        answer = TITLES if known else {"__type": "UnknownOperationException"}
        reply = json.dumps(answer).encode()
        self.send_response(200 if known else 400)
        self.send_header("Content-Type", "application/x-amz-json-1.1")
        self.send_header("Content-Length", str(len(reply)))
        self.end_headers()
        self.wfile.write(reply)

    def log_message(self, *args):
        pass


def main():
    port, folder = int(sys.argv[1]), pathlib.Path(sys.argv[2])
    Service.folder = folder
    try:
        server = http.server.HTTPServer(("127.0.0.1", port), Service)
    except OSError as error:
        sys.exit(f"demo_service: {error}")
    (folder / "ready").touch()
    server.serve_forever()


main()
