"""What the processes of this folder tunnel to: a small web server, an echo, and one that reads slowly.

destination.py web FILE    answers GET /N with N bytes, GET /sum/N with their SHA-256, and POST with that of the body
destination.py echo FILE   answers each connection with its own bytes
destination.py slow FILE   takes connections, and reads nothing for a minute
destination.py source FILE writes to each connection as much as it takes
destination.py sink FILE   reads all that comes, and writes nothing

Each listens on a free port of 127.0.0.1, and writes its number into FILE.
"""

import hashlib
import http.server
import os
import socket
import socketserver
import sys
import threading
import time

BLOCK = 65536


def blocks(count):
    """COUNT bytes in blocks that differ from each other."""
    number = 0
    while count > 0:
        block = hashlib.sha256(b"%d" % number).digest() * (BLOCK // 32)
        yield block[:count]
        count -= len(block)
        number += 1


class Web(http.server.BaseHTTPRequestHandler):
    protocol_version = "HTTP/1.1"

    def answer(self, body):
        self.send_response(200)
        self.send_header("Content-Length", str(len(body)))
        self.end_headers()
        self.wfile.write(body)

    def do_GET(self):
        words = self.path.strip("/").split("/")
        if words[0] == "sum":
            total = hashlib.sha256()
            for block in blocks(int(words[1])):
                total.update(block)
            self.answer(total.hexdigest().encode())
        elif words[0] == "":
            self.answer(b"hello\n")
        else:
            count = int(words[0])
            self.send_response(200)
            self.send_header("Content-Length", str(count))
            self.end_headers()
            for block in blocks(count):
                self.wfile.write(block)

    def do_POST(self):
        left = int(self.headers["Content-Length"])
        total = hashlib.sha256()
        while left > 0:
            piece = self.rfile.read(min(left, BLOCK))
            if not piece:
                break
            total.update(piece)
            left -= len(piece)
        self.answer(total.hexdigest().encode())

    def log_message(self, *args):
        pass


class WebServer(socketserver.ThreadingMixIn, http.server.HTTPServer):
    daemon_threads = True
    request_queue_size = 256

    def handle_error(self, request, client_address):
        pass  # a client that left


def echo(connection):
    with connection:
        connection.setsockopt(socket.IPPROTO_TCP, socket.TCP_NODELAY, 1)
        try:
            while piece := connection.recv(BLOCK):
                connection.sendall(piece)
        except OSError:
            pass


def source(connection):
    with connection:
        piece = bytes(1 << 20)
        try:
            while True:
                connection.sendall(piece)
        except OSError:
            pass


def sink(connection):
    with connection:
        room = bytearray(1 << 20)
        try:
            while connection.recv_into(room):
                pass
        except OSError:
            pass


def slow(connection):
    with connection:
        time.sleep(60)


def take(listener, serve):
    while True:
        connection, _ = listener.accept()
        threading.Thread(target=serve, args=(connection,), daemon=True).start()


def main():
    kind, file = sys.argv[1:3]
    if kind == "web":
        server = WebServer(("127.0.0.1", 0), Web)
        port = server.server_address[1]
        run = server.serve_forever
    else:
        listener = socket.create_server(("127.0.0.1", 0), backlog=256)
        port = listener.getsockname()[1]
        serve = {"echo": echo, "slow": slow, "source": source, "sink": sink}[kind]
        run = lambda: take(listener, serve)
    with open(file + ".new", "w") as out:
        out.write(str(port))
    os.replace(file + ".new", file)
    run()


main()
