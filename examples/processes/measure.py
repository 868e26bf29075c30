"""What the trials measure through a gate of CONNECT, or, where the gate is -, straight at an address.

measure.py latency GATE ADDRESS COUNT     one byte there and back, COUNT times: median and worst in microseconds
measure.py fill GATE ADDRESS SECONDS      writes as much as is taken in so many seconds: the count of bytes
measure.py churn GATE ADDRESS SECONDS     opens a tunnel, sends five bytes, reads five and closes, again and again:
                                          how many tunnels there were
measure.py down GATE ADDRESS SECONDS      reads for so many seconds: bytes a second
measure.py up GATE ADDRESS SECONDS        writes for so many seconds: bytes a second that were taken
measure.py hold GATE ADDRESS COUNT FILE   opens so many tunnels, writes FILE, and holds them for two minutes
"""

import os
import socket
import statistics
import sys
import time


def host_and_port(address):
    host, port = address.rsplit(":", 1)
    return host, int(port)


def tunnel(gate, address):
    if gate == "-":
        return socket.create_connection(host_and_port(address), timeout=20)
    connection = socket.create_connection(host_and_port(gate), timeout=20)
    connection.setsockopt(socket.IPPROTO_TCP, socket.TCP_NODELAY, 1)
    connection.sendall(f"CONNECT {address} HTTP/1.1\r\nHost: {address}\r\n\r\n".encode())
    head = b""
    while b"\r\n\r\n" not in head:
        piece = connection.recv(1)
        if not piece:
            raise OSError("the gate closed")
        head += piece
    if b" 200 " not in head.split(b"\r\n")[0]:
        raise OSError(head.decode(errors="replace").strip())
    return connection


def latency(gate, address, count):
    times = []
    with tunnel(gate, address) as connection:
        for _ in range(int(count)):
            start = time.perf_counter_ns()
            connection.sendall(b"x")
            if connection.recv(1) != b"x":
                raise OSError("no echo")
            times.append((time.perf_counter_ns() - start) / 1000)
    print(round(statistics.median(times)), round(max(times)))


def fill(gate, address, seconds):
    end = time.monotonic() + float(seconds)
    sent = 0
    with tunnel(gate, address) as connection:
        connection.settimeout(0.2)
        while time.monotonic() < end:
            try:
                sent += connection.send(bytes(65536))
            except TimeoutError:
                pass
    print(sent)


def churn(gate, address, seconds):
    end = time.monotonic() + float(seconds)
    count = 0
    while time.monotonic() < end:
        with tunnel(gate, address) as connection:
            connection.sendall(b"hello")
            got = b""
            while len(got) < 5:
                piece = connection.recv(5)
                if not piece:
                    raise OSError("no echo")
                got += piece
        count += 1
    print(count)


def down(gate, address, seconds):
    room = bytearray(1 << 20)
    got = 0
    with tunnel(gate, address) as connection:
        begin = time.monotonic()
        while time.monotonic() < begin + float(seconds):
            some = connection.recv_into(room)
            if not some:
                raise OSError("the tunnel closed")
            got += some
        print(round(got / (time.monotonic() - begin)))


def up(gate, address, seconds):
    piece = bytes(1 << 20)
    sent = 0
    with tunnel(gate, address) as connection:
        begin = time.monotonic()
        while time.monotonic() < begin + float(seconds):
            sent += connection.send(piece)
        print(round(sent / (time.monotonic() - begin)))


def hold(gate, address, count, file):
    held = [tunnel(gate, address) for _ in range(int(count))]
    with open(file + ".new", "w") as out:
        out.write(str(len(held)))
    os.replace(file + ".new", file)
    time.sleep(120)


KINDS = {"latency": latency, "fill": fill, "churn": churn, "down": down, "up": up, "hold": hold}
KINDS[sys.argv[1]](*sys.argv[2:])
