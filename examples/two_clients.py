#!/usr/bin/env python3
"""Two clients on one board, by Python's socket alone: one loads a picture of grains and an element, the other opens the
picture by it, waits, fetches the result and shows it.

    python3 examples/two_clients.py crates/morphd/out/morphd [PORT]

It starts `morphd listen` for two sessions, on port 7001 if none is given, and ends with the server's exit status.
"""
import argparse
import pathlib
import socket
import subprocess
import sys
import time

HERE = pathlib.Path(__file__).resolve().parent


def connected(port):
    """A connection to the server, which takes a moment to listen, as a file of bytes."""
    for _ in range(500):
        try:
            wire = socket.create_connection(("127.0.0.1", port), timeout=60)
        except ConnectionRefusedError:
            time.sleep(0.02)
            continue
        # Each request goes out at once, and not when the last one is acknowledged.
        wire.setsockopt(socket.IPPROTO_TCP, socket.TCP_NODELAY, 1)
        file = wire.makefile("rwb")
        # The file holds the connection from here on, and ends it when it is closed.
        wire.close()
        return file
    sys.exit("no server listens on port %d" % port)


def ask(server, line, payload=b""):
    """Sends a request, and reads its reply: a line, and the bytes that it names."""
    server.write(line.encode() + b"\n" + payload)
    server.flush()
    words = server.readline().decode().split()
    print("  %-28s %s" % (line, " ".join(words)))
    return server.read(int(words[2])) if words[0] == "IMAGE" else b""


def loads_the_images(port):
    """The first client: a picture, and a square of five pixels each way with its origin in the middle."""
    picture = (HERE / "grains.pgm").read_bytes()
    square = b"P1\n5 5\n" + b"11111\n" * 5
    with connected(port) as server:
        ask(server, "LOAD grains %d" % len(picture), picture)
        ask(server, "ELEMENT square 2 2 %d" % len(square), square)
        server.write(b"QUIT\n")


def runs_and_fetches(port):
    """The second client, under the names that the first one gave."""
    with connected(port) as server:
        ask(server, "RUN opened OPEN grains square")
        ask(server, "WAIT opened")
        opened = ask(server, "FETCH opened")
        server.write(b"QUIT\n")
    return opened


def main():
    parser = argparse.ArgumentParser(description="Two clients on one board: one loads, the other opens and fetches.")
    parser.add_argument("program", metavar="MORPHD", help="the program morphd")
    parser.add_argument("port", metavar="PORT", type=int, nargs="?", default=7001, help="of the server (default: 7001)")
    given = parser.parse_args()
    program, port = given.program, given.port
    with subprocess.Popen([program, "listen", "--port", str(port), "--sessions", "2"]) as server:
        print("the first client:")
        loads_the_images(port)
        print("the second client:", flush=True)
        opened = runs_and_fetches(port)
    subprocess.run([sys.executable, str(HERE / "show.py"), "-"], input=opened, check=True)
    sys.exit(server.returncode)


if __name__ == "__main__":
    main()
