#!/usr/bin/env python3
"""Bad clients of a real `morphd listen`, each beside one that does well: its session ends by the rules or waits alone, the
others go on, and the server ends with status 0. A port that is taken is told by its number, with status 1. The memory of the
server grows with what came, and never with what was announced.

    python3 checks/bad_peers.py crates/morphd/out/morphd

It prints a line for each kind of client, and ends with status 1 at the first one that is served otherwise.
"""
import os
import socket
import sys
import time

from peers import (ERODED, FETCHES, GIVEN, GIVEN_REPLIES, LONGEST, PICTURE, Wrong, bounded, hang_up, must_be,
                   must_be_unwritten)
from server import NoAnswer, Server, free_port, most_held

# What a server may take for each connection and each megabyte that came, in kB, besides what came.
SLACK = 8192


class GoodClient:
    """A client that does well: it loads a row and an element, and erodes the one by the other as often as it is asked to."""

    def __init__(self, server):
        self.client, self.made = server.connect(), 0
        self.client.send(GIVEN)
        must_be([self.client.line(), self.client.line()], GIVEN_REPLIES, "the good client's images")

    def goes_on(self):
        """It is served as ever."""
        name, ticket = b"e%d" % self.made, 2 + self.made
        self.client.send(b"RUN %s ERODE f b\nWAIT %s\nFETCH %s\n" % (name, name, name))
        replies = [self.client.reply() for _ in range(3)]
        wanted = [(b"OK %d\n" % ticket, b""), (b"DONE %d GREY 5 1 9\n" % ticket, b""), (b"IMAGE %d 14\n" % ticket, ERODED)]
        must_be(replies, wanted, "the good client's replies")
        self.made += 1

    def ends(self):
        self.client.send(b"QUIT\n")
        must_be(self.client.rest(), b"", "behind the good client's QUIT")
        self.client.wire.close()


def ends_well(server, good):
    """The good client goes on and ends, and then the server ends with status 0 and tells nothing."""
    good.goes_on()
    good.ends()
    must_be(server.end(), (0, b""), "the server's end")


def breaks_off(program, sent, replies, said):
    """A client that says nothing more behind these bytes, and one that hangs up there."""
    with Server(program, 3) as server:
        good, peer = GoodClient(server), server.connect()
        peer.send(sent)
        peer.is_over()
        must_be(peer.rest(), replies, "the replies to a client that ends " + said)
        peer.wire.close()
        good.goes_on()
        peer = server.connect()
        peer.send(sent)
        hang_up(peer)
        ends_well(server, good)


def within_a_line(program):
    """closes in the middle of a line"""
    breaks_off(program, b"STATUS x\nSTAT", b"ERR 41 UNKNOWN\nERR 12 CUT\n", "within a line")


def within_a_payload(program):
    """closes in the middle of a payload"""
    breaks_off(program, b"LOAD x 19\nP2\n5 1\n", b"ERR 12 CUT\n", "within a payload")


def within_a_reply(program):
    """closes while its replies are written"""
    with Server(program, 2) as server:
        good, peer = GoodClient(server), server.connect()
        must_be(peer.ask(b"LOAD large %d\n" % len(PICTURE) + PICTURE), (b"OK 2\n", b""), "the picture")
        peer.send(b"FETCH large\n" * FETCHES)
        peer.exactly(100000)
        must_be_unwritten(server, peer, 100000 + len(peer.held))
        hang_up(peer)
        # The picture has ticket 2.
        good.made += 1
        good_again(good)
        ends_well(server, good)


def good_again(good):
    for _ in range(100):
        good.goes_on()


def goes_on_for(good: GoodClient, seconds: float) -> None:
    """It is served as ever for so long. However quick it is, it leaves most of the board's 65,536 entries."""
    begun = time.monotonic()
    while time.monotonic() < begun + seconds:
        good_again(good)
        time.sleep(0.1)


def keeps_silent(program):
    """sends nothing for long"""
    with Server(program, 3) as server:
        silent, good, half = server.connect(), GoodClient(server), server.connect()
        half.send(b"STAT")
        goes_on_for(good, 5)
        must_be(half.ask(b"US f\n"), (b"DONE 0 GREY 5 1 9\n", b""), "a line that came late")
        must_be(silent.ask(b"STATUS f\n"), (b"DONE 0 GREY 5 1 9\n", b""), "the first line of a client that was silent")
        for client in (half, silent):
            client.is_over()
            must_be(client.rest(), b"", "behind the last reply")
            client.wire.close()
        ends_well(server, good)


def never_listens(program):
    """never reads its replies"""
    with Server(program, 2) as server:
        good, peer = GoodClient(server), server.connect()
        must_be(peer.ask(b"LOAD large %d\n" % len(PICTURE) + PICTURE), (b"OK 2\n", b""), "the picture")
        good.made += 1
        before = server.size()
        peer.send(b"FETCH large\n" * FETCHES)
        must_be(server.is_at_rest(), True, "the server's rest")
        # The rest is in no socket, and not in the server's memory either: a write waits.
        must_be_unwritten(server, peer)
        grown = server.size() - before
        if grown > SLACK:
            raise Wrong("%d pictures of %d bytes that nobody reads took %d kB" % (FETCHES, len(PICTURE), grown))
        goes_on_for(good, 3)
        must_be_unwritten(server, peer)
        # It has lost nothing: what it did not read waits for it.
        for _ in range(FETCHES):
            must_be(peer.reply(), (b"IMAGE 2 %d\n" % len(PICTURE), PICTURE), "the picture")
        peer.is_over()
        must_be(peer.rest(), b"", "behind the last picture")
        ends_well(server, good)


def many_lines_unread(program):
    """sends lines without an end and never reads"""
    with Server(program, 2) as server:
        good, peer = GoodClient(server), server.connect(patience=3)
        before, sent, is_full = server.size(), 0, False
        line = b"STATUS unknown\n" * 1000
        # Each line is answered by as many bytes, so the lines on their way and the replies fill what is held both ways.
        most = 2 * most_held() + 1024 * SLACK
        while not is_full and sent < most:
            try:
                peer.send(line)
                sent += len(line)
            except NoAnswer:
                is_full = True
        must_be(is_full, True, "a client that does not listen is not listened to for ever")
        good_again(good)
        grown = server.size() - before
        hang_up(peer)
        ends_well(server, good)
        return "%d bytes of lines were taken, then none; %d kB more" % (sent, grown)


def no_line_end(program):
    """sends 201 bytes without a line end"""
    with Server(program, 3) as server:
        good, peer = GoodClient(server), server.connect()
        peer.send(b"A" * 200)
        good_again(good)
        peer.send(b"A")
        must_be(peer.rest(), b"ERR 10 LINE\n", "the reply to 201 bytes of a line")
        peer = server.connect()
        peer.send(b"STATUS f\n" + b"A" * 201)
        must_be(peer.rest(), b"DONE 0 GREY 5 1 9\nERR 10 LINE\n", "the replies to a line and 201 bytes")
        ends_well(server, good)


def announces_much(program):
    """announces 134,217,728 bytes and sends ten"""
    peers = 60
    with Server(program, peers + 1) as server:
        good = GoodClient(server)
        clients = [server.connect() for _ in range(peers)]
        for client in clients:
            # So it is known that the session runs.
            must_be(client.ask(b"STATUS f\n"), (b"DONE 0 GREY 5 1 9\n", b""), "a first line")
        before = server.size()
        for client in clients:
            client.send(b"LOAD x %d\n0123456789" % LONGEST)
        must_be(server.is_at_rest(), True, "the server's rest")
        good_again(good)
        grown = server.size() - before
        if grown > SLACK:
            raise Wrong("%d announced payloads of %d bytes took %d kB" % (peers, LONGEST, grown))
        for client in clients:
            client.is_over()
            must_be(client.rest(), b"ERR 12 CUT\n", "the reply to a payload that ends too soon")
        ends_well(server, good)
        return "%d of them take %d kB" % (peers, grown)


def payload_that_comes(program):
    """announces 134,217,728 bytes and sends 32 MiB"""
    size = 1 << 25
    with Server(program, 2) as server:
        good, peer = GoodClient(server), server.connect()
        must_be(peer.ask(b"STATUS f\n"), (b"DONE 0 GREY 5 1 9\n", b""), "a first line")
        before = server.size()
        peer.send(b"LOAD x %d\n" % LONGEST + bytes(size))
        must_be(server.is_at_rest(), True, "the server's rest")
        good_again(good)
        grown = server.size() - before
        # A vector that grows is copied to one of twice its size.
        if grown < size // 1024 // 2 or grown > 3 * size // 1024 + SLACK:
            raise Wrong("%d bytes of a payload took %d kB" % (size, grown))
        hang_up(peer)
        must_be(server.is_at_rest(), True, "the server's rest")
        good_again(good)
        left = server.size() - before
        if left > SLACK:
            raise Wrong("%d kB are held behind a client that went" % left)
        ends_well(server, good)
        return "takes %d kB, and %d kB once the client went" % (grown, left)


def taken(port):
    """What a server tells of a port that another one has."""
    return b"error: socket: port %d: taken\n" % port


def port_is_taken(program):
    """finds its port taken"""
    with socket.socket() as door:
        door.bind(("127.0.0.1", free_port()))
        door.listen()
        with Server(program, 1, port=door.getsockname()[1]) as server:
            must_be(server.end(), (1, taken(server.port)), "a server whose port is taken")
    # The first server waits for a second connection, so it listens.
    with Server(program, 2) as first:
        client = first.connect()
        with Server(program, 1, port=first.port) as second:
            must_be(second.end(), (1, taken(first.port)), "a second server on one port")
        must_be(client.ask(b"STATUS x\n"), (b"ERR 41 UNKNOWN\n", b""), "the first server's reply")
        for it in (client, first.connect()):
            it.send(b"QUIT\n")
            must_be(it.rest(), b"", "behind QUIT")
        must_be(first.end(), (0, b""), "the first server's end")


PEERS = (within_a_line, within_a_payload, within_a_reply, keeps_silent, never_listens, many_lines_unread, no_line_end,
         announces_much, payload_that_comes)


def main():
    program = os.path.abspath(sys.argv[1])
    for peer in (*PEERS, port_is_taken):
        who = "a server that" if peer is port_is_taken else "a client that"
        begun = time.monotonic()
        try:
            with bounded():
                seen = peer(program)
        except (Wrong, NoAnswer) as fault:
            sys.exit("%s %s: %s" % (who, peer.__doc__, fault))
        print("%s %s: well, %.1f s%s" % (who, peer.__doc__, time.monotonic() - begun, "; " + seen if seen else ""), flush=True)


if __name__ == "__main__":
    main()
