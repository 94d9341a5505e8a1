#!/usr/bin/env python3
"""Bad clients of a real `morphd serve`, each beside one that does well: its session ends by the rules or waits alone, the
others go on, and the service ends with status 0 at the end of its standard input. Descriptors that run short, and memory
that is refused, cost single sessions or requests. The memory of the service grows with what came, and never with what was
announced.

    python3 checks/bad_peers_serve.py crates/morphd/out/morphd

It prints a line for each kind of client, and ends with status 1 at the first one that is served otherwise.
"""
import os
import resource
import subprocess
import sys
import time

from bad_peers import SLACK
from peers import ERODE, FETCHES, LONGEST, PICTURE, REPLIES, Wrong, bounded, hang_up, must_be, must_be_unwritten
from server import NoAnswer, Server, Service


def goes_on(service):
    """A client that does well is served as ever, from a table without names."""
    with service.connect() as client:
        client.send(ERODE + b"QUIT\n")
        must_be([client.reply() for _ in REPLIES], REPLIES, "the good client's replies")
        must_be(client.rest(), b"", "behind the good client's QUIT")


def ends_well(service):
    goes_on(service)
    must_be(service.end(), (0, b""), "the service's end")


def breaks_off(program, sent, replies):
    """A client that says nothing more behind these bytes, and one that hangs up there."""
    with Service(program, 1) as service:
        with service.connect() as peer:
            peer.send(sent)
            peer.is_over()
            must_be(peer.rest(), replies, "the replies")
        goes_on(service)
        peer = service.connect()
        peer.send(sent)
        hang_up(peer)
        ends_well(service)


def within_a_line(program):
    """closes in the middle of a line"""
    breaks_off(program, b"STATUS x\nSTAT", b"ERR 41 UNKNOWN\nERR 12 CUT\n")


def within_a_payload(program):
    """closes in the middle of a payload"""
    breaks_off(program, b"LOAD x 19\nP2\n5 1\n", b"ERR 12 CUT\n")


def within_a_reply(program):
    """closes while its replies are written"""
    with Service(program, 1) as service:
        peer = service.connect()
        must_be(peer.ask(b"LOAD large %d\n" % len(PICTURE) + PICTURE), (b"OK 0\n", b""), "the picture")
        peer.send(b"FETCH large\n" * FETCHES)
        peer.exactly(100000)
        must_be_unwritten(service, peer, 100000 + len(peer.held))
        hang_up(peer)
        ends_well(service)


def speaks_on(program):
    """sends 32 MiB behind the end of its session"""
    with Service(program, 1) as service:
        with service.connect() as peer:
            peer.send(b"STATUS x\nQUIT\n" + bytes(1 << 25))
            peer.is_over()
            must_be(peer.rest(), b"ERR 41 UNKNOWN\n", "the reply before the end")
        with service.connect() as peer:
            peer.send(b"A" * (1 << 20))
            must_be(peer.rest(), b"ERR 10 LINE\n", "the reply to a line without an end")
        ends_well(service)


def took(what):
    begun = time.monotonic()
    what()
    return time.monotonic() - begun


def keeps_silent(program):
    """sends nothing for longer than it is waited for"""
    with Service(program, 1, idle=2) as service:
        with service.connect() as peer:
            peer.send(b"STATUS x\nSTAT")
            seconds = took(lambda: must_be(peer.rest(), b"ERR 41 UNKNOWN\n", "the replies to a client that falls silent"))
        if not 1.5 < seconds < 10:
            raise Wrong("a client that falls silent is waited for %.1f s" % seconds)
        ends_well(service)
        return "waited for %.1f s of 2" % seconds


def never_listens(program):
    """never reads its replies"""
    with Service(program, 1, idle=2) as service:
        peer = service.connect()
        must_be(peer.ask(b"LOAD large %d\n" % len(PICTURE) + PICTURE), (b"OK 0\n", b""), "the picture")
        peer.send(b"FETCH large\n" * FETCHES)
        # The service has one session, so the next client waits for the end of this one.
        seconds = took(lambda: goes_on(service))
        if not 1 < seconds < 20:
            raise Wrong("a client that does not read is waited for %.1f s" % seconds)
        # It was cut within a write, and not when the service waited for its next line.
        must_be_unwritten(service, peer)
        hang_up(peer)
        ends_well(service)
        return "waited for %.1f s of 2" % seconds


def waits_for_ever(program):
    """sends nothing, where no bound is set"""
    with Service(program, 2) as service:
        with service.connect() as silent:
            silent.send(b"STAT")
            begun = time.monotonic()
            while time.monotonic() < begun + 4:
                goes_on(service)
            must_be(silent.ask(b"US x\n"), (b"ERR 41 UNKNOWN\n", b""), "a line that came late")
            silent.send(b"QUIT\n")
            must_be(silent.rest(), b"", "behind QUIT")
        ends_well(service)


def announces_much(program):
    """announces 134,217,728 bytes and sends ten"""
    peers = 60
    with Service(program, peers + 1) as service:
        clients = [service.connect() for _ in range(peers)]
        for client in clients:
            # So it is known that the session runs.
            must_be(client.ask(b"STATUS x\n"), (b"ERR 41 UNKNOWN\n", b""), "a first line")
        before = service.size()
        for client in clients:
            client.send(b"LOAD x %d\n0123456789" % LONGEST)
        must_be(service.is_at_rest(), True, "the service's rest")
        goes_on(service)
        grown = service.size() - before
        if grown > SLACK:
            raise Wrong("%d announced payloads of %d bytes took %d kB" % (peers, LONGEST, grown))
        for client in clients:
            client.is_over()
            must_be(client.rest(), b"ERR 12 CUT\n", "the reply to a payload that ends too soon")
        ends_well(service)
        return "%d of them take %d kB" % (peers, grown)


def many_at_once(program):
    """is one of 80 where there are descriptors for 20"""
    with Service(program, 64, descriptors=24) as service:
        clients = [service.connect() for _ in range(80)]
        for client in clients:
            client.send(ERODE)
        for client in clients:
            must_be([client.reply() for _ in REPLIES], REPLIES, "the replies to one of many")
            client.send(b"QUIT\n")
            must_be(client.rest(), b"", "behind QUIT")
            client.wire.close()
        ends_well(service)


def comes_late(program):
    """comes when the service is to end"""
    with Service(program, 2, more=("--grace", "600")) as service:
        with service.connect() as running:
            must_be(running.ask(b"STATUS x\n"), (b"ERR 41 UNKNOWN\n", b""), "a first line")
            service.run.stdin.close()
            begun, refused = time.monotonic(), False
            while not refused and time.monotonic() < begun + 20:
                refused = subprocess.run(["sh", "-c", "exec 3<>/dev/tcp/127.0.0.1/%d" % service.port], executable="/bin/bash",
                                         stderr=subprocess.DEVNULL).returncode != 0
            must_be(refused, True, "the service accepts no more")
            must_be(running.ask(b"STATUS x\n"), (b"ERR 41 UNKNOWN\n", b""), "the session that runs")
            must_be(service.run.poll(), None, "the service's end before its session's")
            running.send(b"QUIT\n")
            must_be(running.rest(), b"", "behind QUIT")
        must_be(service.run.wait(20), 0, "the service's status")


def takes_all_memory(program):
    """loads more than there is memory for"""
    limit = 256 << 20
    with Service(program, 2) as service:
        resource.prlimit(service.run.pid, resource.RLIMIT_AS, (limit, limit))
        with service.connect() as peer:
            count, reply = -1, b""
            while count < 256 and reply in (b"", b"OK %d\n" % count):
                count += 1
                reply = peer.ask(b"LOAD x%d %d\n" % (count, len(PICTURE)) + PICTURE)[0]
            must_be(reply, b"ERR 50 MEMORY\n", "the reply behind %d pictures within %d bytes" % (count, limit))
            # What was met while a payload came ends the session, and all that it held is free.
            must_be(peer.rest(), b"", "behind the end of the session")
        ends_well(service)
        return "ERR 50 MEMORY behind %d pictures of 4 MiB within 256" % count


def loads_once(program):
    """loads 16 MiB, which stay where they came"""
    picture = b"P5\n4096 4096\n255\n" + bytes(1 << 24)
    for kind in (Service, Server):
        with kind(program, 1) as server, server.connect() as peer:
            must_be(peer.ask(b"STATUS x\n"), (b"ERR 41 UNKNOWN\n", b""), "a first line")
            before = server.size("VmHWM")
            must_be(peer.ask(b"LOAD f %d\n" % len(picture) + picture), (b"OK 0\n", b""), "the picture")
            grown = server.size("VmHWM") - before
            if 1024 * grown > len(picture) + (4 << 20):
                raise Wrong("a picture of %d bytes took %d kB at most" % (len(picture), grown))
            peer.send(b"QUIT\n")
            must_be(peer.rest(), b"", "behind QUIT")
    return "%d bytes take %d kB at most" % (len(picture), grown)


def port_is_taken(program):
    """is given a port that is taken"""
    with Service(program, 1) as first:
        words = [program, "serve", "--port", str(first.port)]
        second = subprocess.run(words, stdin=subprocess.DEVNULL, capture_output=True, timeout=60)
        told = b"error: socket: port %d: taken\n" % first.port
        must_be((second.returncode, second.stdout, second.stderr), (1, b"", told), "the second service's end")
        ends_well(first)


PEERS = (within_a_line, within_a_payload, within_a_reply, speaks_on, keeps_silent, never_listens, waits_for_ever, announces_much,
         many_at_once, comes_late, takes_all_memory, loads_once)


def main():
    program = os.path.abspath(sys.argv[1])
    for peer in (*PEERS, port_is_taken):
        who = "a service that" if peer is port_is_taken else "a client that"
        begun = time.monotonic()
        try:
            with bounded():
                seen = peer(program)
        except (Wrong, NoAnswer, subprocess.TimeoutExpired) as fault:
            sys.exit("%s %s: %s" % (who, peer.__doc__, fault))
        print("%s %s: well, %.1f s%s" % (who, peer.__doc__, time.monotonic() - begun, "; " + seen if seen else ""), flush=True)


if __name__ == "__main__":
    main()
