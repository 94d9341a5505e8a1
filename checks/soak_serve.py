#!/usr/bin/env python3
"""Runs a `morphd serve` with 64 clients at once for as long as is asked for. Each makes one connection after the other, sends
a random session of all operations (checks/random_session.py), ten times over, in pieces and with pauses, and compares every
byte that comes with the reference model (checks/reference_model.py): the sessions share no name, whatever names they use. Some clients
break their connection off anywhere. Beside them there is always a bad client of each kind that checks/soak_neighbours.py has, among
them one that opens pictures of 2048 x 2048, and a good one (checks/good_client.py), whose times are taken.

    python3 checks/soak_serve.py crates/morphd/out/morphd [SECONDS [SEED [WORDS of the service]]]

Its last line has sessions, requests, how often a client was bad, the resident size at the start and at the end, and how long a good client
waits. It begins by spoiling what came, to show that it would notice. The service has the settings of the unit for systemd, and as many
pools for each session. At the end it is no larger than it was before the first client, but for SLACK, ends with status 0 when its
standard input does, and has told nothing. It ends by itself: each reply has a time limit, and so has the whole.
"""
import collections
import contextlib
import os
import random
import subprocess
import sys
import threading
import time

import reference_model
import soak_neighbours
from kept_memory import SLACK, settings_for
from peers import hang_up
from random_session import written
from server import NoAnswer, Service
from soak_neighbours import KINDS, MEMORY, Neighbours

HERE = os.path.dirname(os.path.realpath(__file__))
CLIENTS = 64
# Of so many sessions of a client one is broken off, and so often each is sent.
BROKEN, TIMES = 8, 10
# How long a reply may take, and all that comes behind the time that was asked for, in seconds.
PATIENCE, GRACE = 120, 300
# How often it is told how far it is.
TELLS = 10
# How long the service waits for a client.
IDLE = 600
# So many sessions are there for all clients but those that come in crowds.
SESSIONS = CLIENTS + len(KINDS) + 2


class Differs(Exception):
    """Something else came than the reference model has."""


def heard(client):
    """All that comes until the end. Who speaks on behind the end of his session is not waited for long, and his connection may
    break once all has come."""
    try:
        return client.rest()
    except NoAnswer:
        return client.taken(len(client.held))


class Hand:
    """One client: a session on each of its connections, one after the other."""

    def __init__(self, soak, number):
        self.soak, self.number, self.made, self.has_ended = soak, number, 0, False
        self.chance = random.Random("%s client %d" % (soak.seed, number))
        self.counts = collections.Counter()

    def send(self, client, data):
        """In pieces, and with pauses between them; what the session has ended before is not sent."""
        try:
            self.send_pieces(client, data)
        except NoAnswer:
            self.counts["not taken"] += 1

    def send_pieces(self, client, data):
        while data:
            size = self.chance.choice((len(data), len(data), 1, 7, 100, 4096))
            client.send(data[:size])
            data = data[size:]
            if self.chance.randrange(4) == 0:
                time.sleep(self.chance.choice((0.0, 0.001, 0.05)))

    def next_session(self):
        """A session, and what the model has of it. No connection waits for the model, which is slow with some."""
        data = written(random.Random("%s %d %d" % (self.soak.seed, self.number, self.made)))
        self.made += 1
        with self.soak.away():
            return data, reference_model.served(data)

    def session(self, data, model):
        with self.soak.service.connect(PATIENCE) as client:
            first = self.chance.randrange(len(data) + 1)
            self.send(client, data[:first])
            if self.chance.randrange(BROKEN) == 0:
                hang_up(client)
                self.counts["broken off"] += 1
                return
            self.send(client, data[first:])
            try:
                client.is_over()
            except OSError:
                self.counts["not taken"] += 1
            come = heard(client)
        wanted, _, found = model
        if self.soak.spoils(come) != wanted:
            raise Differs("session %d of client %d: %d bytes came, and %d are due" % (self.made - 1, self.number, len(come), len(wanted)))
        self.counts.update(found)
        self.counts["sessions"] += 1

    def works(self):
        while time.monotonic() < self.soak.ends() and not self.soak.fault:
            data, model = self.next_session()
            for _ in range(TIMES):
                if time.monotonic() < self.soak.ends() and not self.soak.fault:
                    self.session(data, model)


class Soak:
    """A service, its clients, and what was seen of them."""

    def __init__(self, program, seconds, seed, words=()):
        self.program, self.seconds, self.seed, self.words, self.fault = program, seconds, seed, words, None
        self.service, self.begun, self.told = None, time.monotonic(), time.monotonic()
        self.hands, self.turn, self.resting, self.has_rest = [], threading.Condition(), 0, False

    def ends(self):
        return self.begun + self.seconds

    def spoils(self, come):
        """What came is compared as it is."""
        return come

    # ---- rests

    @contextlib.contextmanager
    def away(self):
        """A client without a connection: while all rest it does not come back."""
        with self.turn:
            self.resting += 1
            self.turn.notify_all()
        yield
        with self.turn:
            if not self.turn.wait_for(lambda: not self.has_rest, PATIENCE):
                raise NoAnswer("a rest did not end in %d s" % PATIENCE)
            self.resting -= 1

    def size_at_rest(self):
        """The resident size in bytes while no session runs."""
        with self.turn:
            self.has_rest = True
        self.waits(lambda: self.resting + sum(it.has_ended for it in self.hands) == len(self.hands), PATIENCE)
        self.service.is_at_rest()
        size = 1024 * self.service.size()
        with self.turn:
            self.has_rest = False
            self.turn.notify_all()
        return size

    def tells(self, fault):
        """The first fault of any client ends the soak."""
        self.fault = self.fault or fault

    # ---- threads

    def works(self, hand):
        """The first fault of any client ends the soak."""
        try:
            hand.works()
        except Exception as fault:
            self.tells(NoAnswer("client %d: %s: %s" % (hand.number, type(fault).__name__, fault)))
        with self.turn:
            hand.has_ended = True
            self.turn.notify_all()

    def waits(self, is_so, seconds):
        """Until it is so, for so many seconds at most; ends at the first fault of a client, and tells how far it is."""
        begun = time.monotonic()
        while not self.fault and not is_so():
            now = time.monotonic()
            if now > begun + seconds:
                raise NoAnswer("after %.0f s not all clients were done" % seconds)
            if now > self.told + TELLS:
                self.told = now
                print("  %.0f s: %s, %d kB" % (now - self.begun, self.counted(), self.service.size()), flush=True)
            time.sleep(0.1)
        if self.fault:
            raise self.fault

    def counted(self):
        counts = sum((it.counts for it in self.hands), collections.Counter())
        return "%d sessions and %d broken off, %d requests, %d images and %d curves compared" % tuple(
            counts[it] for it in ("sessions", "broken off", "requests", "images", "curves"))

    # ---- the whole

    def to_the_end(self):
        more = ("--memory", str(MEMORY), *self.words)
        with Service(self.program, SESSIONS, tile=64, idle=IDLE, settings=settings_for(SESSIONS), more=more) as self.service:
            self.runs()

    def work(self):
        """All clients for as long as was asked for; how often they were bad, and the good one's times."""
        neighbours, good = Neighbours(self.service, self.seed, self.tells), Good(self.service.port)
        self.hands = [Hand(self, number) for number in range(CLIENTS)]
        neighbours.begin()
        for hand in self.hands:
            threading.Thread(target=self.works, args=(hand,), daemon=True).start()
        self.waits(lambda: time.monotonic() > self.ends(), self.seconds + GRACE)
        faults, times = neighbours.end(), good.end()
        if self.fault:
            raise self.fault
        return faults, times

    def runs(self):
        self.begun = self.told = time.monotonic()
        start = self.service.size()
        faults, times = self.work()
        last, greatest = self.size_at_rest() // 1024, self.service.size("VmHWM")
        status, told = self.service.end(PATIENCE)
        if (status, told) != (0, b""):
            raise Differs("the service ended with status %d and told %r" % (status, told))
        faults += sum(it.counts["broken off"] for it in self.hands)
        print("soak_serve.py: %s; %d times a client was bad; resident %d kB at the start, %d at most, %d at the end, of %d that it may have; "
              "%s; seed %s" % (self.counted(), faults, start, greatest, last, start + SLACK // 1024, times, self.seed))
        if last > start + SLACK // 1024:
            raise Differs("the service grew by %d kB, and may by %d" % (last - start, SLACK // 1024))


class Good:
    """A good client in a process of its own."""

    def __init__(self, port):
        words = [sys.executable, "-B", "%s/good_client.py" % HERE, str(port)]
        self.run = subprocess.Popen(words, stdin=subprocess.PIPE, stdout=subprocess.PIPE, stderr=subprocess.STDOUT)

    def end(self):
        """Its times in words."""
        try:
            said, _ = self.run.communicate(timeout=PATIENCE)
        except subprocess.TimeoutExpired:
            self.run.kill()
            raise NoAnswer("the good client did not end in %d s" % PATIENCE) from None
        if self.run.returncode:
            raise Differs("the good client: %s" % said.decode(errors="replace").strip()[-300:])
        return "of %s good clients half waited %s ms at most, 99 of 100 %s, all %s" % tuple(said.decode().split())


class Spoiled(Soak):
    """One byte comes otherwise."""

    def spoils(self, come):
        return come[:len(come) // 2] + bytes([come[len(come) // 2] ^ 1]) + come[len(come) // 2 + 1:] if come else b"?"


def notices(program):
    """Whether a session that is spoiled is noticed, and one that is not spoiled is not."""
    noticed = []
    for kind in (Soak, Spoiled):
        soak = kind(program, 60, "worked")
        with Service(program, 1) as soak.service:
            hand = Hand(soak, 0)
            try:
                while not hand.counts["sessions"]:
                    hand.session(*hand.next_session())
                noticed.append(False)
            except Differs:
                noticed.append(True)
    return noticed == [False, True] and soak_neighbours.notices()


def main():
    program = os.path.abspath(sys.argv[1])
    seconds = float(sys.argv[2]) if len(sys.argv) > 2 else 60.0
    seed = sys.argv[3] if len(sys.argv) > 3 else "%d" % time.time()
    if not notices(program):
        sys.exit("soak_serve.py: a spoiled reply was not noticed")
    print("soak_serve.py: spoiled replies are noticed; seed %s" % seed, flush=True)
    soak = Soak(program, seconds, seed, sys.argv[4:])
    try:
        soak.to_the_end()
    except (Differs, NoAnswer) as fault:
        print("soak_serve.py: seed %s: %s" % (seed, fault), flush=True)
        # Clients that wait still are not waited for.
        os._exit(1)


if __name__ == "__main__":
    main()
