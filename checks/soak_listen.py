#!/usr/bin/env python3
"""Runs a `morphd listen` with 64 connections at once for as long as is asked for. Each has random sessions over names of its
own and over some that it shares with others, half of these sessions with cancels and releases; some connections are broken
off. Each reply has to be one that may come (checks/board_knowledge.py), and each image and curve that comes is compared
with the definition (checks/reference_model.py).

    python3 checks/soak_listen.py crates/morphd/out/morphd [SECONDS [SEED]]

At the end no reply may be missing, the server ends with status 0 and tells nothing, and it is no larger than it was when
the first minute was over, but for the log and the receipts: twice all clients rest, what was accepted is released, and the
resident size is read. Between them it may grow by CALL bytes for each call and by ENTRY bytes more for each entry, as they
were measured, and by SLACK for what the C library keeps of freed memory.

It prints requests, replies, images and the greatest resident size. It begins by spoiling replies, to show that it would
notice. It ends by itself: each reply has a time limit, and so has the whole.
"""
import collections
import os
import random
import sys
import threading
import time

import board_knowledge
import reference_model
from board_knowledge import ABSENT, DEAD, DONE, PENDING, RELEASED, Differs, Entry, Judge, Tickets
from random_session import Writer
from server import Client, NoAnswer, Server

CONNECTIONS = 64
WORKERS = 4
# Of so many connections one is broken off.
BROKEN = 8
# How many entries the sessions may make: a board takes 65,536.
ENTRIES = 58000
# How long a reply may take, and all that comes behind the time that was asked for, in seconds.
PATIENCE, GRACE = 120, 300
# How often it is told how far it is.
TELLS = 10
# By how many bytes a server may grow: for a call, for an entry besides its calls, and in all.
CALL, ENTRY, SLACK = 344, 720, 16 << 20


class Small(Writer):
    """Payloads of images that the definitions are quick with; some lie over two tiles."""

    def frame(self):
        if self.often(6):
            return self.chance.randint(1, 9), self.chance.randint(1, 9)
        sides = self.chance.randint(60, 80), self.chance.randint(1, 3)
        return sides if self.often(2) else sides[::-1]

    def number(self, operation):
        if not self.often(25):
            return self.chance.choice((0, 33 if operation == "SPECTRUM" else 255, 65536, 999999999))
        return self.chance.choice((0, 1, 5, 9, 128, 256) if operation == "THRESHOLD" else (1, 1, 2, 2, 3, 4))


def given(chance, name, kind):
    """The definition of a random image or element, where its payload is well."""
    payloads = Small(chance)
    if kind == "ELEMENT":
        payload, ox, oy = payloads.bitmap()
        return board_knowledge.element(name, payload, ox, oy)
    return board_knowledge.image(name, payloads.file())


def some_given(chance, name, kind):
    """The definition of a random image or element, with as many payloads tried as it takes."""
    while True:
        try:
            return given(chance, name, kind)
        except reference_model.Refused:
            pass


def some_command(chance, name, images, elements):
    """The definition of a random command on some of these definitions."""
    operation = chance.choice(list(reference_model.OPERATIONS))
    count, numbers, _ = reference_model.OPERATIONS[operation]
    reads = [chance.choice(images)] + [chance.choice(elements) for _ in range(count)]
    return board_knowledge.command(name, operation, reads, [Small(chance).number(operation) for _ in range(numbers)])


class Shared:
    """The definitions that all clients share: every other second there are new ones."""

    def __init__(self, seed, seconds):
        self.seed, self.begun, self.period = seed, time.monotonic(), max(2.0, seconds / 500)
        self.made, self.lock = {}, threading.Lock()

    def now(self):
        return int((time.monotonic() - self.begun) / self.period)

    def round(self, number):
        """An image, an element, and three commands, of which the last ones may read what the first ones make."""
        with self.lock:
            if number not in self.made:
                self.made[number] = self.new_round(number)
            return self.made[number]

    def new_round(self, number):
        chance, name = random.Random("%s shared %d" % (self.seed, number)), "all%d-" % number
        images, element = [some_given(chance, name + "f", "GREY")], some_given(chance, name + "b", "ELEMENT")
        commands = []
        for k in range(3):
            commands.append(some_command(chance, name + "r%d" % k, images, [element]))
            images += [it for it in commands[-1:] if it.shape[0] != "CURVE"]
        return [images[0], element, *commands]


class Hand:
    """One client: its connection, what it knows, and what it has asked for."""

    def __init__(self, soak, number, client):
        self.soak, self.number, self.client = soak, number, client
        self.chance = random.Random("%s connection %d" % (soak.seed, number))
        self.judge, self.own, self.shared = Judge(soak.tickets), [], {}
        self.asked, self.answered, self.names, self.last = 0, 0, 0, collections.deque(maxlen=20)
        self.has_ended, self.cancels = False, False

    # ---- requests, each with what judges its reply

    def make(self, entry):
        return entry.what.request, lambda reply: self.judge.made(entry, reply)

    def look(self, word, entry):
        return b"%s %s\n" % (word, entry.what.name.encode()), lambda reply: self.judge.looked_at(entry, word, reply)

    def cancel(self, entry):
        return b"CANCEL %s\n" % entry.what.name.encode(), lambda reply: self.judge.cancelled(entry, reply)

    def release(self, entry):
        return b"RELEASE %s\n" % entry.what.name.encode(), lambda reply: self.judge.released(entry, reply)

    def refused(self, request, code):
        return request, lambda reply: self.judge.refused([code], request, reply)

    def ask(self, requests):
        """Sends all of them at once, or in pieces, and judges the replies."""
        data = b"".join(request for request, _ in requests)
        self.asked += len(requests)
        for piece in self.pieces(data):
            self.client.send(piece)
        for request, judged in requests:
            self.last.append(request[:60])
            reply = self.client.reply()
            self.answered += 1
            judged(reply)

    def pieces(self, data):
        if self.chance.randrange(10) or len(data) < 2:
            return [data]
        at = self.chance.randrange(1, len(data))
        return [data[:at], data[at:]]

    # ---- sessions

    def new_name(self):
        self.names += 1
        return "own%d-%d" % (self.number, self.names)

    def new_given(self, kind):
        """A request that loads an image or an element of its own; some payloads are refused."""
        name = self.new_name()
        try:
            what = given(self.chance, name, kind)
        except reference_model.Refused as fault:
            return self.refused_payload(name, kind, fault.code)
        entry = Entry(what, (), False)
        self.own.append(entry)
        return self.make(entry)

    def refused_payload(self, name, kind, code):
        """A request of this kind with a payload that is refused by this code, if one is soon found."""
        for _ in range(200):
            payloads = Small(self.chance)
            payload, ox, oy = payloads.bitmap() if kind == "ELEMENT" else (payloads.file(), 0, 0)
            numbers = "%d %d " % (ox, oy) if kind == "ELEMENT" else ""
            request = ("%s %s %s%d\n" % ("ELEMENT" if kind == "ELEMENT" else "LOAD", name, numbers, len(payload))).encode()
            try:
                reference_model.element_in(payload, ox, oy) if kind == "ELEMENT" else reference_model.image_in(payload)
            except reference_model.Refused as fault:
                return self.refused(request + payload, fault.code)
        return self.refused(b"LOAD %s 0\n" % name.encode(), 20)

    def new_command(self):
        """A command of its own, on entries of its own and on shared ones."""
        known = self.own + [it for it in self.shared_entries() if self.chance.randrange(4) == 0]
        images = [it for it in known if it.what.shape and it.what.shape[0] in ("BIT", "GREY")]
        elements = [it for it in known if it.what.shape and it.what.shape[0] == "ELEMENT"]
        if not images or not elements:
            return self.new_given("GREY")
        if self.chance.randrange(60) == 0:
            images, elements = elements, images
        by_name = {it.what.name: it for it in known}
        what = some_command(self.chance, self.new_name(), [it.what for it in images], [it.what for it in elements])
        entry = Entry(what, tuple(by_name[it.name] for it in what.reads), False)
        if what.shape:
            self.own.append(entry)
        return self.make(entry)

    def shared_entries(self):
        """The entries of a round of shared definitions, of this time or a little before."""
        number = max(self.soak.shared.now() - self.chance.randrange(3), 0)
        if number not in self.shared:
            by_name = {}
            for what in self.soak.shared.round(number):
                by_name[what.name] = Entry(what, tuple(by_name[it.name] for it in what.reads), True)
            self.shared[number] = list(by_name.values())
            for old in [it for it in self.shared if it < number - 5]:
                del self.shared[old]
        return self.shared[number]

    def any_entry(self):
        """An entry of its own, or a shared one."""
        if self.own and self.chance.randrange(4):
            return self.chance.choice(self.own)
        return self.chance.choice(self.shared_entries())

    def one_request(self):
        kind, entry = self.chance.randrange(24), self.any_entry()
        if kind < 8:
            return self.new_command()
        if kind < 10:
            return self.new_given(self.chance.choice(("GREY", "ELEMENT")))
        if kind < 13:
            return self.make(self.chance.choice(self.shared_entries()))
        if kind == 13:
            return self.refused(b"%s nobody\n" % self.chance.choice((b"STATUS", b"WAIT", b"FETCH", b"CANCEL", b"RELEASE")), 41)
        if kind == 14 and ABSENT not in entry.may:
            return self.make(entry)
        if kind < 18 and self.cancels:
            return (self.cancel if kind < 17 else self.release)(entry)
        return self.look(self.chance.choice((b"FETCH", b"FETCH", b"STATUS", b"WAIT")), entry)

    def session(self):
        """Some images and elements, then requests at random, and then all is fetched or waited for, and released."""
        self.cancels = self.chance.randrange(2) == 0
        self.ask([self.new_given(kind) for kind in ("GREY", "GREY", "ELEMENT", "ELEMENT")])
        for _ in range(self.chance.choice((2, 4, 8))):
            self.ask([self.one_request() for _ in range(self.chance.choice((1, 1, 3, 6, 12)))])
        self.let_go()

    def let_go(self):
        for entry in self.own:
            word = b"FETCH" if entry.reads and self.chance.randrange(3) else b"STATUS"
            again = [self.look(self.chance.choice((b"FETCH", b"STATUS")), entry)] if self.chance.randrange(3) == 0 else []
            self.ask([self.look(b"WAIT", entry), self.look(word, entry), self.release(entry), *again])
        self.own.clear()

    # ---- its whole time

    def works(self):
        """One session after another until the time is over, or the connection is to be broken off."""
        is_broken = self.number % BROKEN == BROKEN - 1
        until = self.soak.until(self.chance.uniform(0.2, 0.9)) if is_broken else self.soak.until(1)
        while time.monotonic() < until:
            self.soak.rests()
            if self.judge.accepted < self.soak.share():
                self.session()
            else:
                self.ask([self.look(b"FETCH", self.chance.choice(self.shared_entries())) for _ in range(3)])
                time.sleep(0.2)
        if is_broken:
            self.breaks_off()
        else:
            self.says_quit()

    def says_quit(self):
        self.client.send(b"QUIT\n")
        rest = self.client.rest()
        if rest:
            raise Differs("behind QUIT came %r" % rest[:80])
        self.client.wire.close()

    def breaks_off(self):
        """Ends within a line, within a payload, or with replies that nobody reads."""
        self.cancels = False
        self.ask([self.new_given(kind) for kind in ("GREY", "ELEMENT")])
        last = [self.new_command()[0] for _ in range(3)]
        last = b"".join(last) + self.chance.choice((b"STAT", b"LOAD x 1000\nP5", b""))
        self.client.send(last)
        self.client.wire.close()


class Soak:
    """A server, its clients, and what was seen of them."""

    def __init__(self, program, seconds, seed):
        self.program, self.seconds, self.seed, self.tickets = program, seconds, seed, Tickets()
        self.server, self.begun, self.shared = None, time.monotonic(), Shared(seed, seconds)
        self.hands, self.threads, self.fault, self.told = [], [], None, self.begun
        self.turn, self.resting, self.has_rest = threading.Condition(), 0, False

    def until(self, part):
        return self.begun + part * self.seconds

    def share(self):
        """How many entries a connection may have made by now."""
        part = (time.monotonic() - self.begun) / self.seconds
        return ENTRIES / CONNECTIONS * max(min(part, 1.0), 0.02)

    # ---- rests

    def rests(self):
        """A client that has ended a session waits here while all rest."""
        with self.turn:
            if self.has_rest:
                self.resting += 1
                self.turn.notify_all()
                if not self.turn.wait_for(lambda: not self.has_rest, PATIENCE):
                    raise NoAnswer("a rest did not end in %d s" % PATIENCE)
                self.resting -= 1

    def all_rest(self):
        """Waits until each client rests or has ended."""
        with self.turn:
            self.has_rest = True
        self.waits(lambda: self.resting + sum(it.has_ended for it in self.hands[1:]) == len(self.threads), PATIENCE)

    def go_on(self):
        with self.turn:
            self.has_rest = False
            self.turn.notify_all()

    def size_at_rest(self):
        """The resident size in bytes once all is released, and the calls and the entries up to then."""
        steward = self.hands[0]
        for entry in [entry for hand in self.hands for entry in hand.own if hand.has_ended]:
            steward.ask([steward_wait(entry), steward_release(entry)])
        for number in list(self.shared.made):
            entries = [Entry(what, (), True) for what in self.shared.round(number)]
            steward.ask([request for entry in entries for request in (steward_wait(entry), steward_release(entry))])
        self.server.is_at_rest()
        return 1024 * self.server.size(), sum(it.answered for it in self.hands), len(self.tickets.by_name)

    # ---- threads

    def starts(self):
        self.hands = [Hand(self, number, self.server.connect(PATIENCE)) for number in range(CONNECTIONS)]
        self.begun = self.shared.begun = self.told = time.monotonic()
        self.threads = [threading.Thread(target=self.works, args=(hand,), daemon=True) for hand in self.hands[1:]]
        for thread in self.threads:
            thread.start()

    def works(self, hand):
        """The first fault of any client ends the soak."""
        try:
            hand.works()
        except Exception as fault:
            if not self.fault:
                self.fault = NoAnswer("connection %d: %s: %s; its last requests: %s"
                                      % (hand.number, type(fault).__name__, fault, list(hand.last)[-6:]))
        with self.turn:
            hand.has_ended = True
            self.turn.notify_all()

    def who_works(self):
        works = [it for it in self.hands[1:] if not it.has_ended]
        return "; ".join("connection %d behind %r" % (it.number, list(it.last)[-1:]) for it in works[:8]) or "nobody"

    def waits(self, is_so, seconds):
        """Until it is so, for so many seconds at most; ends at the first fault of a client, and tells how far it is."""
        begun = time.monotonic()
        while not self.fault and not is_so():
            now = time.monotonic()
            if now > begun + seconds:
                raise NoAnswer("after %.0f s not all clients were done: %s" % (seconds, self.who_works()))
            if now > self.told + TELLS:
                self.told = now
                print("  %.0f s: %s, %d kB" % (now - self.begun, self.counted(), self.server.size()), flush=True)
            time.sleep(0.1)
        if self.fault:
            raise self.fault

    def counted(self):
        count = lambda what: sum(what(it) for it in self.hands)
        return "%d requests, %d replies, %d images and %d curves compared, %d entries" % (
            count(lambda it: it.asked), count(lambda it: it.answered), count(lambda it: it.judge.images),
            count(lambda it: it.judge.curves), len(self.tickets.by_name))

    # ---- the whole

    def to_the_end(self):
        with Server(self.program, CONNECTIONS, WORKERS, tile=64) as self.server:
            self.runs()

    def runs(self):
        self.starts()
        first_minute = self.until(60 / self.seconds if self.seconds >= 120 else 0.4)
        self.waits(lambda: time.monotonic() > first_minute, self.seconds + GRACE)
        self.all_rest()
        first = self.size_at_rest()
        self.go_on()
        self.waits(lambda: all(it.has_ended for it in self.hands[1:]), self.seconds + GRACE)
        last = self.size_at_rest()
        greatest = self.server.size("VmHWM")
        self.hands[0].says_quit()
        status, told = self.server.end(PATIENCE)
        if (status, told) != (0, b""):
            raise Differs("the server ended with status %d and told %r" % (status, told))
        asked, answered = (sum(getattr(it, what) for it in self.hands) for what in ("asked", "answered"))
        if asked != answered:
            raise Differs("%d requests had %d replies" % (asked, answered))
        self.tells(first, last, greatest)

    def tells(self, first, last, greatest):
        """What was seen, and whether the server grew by more than the log and the receipts."""
        grown, calls, entries = (b - a for a, b in zip(first, last))
        allowed = CALL * calls + ENTRY * entries + SLACK
        print("%s; greatest resident size %d kB; seed %s" % (self.counted(), greatest, self.seed))
        print("  with all released: %d kB, and at the end %d kB: %d kB more for %d calls and %d entries, of %d kB that they may take"
              % (first[0] // 1024, last[0] // 1024, grown // 1024, calls, entries, allowed // 1024))
        if grown > allowed:
            raise Differs("the server grew by %d bytes, and may by %d" % (grown, allowed))


def steward_wait(entry):
    """A WAIT for what another client has left, whatever comes of it."""
    return b"WAIT %s\n" % entry.what.name.encode(), lambda reply: None


def steward_release(entry):
    return b"RELEASE %s\n" % entry.what.name.encode(), lambda reply: None


class Spoiled(Client):
    """A connection on which one byte of a reply comes otherwise: of its line, or of what follows it."""

    def spoil(self, number, part, at):
        self.number, self.part, self.at = number, part, at
        return self

    def reply(self):
        reply = list(super().reply())
        if self.number == 0:
            data = bytearray(reply[self.part])
            data[self.at % len(data)] ^= 1
            reply[self.part] = bytes(data)
        self.number -= 1
        return tuple(reply)


def has_noticed(program, number, part, at):
    """Whether a byte that is spoiled in this reply of a worked session is noticed."""
    with Server(program, 1) as server:
        hand = Hand(Soak(program, 60, "spoiled"), 0, Spoiled(server.connect().wire).spoil(number, part, at))
        f = Entry(board_knowledge.image("f", b"P2\n5 1\n9\n3 1 4 1 5\n"), (), False)
        b = Entry(board_knowledge.element("b", b"P1\n3 1\n111\n", 1, 0), (), False)
        e = Entry(board_knowledge.command("e", "ERODE", [f.what, b.what], []), (f, b), False)
        q = Entry(board_knowledge.command("q", "SPECTRUM", [f.what, b.what], [2]), (f, b), False)
        try:
            hand.ask([hand.make(it) for it in (f, b, e, q)] + [hand.look(b"WAIT", e), hand.look(b"FETCH", e), hand.look(b"FETCH", f),
                     hand.look(b"WAIT", q), hand.look(b"FETCH", q), hand.release(e), hand.look(b"STATUS", e)])
        except Differs:
            return True
        return False


def notices(program):
    """Whether spoiled images, a spoiled curve and spoiled lines are noticed, and a session that is not spoiled is not."""
    spoiled = [(5, 1, -1), (5, 1, 0), (6, 1, -3), (8, 1, 10), (8, 0, -2), (4, 0, -2), (2, 0, 3), (9, 0, 0), (10, 0, -2)]
    return all(has_noticed(program, *it) for it in spoiled) and not has_noticed(program, -1, 0, 0)


def main():
    program = os.path.abspath(sys.argv[1])
    seconds = float(sys.argv[2]) if len(sys.argv) > 2 else 60.0
    seed = sys.argv[3] if len(sys.argv) > 3 else "%d" % time.time()
    if not notices(program):
        sys.exit("soak_listen.py: a spoiled reply was not noticed")
    print("soak_listen.py: spoiled replies are noticed; seed %s" % seed, flush=True)
    soak = Soak(program, seconds, seed)
    try:
        soak.to_the_end()
    except (Differs, NoAnswer) as fault:
        print("soak_listen.py: seed %s: %s" % (seed, fault), flush=True)
        # Clients that wait still are not waited for.
        os._exit(1)


if __name__ == "__main__":
    main()
