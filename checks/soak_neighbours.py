"""Bad clients of a `morphd serve` beside those of checks/soak_serve.py, which they may not disturb: of each kind that an attack from outside
found, one at a time, for as long as the soak goes on. Each is a function of a place beside the service, and does once what is bad. It
says what the service answered it where that is known: another byte than the model's ends the soak.
"""
import itertools
import random
import threading
import time

import kept_memory
from peers import ERODE, ERODED, LONGEST, Wrong, hang_up, must_be
from server import NoAnswer

# How long one of them is bad at a time, in seconds, and how long it is waited for.
WHILE, PATIENCE = 5, 300
SIDE = 1024
PICTURE = b"P5\n%d %d\n255\n" % (SIDE, SIDE) + bytes(range(256)) * (SIDE * SIDE // 256)
LOADED = b"LOAD large %d\n" % len(PICTURE) + PICTURE
FETCHED = b"IMAGE 0 %d\n" % len(PICTURE) + PICTURE
# What one line asks of a processor for seconds: a rank by as large an element as there may be.
HEAVY_SIDE, HEAVY = 512, 255
# STATUS lines of one client, in so many pieces; a piece is answered before the next is sent.
PIECES, LINES = 20, 10000
# How many MiB a client may take, and more questions than a log of that size has places for.
MEMORY, NO_MEMORY = 128, b"ERR 50 MEMORY\n"
MOST_QUESTIONS = MEMORY << 14
# So many come at once, which with all others are more than the service has sessions for.
CROWD = 24
# What a slow reader takes at a time, so often a second.
SLOW, OFTEN = 2000, 10


class Place:
    """Where a bad client stands: beside a service, until the soak stops."""

    def __init__(self, service, stop, seed):
        self.service, self.stop, self.chance = service, stop, random.Random(seed)

    def come(self):
        return self.service.connect(PATIENCE)

    def waits(self, seconds=WHILE):
        """Until then, or until the soak stops."""
        self.stop.wait(seconds)


def keeps_silent(place):
    """says half a line"""
    client = place.come()
    client.send(b"STAT")
    place.waits()
    hang_up(client)


def drips(place):
    """sends a byte a second of an announced payload"""
    client = place.come()
    client.send(b"LOAD x %d\n" % LONGEST)
    for _ in range(WHILE):
        client.send(b"P")
        place.waits(1)
    hang_up(client)


def is_deaf(place):
    """reads nothing of what it asks for"""
    client = place.come()
    client.send(LOADED + b"FETCH large\n" * 16)
    place.waits()
    hang_up(client)


def reads_slowly(place):
    """reads 20 kB a second"""
    with place.come() as client:
        must_be(client.ask(LOADED)[0], b"OK 0\n", "a picture")
        client.send(b"FETCH large\n" * 8)
        for turn in range(WHILE * OFTEN):
            must_be(client.exactly(SLOW), FETCHED[turn * SLOW:(turn + 1) * SLOW], "what comes slowly")
            place.waits(1 / OFTEN)
        hang_up(client)


def leaves_work(place):
    """hangs up behind a line that takes seconds"""
    heavy = b"P5\n%d %d\n255\n" % (HEAVY_SIDE, HEAVY_SIDE) + place.chance.randbytes(HEAVY_SIDE * HEAVY_SIDE)
    box = b"P1\n%d %d\n" % (HEAVY, HEAVY) + b"1" * (HEAVY * HEAVY)
    client = place.come()
    client.send(b"LOAD f %d\n%sELEMENT b 127 127 %d\n%s" % (len(heavy), heavy, len(box), box))
    must_be([client.line(), client.line()], [b"OK 0\n", b"OK 1\n"], "what is loaded")
    client.send(b"RUN r RANK f b 1000\nSTATUS r\n")
    place.waits(place.chance.choice((0, 0.05, 0.5)))
    hang_up(client)
    place.waits(1)


def asks_much(place):
    """asks for a STATUS 200,000 times"""
    with place.come() as client:
        client.send(ERODE)
        must_be([client.reply() for _ in range(4)][3], (b"IMAGE 2 14\n", ERODED), "an erosion")
        answer = b"DONE 2 GREY 5 1 9\n"
        for _ in range(PIECES):
            client.send(b"STATUS e\n" * LINES)
            must_be(client.exactly(len(answer) * LINES) == answer * LINES, True, "each STATUS is answered as the first")
        client.send(b"QUIT\n")
        must_be(client.rest(), b"", "behind QUIT")


def asks_on(place):
    """asks for a STATUS until the log may take no more, and goes on"""
    with place.come() as client:
        known, told, found = b"ERR 41 UNKNOWN\n", 0, 0
        while told < MOST_QUESTIONS and not found:
            client.send(b"STATUS x\n" * LINES)
            while client.held.count(b"\n") < LINES:
                client.more("answers to many a STATUS")
            said = client.taken(len(client.held))
            told, found = told + LINES, said.count(NO_MEMORY)
            wanted = known * (LINES - found) + NO_MEMORY * found
            must_be(said == wanted, True, "each STATUS is answered, until one finds no memory")
        must_be(found > 0, True, "a log that may take so much has no more places")
        must_be(client.ask(b"STATUS x\n")[0], NO_MEMORY, "a STATUS behind a full log")
        client.send(b"QUIT\n")
        must_be(client.rest(), b"", "behind QUIT")


def opens_large(place):
    """opens a picture of 2048 x 2048 eight times"""
    row = place.chance.choices(range(256), k=kept_memory.SIDE)
    sent, wanted = kept_memory.large_session(row)
    come = []
    kept_memory.speaks(place.service, sent, come)
    must_be(come[0] == wanted, True, "an opening of 2048 x 2048 is the definition's")


def drips_behind_quit(place):
    """says QUIT, and then a byte each 0.8 s"""
    client = place.come()
    client.send(b"STATUS x\nQUIT\n")
    must_be(client.line(), b"ERR 41 UNKNOWN\n", "a first line")
    try:
        for _ in range(6):
            place.waits(0.8)
            client.send(b"x")
    except NoAnswer:
        # It was not listened to for so long.
        pass
    hang_up(client)


def stays_behind_quit(place):
    """says QUIT and does not close"""
    with place.come() as client:
        client.send(b"STATUS x\nQUIT\n")
        must_be(client.rest(), b"ERR 41 UNKNOWN\n", "what is answered before QUIT")
        place.waits(3)


def speaks_on(place):
    """sends 4 MiB behind QUIT"""
    with place.come() as client:
        kept_memory.says(client, b"STATUS x\nQUIT\n" + bytes(1 << 22))
        hang_up(client)


def says_nothing_known(place):
    """sends what is no line"""
    with place.come() as client:
        kept_memory.says(client, b"STATUS x\n" + b"A" * 201)
        must_be(client.rest(), b"ERR 41 UNKNOWN\nERR 10 LINE\n", "the reply to no line")


def breaks_off(place):
    """ends within a payload"""
    with place.come() as client:
        client.send(b"LOAD x 1000000\nP5\n1000 1000\n255\n" + bytes(place.chance.randrange(900000)))
        client.is_over()
        must_be(client.rest(), b"ERR 12 CUT\n", "the reply to half a payload")


def crowds(place):
    """is one of more than are served at once"""
    clients = [place.come() for _ in range(CROWD)]
    for client in clients:
        client.send(ERODE + b"QUIT\n")
    wanted = b"OK 0\nOK 1\nOK 2\nIMAGE 2 14\n" + ERODED
    for number, client in enumerate(clients):
        if number % 3 == 0:
            hang_up(client)
            continue
        with client:
            must_be(client.rest(), wanted, "the replies to one of a crowd")


def only_comes(place):
    """comes and goes without a word"""
    for client in [place.come() for _ in range(CROWD)]:
        hang_up(client)


KINDS = (keeps_silent, drips, is_deaf, reads_slowly, leaves_work, asks_much, asks_on, opens_large, drips_behind_quit, stays_behind_quit, speaks_on,
         says_nothing_known, breaks_off, crowds, only_comes)


def hears_another_byte(_):
    """hears another byte than it has to"""
    must_be(b"x", b"y", "a byte")


def notices():
    """Whether a bad client that is answered otherwise is told."""
    told = []
    for kinds in ((), (hears_another_byte,)):
        neighbours = Neighbours(None, "worked", told.append, kinds)
        neighbours.begin()
        neighbours.end()
    return len(told) == 1


class Neighbours:
    """One bad client of each kind, in a thread of its own, which begins anew when it has ended; how often each was bad."""

    def __init__(self, service, seed, tells, kinds=KINDS):
        self.stop, self.counts, self.tells = threading.Event(), dict.fromkeys(kinds, 0), tells
        self.threads = [threading.Thread(target=self.works, args=(kind, Place(service, self.stop, "%s %s" % (seed, kind.__name__))), daemon=True)
                        for kind in kinds]

    def works(self, kind, place):
        """Once at least; the first fault of any ends the soak."""
        try:
            for _ in itertools.count():
                kind(place)
                self.counts[kind] += 1
                # So that the good ones have processors too.
                place.waits(place.chance.random())
                if self.stop.is_set():
                    break
        except (Wrong, NoAnswer, OSError) as fault:
            self.tells(NoAnswer("a client that %s: %s" % (kind.__doc__, fault)))

    def begin(self):
        for thread in self.threads:
            thread.start()

    def end(self):
        """Waits for all of them; how many times they were bad."""
        self.stop.set()
        ends = time.monotonic() + PATIENCE
        for kind, thread in zip(self.counts, self.threads):
            thread.join(max(0.0, ends - time.monotonic()))
            if thread.is_alive():
                raise NoAnswer("a client that %s had not ended after %d s" % (kind.__doc__, PATIENCE))
        return sum(self.counts.values())
