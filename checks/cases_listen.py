"""Cases of `morphd listen` for checks/replay_served.py: what clients hear that share one table, beside workers that compute
meanwhile, and how the server ends, which audits all that was answered. Each case takes the program, and stops by `Wrong` where it
does something else.
"""
import os
import subprocess
import time

import bad_peers
from cases_batch import ranks, worked
from cases_serve import MUCH, UNKNOWN, answers, answers_one_by_one, answers_together, connected, must_last, seconds_of, sends_at_once
from ends import PATIENCE, wait_for
from peers import ERODED, GIVEN, LONGEST, Wrong, hang_up, must_be
from server import Server, free_port

ERODE = GIVEN + b"RUN e ERODE f b\nWAIT e\nFETCH e\n"
ERODE_REPLIES = b"OK 0\nOK 1\nOK 2\nDONE 2 GREY 5 1 9\nIMAGE 2 14\n" + ERODED


def ends(server):
    must_be(server.end(PATIENCE), (0, b""), "the server's end")


def serves(program, sent, wanted, **given):
    """One session, and the audit."""
    with Server(program, 1, **given) as server:
        must_be(answers(server, sent), wanted, "the replies to %r" % sent[:60])
        ends(server)


def one_session(program):
    """With a worker and with two."""
    for workers in (1, 2):
        serves(program, ERODE, ERODE_REPLIES, workers=workers)


def worked_sessions_beside_workers_write_as_scripts(program):
    """Those with a WAIT before each FETCH."""
    count = 0
    for name, session, output, _ in worked():
        if name.startswith("worked_beside_workers"):
            serves(program, session, output, workers=2, tile=64)
            count += 1
    must_be(count, 8, "the sessions with a WAIT before each FETCH")


def two_sessions_share_names(program):
    """What one has loaded the next one sees."""
    with Server(program, 2) as server:
        must_be(answers(server, b"LOAD f 19\nP2\n5 1\n9\n3 1 4 1 5\nQUIT\n"), b"OK 0\n", "the first session")
        must_be(answers(server, b"STATUS f\nQUIT\n"), b"DONE 0 GREY 5 1 9\n", "the second session")
        ends(server)


def each_answer_comes_before_the_next_read(program):
    """A client that waits for each answer has it."""
    with Server(program, 1) as server:
        answers_one_by_one(server)
        ends(server)


def a_thousand_answers_in_one_write(program):
    """Nearly: no answer is written alone."""
    with Server(program, 1) as server:
        answers_together(server)
        ends(server)


def a_long_file_is_loaded(program):
    """A picture whose file is longer than 16 MiB."""
    picture = b"P5\n4096 4096\n255\n" + bytes(1 << 24)
    session = b"LOAD f %d\n%sSTATUS f\nQUIT\n" % (len(picture), picture)
    serves(program, session, b"OK 0\nDONE 0 GREY 4096 4096 255\n")


def quit_stops_reading(program):
    """A session ends at QUIT, though its client has not closed its way, and what stands behind is not answered."""
    with Server(program, 1) as server:
        with connected(server) as client:
            client.send(b"STATUS x\nQUIT\nSTATUS y\n")
            must_be(client.line(), UNKNOWN, "the reply before QUIT")
            ends(server)


# What is said, and what is heard of a session that ends by it.
FAULTS = ((b"LOAD x 5\nabc", b"ERR 12 CUT\n"), (b"STATUS x", b"ERR 12 CUT\n"), (b"load x 5\n", b"ERR 10 LINE\n"),
          (b"LOAD x 07\n", b"ERR 10 LINE\n"), (b"LOAD x 134217729\n", b"ERR 11 LENGTH\n"), (b"A" * 201, b"ERR 10 LINE\n"),
          (b"LOAD x %d\n0123456789" % LONGEST, b"ERR 12 CUT\n"), (b"", b""), (b"STATUS x\nSTAT", UNKNOWN + b"ERR 12 CUT\n"),
          (b"LOAD x 19\nP2\n5 1\n", b"ERR 12 CUT\n"))


def faults_end_a_session(program):
    """Alone: the others are served, and the server ends well."""
    with Server(program, len(FAULTS) + 1) as server:
        for said, heard in FAULTS:
            must_be(answers(server, said), heard, "what is heard behind %r" % said[:40])
        must_be(answers(server, ERODE), ERODE_REPLIES, "the session behind them")
        ends(server)


# ---- what is pending


# A rank of a picture of this side by an element of that one, which keeps a worker for a while, as one task.
LONG_SIDE, LONG_ELEMENT = 1024, 33
LONG = b"RUN long RANK f d 400\n"
SHORT = b"LOAD g 19\nP2\n5 1\n9\n3 1 4 1 5\nELEMENT b 1 0 11\nP1\n3 1\n111\n"


def given(side, element):
    """A picture of one tile of this side, and an element that is dear."""
    return ranks(side, 0, element)[0][:-len(b"QUIT\n")]


def working(server, workers):
    """How many of the workers have run for three milliseconds. They are started behind the process's first thread, and before
    those of sessions."""
    count = 0
    for thread in sorted(map(int, os.listdir("/proc/%d/task" % server.run.pid)))[1:1 + workers]:
        with open("/proc/%d/task/%d/schedstat" % (server.run.pid, thread), encoding="ascii") as row:
            count += int(row.read().split()[0]) > 3_000_000
    return count


class Busy:
    """A server one of whose workers is kept, with a client that has ticket 4 for what it is kept by."""

    def __init__(self, program, workers):
        self.server, self.workers = Server(program, 1, workers=workers, tile=1024), workers

    def __enter__(self):
        self.client = connected(self.server)
        self.asks(given(LONG_SIDE, LONG_ELEMENT) + SHORT, b"OK 0\nOK 1\nOK 2\nOK 3\n", "the images")
        self.asks(LONG, b"OK 4\n", "what takes long")
        wait_for(lambda: working(self.server, self.workers), "work")
        return self

    def __exit__(self, *_):
        self.client.wire.close()
        self.server.__exit__()

    def asks(self, requests, replies, what):
        self.client.send(requests)
        must_be(self.client.exactly(len(replies)), replies, what)

    def ends(self):
        self.client.send(b"QUIT\n")
        must_be(self.client.rest(), b"", "behind QUIT")
        ends(self.server)


def workers_overlap(program):
    """A second worker ends its task while the first one computes, and others are answered meanwhile."""
    with Busy(program, 2) as busy:
        busy.asks(b"RUN e ERODE g b\nWAIT e\nSTATUS long\n", b"OK 5\nDONE 5 GREY 5 1 9\nPENDING 4\n", "beside what takes long")
        busy.asks(b"WAIT long\n", b"DONE 4 GREY 1024 1024 255\n", "a WAIT for what takes long")
        busy.ends()


def cancel_fails_dependents(program):
    """Entries whose only worker is kept are pending."""
    with Busy(program, 1) as busy:
        busy.asks(b"RUN a ERODE g b\nRUN c DILATE a b\nSTATUS a\nFETCH a\nCANCEL a\nSTATUS a\nSTATUS c\nRUN o OPEN c b\nRUN a OPEN g b\n"
                  b"CANCEL a\nSTATUS g\nFETCH b\nSTATUS z\nSTATUS long\n",
                  b"OK 5\nOK 6\nPENDING 5\nPENDING 5\nOK 5\nCANCELLED 5\nFAILED 6 INPUT 5\nERR 43 DEAD\nERR 40 NAME_TAKEN\n"
                  b"ERR 49 SETTLED\nDONE 2 GREY 5 1 9\nERR 42 KIND\nERR 41 UNKNOWN\nPENDING 4\n", "a cancel")
        busy.asks(b"CANCEL long\nWAIT long\n", b"OK 4\nCANCELLED 4\n", "the cancel of what runs")
        busy.ends()


def what_is_released_serves_nothing_new(program):
    """Nor does a pending entry let go."""
    with Busy(program, 1) as busy:
        busy.asks(b"RUN e ERODE g b\nRELEASE e\nRELEASE g\nRUN h DILATE g b\nSTATUS g\nWAIT g\nFETCH e\nRELEASE g\nRELEASE z\nRELEASE b\n"
                  b"FETCH b\nSTATUS long\nCANCEL e\nRELEASE e\n",
                  b"OK 5\nERR 52 PENDING\nOK 2\nERR 51 RELEASED\nRELEASED 2\nRELEASED 2\nPENDING 5\nERR 51 RELEASED\nERR 41 UNKNOWN\n"
                  b"OK 3\nERR 42 KIND\nPENDING 4\nOK 5\nERR 43 DEAD\n", "a release")
        busy.asks(b"CANCEL long\n", b"OK 4\n", "the cancel of what runs")
        busy.ends()


# ---- clients, and how long they are waited for


def clients_that_are_not_waited_for(program):
    """One falls silent within a line, and one does not listen."""
    with Server(program, 2, more=("--idle", "1")) as server:
        deaf = connected(server)
        deaf.send(MUCH)
        with connected(server) as silent:
            silent.send(b"STATUS x\nSTAT")
            seconds = seconds_of(lambda: must_be(silent.rest(), UNKNOWN, "what a silent client hears"))
        must_last(seconds, 1, "a silent client is waited for")
        ends(server)
        hang_up(deaf)


def who_pauses_within_a_line_is_waited_for(program):
    """A bound in milliseconds would cut it off."""
    with Server(program, 1, more=("--idle", "20")) as server:
        with connected(server) as client:
            client.send(b"STAT")
            time.sleep(0.7)
            client.send(b"US x\nQUIT\n")
            must_be(client.rest(), UNKNOWN, "what is heard behind a pause")
        ends(server)


def bad_peers_end_alone(program):
    """One keeps silent and one listens to nothing, while others break off and one does well."""
    with Server(program, 5) as server:
        silent, deaf = connected(server), connected(server)
        deaf.send(MUCH)
        must_be(deaf.line(), b"OK 0\n", "the picture")
        must_be(answers(server, b"STATUS x\nSTAT"), UNKNOWN + b"ERR 12 CUT\n", "a client that ends within a line")
        with connected(server) as endless:
            endless.send(b"A" * 201)
            must_be(endless.rest(), b"ERR 10 LINE\n", "a line without an end")
        must_be(answers(server, ERODE), b"OK 1\nOK 2\nOK 3\nDONE 3 GREY 5 1 9\nIMAGE 3 14\n" + ERODED, "the client that does well")
        silent.is_over()
        must_be(silent.rest(), b"", "the silent client")
        silent.wire.close()
        # It goes while replies wait for it.
        hang_up(deaf)
        ends(server)


def replies_are_sent_at_once(program):
    """A short reply does not wait until what was sent before it is acknowledged."""
    with Server(program, 1) as server:
        sends_at_once(server)
        ends(server)


# ---- words of the command line


def listened(program, words, **pipes):
    """A server whose port is told to standard output."""
    return subprocess.run([program, "listen", *words], stdin=subprocess.DEVNULL, stderr=subprocess.PIPE, timeout=PATIENCE, **pipes)


def port_is_told(program):
    """By one line, which comes before any client does, and only where it is asked for."""
    for more, line in ((("--announce",), b"LISTENING 127.0.0.1 %d\n"), ((), b"")):
        port = free_port()
        words = [program, "listen", "--port", str(port), *more]
        run = subprocess.Popen(words, stdin=subprocess.DEVNULL, stdout=subprocess.PIPE, stderr=subprocess.PIPE)
        server = Server.__new__(Server)
        server.run, server.port = run, port
        with server:
            line = line % port if line else line
            must_be(run.stdout.readline() if line else b"", line, "the line of a server")
            must_be(answers(server, ERODE), ERODE_REPLIES, "the session of a server that told its port")
            must_be(run.communicate(timeout=PATIENCE), (b"", b""), "what is told besides")
            must_be(run.returncode, 0, "the status of a server that told its port")


def line_that_nobody_takes(program):
    """The fault is told."""
    with open("/dev/full", "wb") as full:
        made = listened(program, ["--port", str(free_port()), "--announce"], stdout=full)
    must_be((made.returncode, made.stderr), (1, b"error: output\n"), "a server whose line nobody takes")


def listen_has_its_port_workers_and_sessions(program):
    """The process has its own thread, three workers, and one for each client."""
    with Server(program, 2, workers=3) as server:
        with connected(server) as first:
            must_be(first.ask(b"STATUS x\n")[0], UNKNOWN, "the first client's reply")
            must_be(server.threads(), 5, "the threads beside one client")
            with connected(server) as second:
                must_be(second.ask(b"STATUS x\n")[0], UNKNOWN, "the second client's reply")
                must_be(server.threads(), 6, "the threads beside two clients")
        ends(server)


def listen_has_its_least_words(program):
    """Two workers and one session where nothing else is asked for."""
    server = Server.__new__(Server)
    server.port = free_port()
    words = [program, "listen", "--port", str(server.port)]
    server.run = subprocess.Popen(words, stdin=subprocess.DEVNULL, stdout=subprocess.DEVNULL, stderr=subprocess.PIPE)
    with server:
        with connected(server) as client:
            must_be(client.ask(b"STATUS x\n")[0], UNKNOWN, "the client's reply")
            must_be(server.threads(), 4, "the threads of a server of one client")
        ends(server)


def listen_has_its_greatest_numbers(program):
    """64 workers for 64 sessions."""
    with Server(program, 64, workers=64, tile=64) as server:
        with connected(server) as client:
            must_be(client.ask(b"STATUS x\n")[0], UNKNOWN, "the first client's reply")
            must_be(server.threads(), 66, "the threads beside one client")


def busy_workers(program, side):
    """How many of three workers have computed a rank of 512 x 512 samples."""
    with Server(program, 1, workers=3, tile=side) as server:
        with connected(server) as client:
            client.send(given(512, 33) + LONG + b"WAIT long\n")
            wanted = b"OK 0\nOK 1\nOK 2\nDONE 2 GREY 512 512 255\n"
            must_be(client.exactly(len(wanted)), wanted, "a rank over tiles of %d" % side)
            count = working(server, 3)
        ends(server)
    return count


def listen_has_its_tiles(program):
    """Of one tile one worker makes one task; of 64 tiles several make some each."""
    must_be(busy_workers(program, 512), 1, "the workers that compute one tile")
    if busy_workers(program, 64) < 2:
        raise Wrong("one worker alone computes 64 tiles")


CASES = (
    one_session, worked_sessions_beside_workers_write_as_scripts, two_sessions_share_names, each_answer_comes_before_the_next_read,
    a_thousand_answers_in_one_write, a_long_file_is_loaded, quit_stops_reading, faults_end_a_session, workers_overlap,
    cancel_fails_dependents, what_is_released_serves_nothing_new, clients_that_are_not_waited_for,
    who_pauses_within_a_line_is_waited_for, bad_peers_end_alone, replies_are_sent_at_once, port_is_told, line_that_nobody_takes,
    listen_has_its_port_workers_and_sessions, listen_has_its_least_words, listen_has_its_greatest_numbers, listen_has_its_tiles,
    bad_peers.port_is_taken, bad_peers.within_a_line, bad_peers.within_a_payload, bad_peers.within_a_reply, bad_peers.no_line_end,
)
