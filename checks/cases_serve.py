"""Cases of `morphd serve` for checks/replay_served.py: what its clients hear, how long each is waited for, and how it ends. Each
case takes the program, and stops by `Wrong` where it does something else. No case fails because a machine is slow: what must take
at most so long may take many times as long, or is tried several times.
"""
import contextlib
import json
import os
import pathlib
import re
import resource
import select
import shlex
import shutil
import signal
import socket
import subprocess
import sys
import tempfile
import threading
import time

import bad_peers_serve
import ends as system
import stored_sessions
from board_wakings import sleeps
from cases_batch import hears_each_answer, ranks
from ends import LONG_WAIT, PATIENCE, interrupt, wait_for
from peers import ERODE, GIVEN, LONGEST, Wrong, hang_up, must_be
from server import Client, NoAnswer, Service, free_port

ERODED = b"OK 0\nOK 1\nOK 2\nIMAGE 2 14\nP5\n5 1\n9\n\x01\x01\x01\x01\x01"
UNKNOWN = b"ERR 41 UNKNOWN\n"
BUSY = b"ERR 60 BUSY\n"
# A picture of 1 MiB, and how often it is asked for: together the replies are more than sockets have room for.
LARGE = b"P5\n1024 1024\n255\n" + bytes(n % 251 for n in range(1 << 20))
MUCH = b"LOAD large %d\n%s" % (len(LARGE), LARGE) + b"FETCH large\n" * 32
ANSWERED = 5 + 32 * (16 + len(LARGE))


def connected(server):
    return server.connect(PATIENCE)


def answers(server, sent):
    """All that is answered these bytes, behind which nothing more is sent."""
    with connected(server) as client:
        client.send(sent)
        client.is_over()
        return client.rest()


def ends(service):
    must_be(service.end(PATIENCE), (0, b""), "the service's end")


def seconds_of(what):
    begun = time.monotonic()
    what()
    return time.monotonic() - begun


def must_last(seconds, least, what):
    """A wait of at least so many seconds, less a tenth, and of many more at most."""
    if not 0.9 * least <= seconds <= PATIENCE:
        raise Wrong("%s: %.2f s in the place of %.1f to %.0f" % (what, seconds, least, PATIENCE))


# ---- sessions


def two_clients_have_their_own_names(program):
    """They speak at once of the same names."""
    with Service(program, 2, workers=2, tile=64) as service:
        with connected(service) as first:
            first.send(GIVEN)
            must_be([first.line(), first.line()], [b"OK 0\n", b"OK 1\n"], "the first client's images")
            theirs = answers(service, b"LOAD f 19\nP2\n5 1\n9\n9 8 7 8 9\nELEMENT b 0 0 10\nP1\n2 1\n11\nRUN e ERODE f b\nFETCH e\n")
            must_be(theirs, ERODED[:-5] + b"\x08\x07\x07\x08\x09", "the second client's replies")
            first.send(ERODE[len(GIVEN):])
            first.is_over()
            must_be(first.rest(), ERODED[10:], "the first client's replies")
        ends(service)


def each_connection_has_a_core_of_its_own(program):
    """Names that the session before has left are unknown."""
    with Service(program, 1) as service:
        must_be(answers(service, ERODE), ERODED, "the first session")
        must_be(answers(service, b"STATUS f\nSTATUS e\nQUIT\n"), 2 * UNKNOWN, "the second session")
        ends(service)


def a_fault_ends_one_connection_alone(program):
    """A cut payload, a client that goes while a reply waits for it, and a line without an end: the next one is served."""
    with Service(program, 1) as service:
        must_be(answers(service, b"LOAD x 19\nP2\n5 1\n"), b"ERR 12 CUT\n", "a cut payload")
        goes = connected(service)
        goes.send(ERODE)
        hang_up(goes)
        # The bytes behind the end are not served, and do not cost the client its last reply.
        must_be(answers(service, b"A" * 200000), b"ERR 10 LINE\n", "a line without an end")
        must_be(answers(service, ERODE), ERODED, "the session behind them")
        ends(service)


def many_connections(program):
    """500 of them, one after the other."""
    with Service(program, 2) as service:
        for number in range(500):
            must_be(answers(service, b"STATUS x\nQUIT\n"), UNKNOWN, "connection %d" % number)
        ends(service)


def each_answer_comes_before_the_next_read(program):
    """A client that waits for each answer has it."""
    with Service(program, 1) as service:
        answers_one_by_one(service)
        ends(service)


# What is said before the way is closed, and what is heard.
ONE_WAY = ((b"", b""), (b"STATUS x\n", UNKNOWN), (b"STATUS x\nSTAT", UNKNOWN + b"ERR 12 CUT\n"), (b"STATUS x\nQUIT\nSTATUS x\n", UNKNOWN),
           (b"LOAD x 19\nP2\n5 1\n", b"ERR 12 CUT\n"), (b"STATUS x\nLOAD x %d\n0123456789" % LONGEST, UNKNOWN + b"ERR 12 CUT\n"))


def who_closes_one_way_hears_its_last_replies(program):
    """With a bound on waiting and without."""
    for idle in (None, 20):
        with Service(program, 2, idle=idle) as service:
            for said, heard in ONE_WAY:
                must_be(answers(service, said), heard, "what is heard behind %r" % said)
            ends(service)


def who_closes_one_way_hears_replies_that_wait(program):
    """They wait until it listens."""
    with Service(program, 1, idle=20) as service:
        with connected(service) as client:
            client.send(MUCH)
            client.is_over()
            time.sleep(0.3)
            must_be(len(client.rest()), ANSWERED, "the bytes that are heard late")
        ends(service)


# ---- work that is wanted no more

# Work that takes minutes on every machine, by several threads too, of tasks that take a thousandth of a second: curves of a picture by
# a round element. A FETCH waits for all of them.
WIDE = b"P5\n2048 2048\n255\n" + bytes(n % 251 for n in range(1 << 22))
DISC = b"P1\n31 31\n" + b"".join(b"01"[(x - 15) ** 2 + (y - 15) ** 2 <= 240:][:1] for y in range(31) for x in range(31)) + b"\n"
LONG_GIVEN = b"LOAD f %d\n%sELEMENT d 15 15 %d\n%s" % (len(WIDE), WIDE, len(DISC), DISC)
CURVES = 16
LONG_ASKED = b"".join(b"RUN q%d SPECTRUM f d 32\n" % n for n in range(CURVES)) + b"FETCH q0\n"
LONG_TAKEN = b"".join(b"OK %d\n" % (n + 2) for n in range(CURVES))
CREWS = ((1, 64), (3, 64))


def with_long_work(service):
    """A client whose session has long work to do."""
    client = connected(service)
    client.send(LONG_GIVEN)
    must_be([client.line(), client.line()], [b"OK 0\n", b"OK 1\n"], "the images of long work")
    client.send(LONG_ASKED)
    return client


def at_long_work(service):
    """A client whose session computes."""
    before = service.processor_seconds()
    client = with_long_work(service)
    wait_for(lambda: service.processor_seconds() > before + 0.3, "long work")
    return client


def who_has_gone_is_computed_for_no_more(program):
    """Where a client has broken off, the next one is served, and nothing is computed. By one worker and by several."""
    for workers, side in CREWS:
        with Service(program, 1, workers=workers, tile=side) as service:
            hang_up(at_long_work(service))
            must_be(answers(service, ERODE), ERODED, "the session behind a client that has gone")
            must_be(service.is_at_rest(), True, "the service's rest behind a client that has gone")
            ends(service)


def who_has_closed_one_way_is_computed_for(program):
    """A client that sends nothing more may wait for its replies as long as it likes."""
    session, wanted = ranks(256, 6)
    for workers, side in CREWS:
        with Service(program, 1, workers=workers, tile=side) as service:
            must_be(answers(service, session), wanted, "the ranks of a client that has closed one way")
            ends(service)


def who_computes_too_long_is_cut(program):
    """Its session ends behind its time. One that computes less goes on, however long it waits for its client."""
    for workers, side in CREWS:
        with Service(program, 2, workers=workers, tile=side, more=("--time", "3")) as service:
            with connected(service) as patient:
                must_be(patient.ask(b"STATUS x\n")[0], UNKNOWN, "a first reply")
                begun = time.monotonic()
                with with_long_work(service) as client:
                    # Less what was computed before: reading a picture takes some of its time. Replies to RUN may come, and no other.
                    seconds = seconds_of(lambda: must_be(LONG_TAKEN.startswith(client.rest()), True, "what is heard behind the time of a session"))
                must_last(seconds, 1, "a session that computes goes on")
                time.sleep(max(0.0, begun + 4 - time.monotonic()))
                patient.send(ERODE + b"QUIT\n")
                must_be(patient.rest(), ERODED, "who has waited longer than a session may compute")
            must_be(service.is_at_rest(), True, "the service's rest behind a session that was cut")
            ends(service)


def who_is_cut_with_more_to_say_is_reset(program):
    """The system tells a client by a reset that what it sent was not read."""
    with Service(program, 1, tile=64, more=("--time", "3")) as service:
        with with_long_work(service) as client:
            client.send(b"STATUS x\n" * 30000)
            try:
                raise Wrong("an end came behind %r" % client.rest()[:100])
            except NoAnswer as fault:
                if "reset" not in str(fault):
                    raise Wrong("a session that was cut ended otherwise: %s" % fault) from None
        must_be(answers(service, ERODE), ERODED, "the session behind it")
        ends(service)


def who_computes_at_the_end_is_cut(program):
    """A service waits for no computing when its grace is over."""
    for workers, side in CREWS:
        with Service(program, 1, workers=workers, tile=side, more=("--grace", "1")) as service:
            with at_long_work(service):
                seconds = seconds_of(lambda: ends(service))
                must_last(seconds, 1, "a session that computes is left when the service is to end")


# ---- how long clients are waited for


def a_silent_client_is_waited_for_a_second(program):
    """A client that falls silent within a line is cut off without a reply, and the next one is served."""
    with Service(program, 1, idle=1) as service:
        with connected(service) as client:
            client.send(b"STATUS x\nSTAT")
            seconds = seconds_of(lambda: must_be(client.rest(), UNKNOWN, "what a silent client hears"))
        must_last(seconds, 1, "a silent client is waited for")
        must_be(answers(service, ERODE), ERODED, "the session behind a silent client")
        ends(service)


def a_deaf_client_is_waited_for_two_seconds(program):
    """A client that does not listen is cut off. The next one comes to its turn behind it."""
    with Service(program, 1, idle=2) as service:
        deaf = connected(service)
        begun = time.monotonic()
        deaf.send(MUCH)
        must_be(answers(service, ERODE), ERODED, "the session behind a deaf client")
        # Where a read ended too soon, the service would wait for the client's end for one second still.
        must_last(time.monotonic() - begun, 2, "a deaf client is waited for")
        hang_up(deaf)
        ends(service)


def who_pauses_within_a_line_is_waited_for(program):
    """A bound in milliseconds would cut it off."""
    with Service(program, 1, idle=20) as service:
        with connected(service) as client:
            client.send(b"STAT")
            time.sleep(0.7)
            client.send(b"US x\nQUIT\n")
            must_be(client.rest(), UNKNOWN, "what is heard behind a pause")
        ends(service)


def who_listens_late_is_waited_for(program):
    """A bound in milliseconds would cut it off."""
    with Service(program, 1, idle=20) as service:
        with connected(service) as client:
            client.send(MUCH + b"QUIT\n")
            time.sleep(0.7)
            must_be(len(client.rest()), ANSWERED, "the bytes that are heard late")
        ends(service)


def nobody_is_cut_off_without_a_bound(program):
    """A client that is silent within a line, and does not listen for a while, is answered as ever."""
    with Service(program, 1) as service:
        with connected(service) as client:
            client.send(b"STAT")
            time.sleep(1.5)
            client.send(b"US x\n" + MUCH + b"QUIT\n")
            time.sleep(1.5)
            must_be(len(client.rest()), len(UNKNOWN) + ANSWERED, "the bytes that are heard late")
        ends(service)


def one_client_more_waits_its_turn(program):
    """It hears nothing while the first one is served."""
    with Service(program, 1) as service:
        with connected(service) as first, connected(service) as second:
            must_be(first.ask(b"STATUS x\n")[0], UNKNOWN, "the first client's reply")
            second.send(b"STATUS x\nQUIT\n")
            second.wire.settimeout(0.3)
            try:
                raise Wrong("one client more heard %r" % second.wire.recv(100))
            except socket.timeout:
                second.wire.settimeout(PATIENCE)
            first.send(b"QUIT\n")
            must_be(first.rest(), b"", "behind the first client's QUIT")
            must_be(second.rest(), UNKNOWN, "the second client's reply")
        ends(service)


# ---- who comes where there is no room


def is_told_busy(service, sent=b""):
    """A client for whom there is no room is told so at once, whatever it sends, and hears the end behind that."""
    with connected(service) as client:
        client.send(sent)
        must_be(client.rest(), BUSY, "what is heard where there is no room, behind %d bytes" % len(sent))


def one_client_over_the_queue_is_turned_away(program):
    """One is served and one waits. The third is told that there is no room, and waits for nobody."""
    with Service(program, 1, more=("--queue", "1")) as service:
        with connected(service) as first, connected(service) as second:
            must_be(first.ask(b"STATUS x\n")[0], UNKNOWN, "the first client's reply")
            second.send(ERODE)
            second.is_over()
            for sent in (b"", ERODE, bytes(1 << 20)):
                is_told_busy(service, sent)
            first.send(b"STATUS x\nQUIT\n")
            must_be(first.rest(), UNKNOWN, "the first client's last reply")
            first.wire.close()
            must_be(second.rest(), ERODED, "the session of who waited")
        # Who was turned away has left no trace, and who ended has given back its room.
        for _ in range(4):
            must_be(answers(service, ERODE), ERODED, "a session where there is room again")
        ends(service)


def who_waits_longest_is_served_first(program):
    """Of two that wait, the one that came first."""
    with Service(program, 1, more=("--queue", "2")) as service:
        with connected(service) as first, connected(service) as second, connected(service) as third:
            must_be(first.ask(b"STATUS x\n")[0], UNKNOWN, "the first client's reply")
            for client in (third, second):
                client.send(b"STATUS x\n")
            first.send(b"QUIT\n")
            must_be(first.rest(), b"", "behind the first client's QUIT")
            first.wire.close()
            must_be(second.line(), UNKNOWN, "the reply to who has waited longest")
            must_be(select.select([third.wire], [], [], 0.3)[0], [], "what the last one hears meanwhile")
            second.send(b"QUIT\n")
            must_be(second.rest(), b"", "behind the second client's QUIT")
            second.wire.close()
            third.send(b"QUIT\n")
            must_be(third.rest(), UNKNOWN, "the reply to the last one")
        ends(service)


def many_over_the_queue_are_turned_away(program):
    """Of many silent clients none keeps the next one waiting, and those that are served do not notice. Once they have gone, the next one
    is listened to again while it is turned away."""
    with Service(program, 2, more=("--queue", "2")) as service:
        inside = [connected(service) for _ in range(4)]
        for client in inside[:2]:
            must_be(client.ask(b"STATUS x\n")[0], UNKNOWN, "a first reply")
        outside = [connected(service) for _ in range(60)]
        for client in outside:
            must_be(client.line(), BUSY, "what one of many hears")
        for client in outside:
            client.wire.close()
        # The process's own, one that accepts, one that seats, and one for each session.
        wait_for(lambda: service.threads() == 5, "the end of the threads that listened to who was turned away")
        # Whether a connection that is closed at once loses the line depends on what has come by then.
        for _ in range(8):
            is_told_busy(service, bytes(1 << 20))
        for client in inside:
            client.send(b"STATUS x\nQUIT\n")
            must_be(client.rest(), UNKNOWN, "the last reply to one of those inside")
            client.wire.close()
        must_be(answers(service, ERODE), ERODED, "the session behind many that were turned away")
        ends(service)


def who_waits_at_the_end_is_turned_away(program):
    """The session that runs goes on."""
    with Service(program, 1, more=("--queue", "1", "--grace", "600")) as service:
        with connected(service) as first, connected(service) as second:
            must_be(first.ask(b"STATUS x\n")[0], UNKNOWN, "the first client's reply")
            # then the second one is accepted, and waits
            is_told_busy(service)
            service.run.stdin.close()
            must_be(second.rest(), BUSY, "what is heard by who waits at the end")
            first.send(ERODE)
            first.is_over()
            must_be(first.rest(), ERODED, "the session that runs at the end")
        must_be((service.run.wait(PATIENCE), service.run.stderr.read()), (0, b""), "the service's end")


# ---- the end of a connection


def speaks_behind_the_end(service):
    """Whether a client may speak on behind the end of its session, again and again, and then hears the end as ever."""
    with connected(service) as client:
        client.send(b"STATUS x\nQUIT\n")
        must_be(client.rest(), UNKNOWN, "the reply before the end")
        try:
            for _ in range(6):
                client.send(bytes(1 << 16))
                time.sleep(0.05)
            return client.wire.recv(1) == b""
        except (OSError, NoAnswer):
            return False


def what_comes_behind_the_end_is_read_to_its_end(program):
    """Only the way to the client is closed. A connection that is closed whole, or whose rest is not read, breaks off."""
    with Service(program, 1) as service:
        # A client that is not run for a second is left, so there is more than one attempt.
        if not any(speaks_behind_the_end(service) for _ in range(3)):
            raise Wrong("a client that speaks behind the end of its session is broken off")
        ends(service)


def seconds_behind_a_silent_client(service):
    """How long the next one waits behind a client that is silent behind the end of its session."""
    with connected(service) as first:
        first.send(b"STATUS x\nQUIT\n")
        must_be(first.rest(), UNKNOWN, "the reply before the end")
        return seconds_of(lambda: must_be(answers(service, ERODE), ERODED, "the session behind it"))


def who_is_silent_behind_the_end_is_left(program):
    """After a second the next one is served. On a slow machine one of three is."""
    with Service(program, 1) as service:
        waits = []
        while not waits or (min(waits) > 3 and len(waits) < 3):
            waits.append(seconds_behind_a_silent_client(service))
            must_last(waits[-1], 0.9, "who is silent behind the end is waited for")
        if min(waits) > 3:
            raise Wrong("who is silent behind the end is waited for %s s in the place of one" % ["%.1f" % it for it in waits])
        ends(service)


def is_listened_to_after_an_interruption(service):
    """Whether a client may speak on behind the end of its session, where the wait for what it says is interrupted."""
    with connected(service) as client:
        client.send(b"STATUS x\nQUIT\n")
        must_be(client.rest(), UNKNOWN, "the reply before the end")
        try:
            interrupt(service.run)
            for _ in range(3):
                client.send(bytes(1 << 16))
                time.sleep(0.05)
            return client.wire.recv(1) == b""
        except (OSError, NoAnswer):
            return False


def what_comes_behind_the_end_is_read_after_an_interruption(program):
    """A read that was interrupted is made again."""
    with Service(program, 1) as service:
        if not any(is_listened_to_after_an_interruption(service) for _ in range(3)):
            raise Wrong("a client that speaks behind the end of its session is broken off when the wait for it is interrupted")
        ends(service)


def drips(client, ended):
    """Sends a byte a few times a second, as long as they are taken."""
    while not ended.is_set():
        try:
            client.wire.send(b"x")
        except OSError:
            return
        time.sleep(0.2)


def who_drips_behind_the_end_is_left(program):
    """A second is waited in all, and not behind each byte."""
    ended = threading.Event()
    with Service(program, 1) as service:
        with connected(service) as first:
            first.send(b"STATUS x\nQUIT\n")
            must_be(first.rest(), UNKNOWN, "the reply before the end")
            dripping = threading.Thread(target=drips, args=(first, ended), daemon=True)
            dripping.start()
            seconds = seconds_of(lambda: must_be(answers(service, ERODE), ERODED, "the session behind it"))
            ended.set()
            dripping.join(PATIENCE)
        must_last(seconds, 0.9, "who drips behind the end is waited for")
        ends(service)


def who_speaks_on_for_ever_is_left(program):
    """Behind a second, or 16,384 reads of 16 KiB, which are more than the longest payload, the connection ends."""
    most, piece = (256 << 20) + (64 << 20), bytes(1 << 20)
    with Service(program, 1) as service:
        sent = 0
        with connected(service) as client:
            client.send(b"QUIT\n")
            try:
                while sent <= most:
                    client.send(piece)
                    sent += len(piece)
            except NoAnswer:
                pass
        if sent > most:
            raise Wrong("%d bytes were taken behind the end of a session" % sent)
        must_be(answers(service, ERODE), ERODED, "the session behind who speaks on for ever")
        ends(service)


# ---- answers at once


def gap_of_answers(server, client, request, answer):
    """How many seconds pass between the answer to a request that takes some time and the next answer, which is asked for
    meanwhile. The client acknowledges what it hears as late as it may. None where the first answer was there too soon."""
    before = server.processor_seconds()
    client.send(request)
    wait_for(lambda: server.processor_seconds() > before + 0.02, "work")
    client.send(b"STATUS x\n")
    client.wire.setsockopt(socket.IPPROTO_TCP, socket.TCP_QUICKACK, 0)
    is_early = not select.select([client.wire], [], [], 0)[0]
    must_be(client.exactly(len(answer)), answer, "the answer to %r" % request)
    begun = time.monotonic()
    must_be(client.exactly(len(UNKNOWN)), UNKNOWN, "the answer behind it")
    return time.monotonic() - begun if is_early else None


def sends_at_once(server):
    """Stops where the second of two answers waits until the first one is acknowledged, which takes forty milliseconds."""
    picture, _ = ranks(512, 0)
    with connected(server) as client:
        client.send(picture[:-len(b"QUIT\n")])
        must_be([client.line(), client.line()], [b"OK 0\n", b"OK 1\n"], "the images")
        gaps, n = [], 2
        while len(gaps) < 5 and n < 20:
            request, answer = b"RUN e%d RANK f d 400\nWAIT e%d\n" % (n, n), b"OK %d\nDONE %d GREY 512 512 255\n" % (n, n)
            gaps += [it for it in [gap_of_answers(server, client, request, answer)] if it is not None]
            n += 1
        client.send(b"QUIT\n")
        must_be(client.rest(), b"", "behind QUIT")
    if len(gaps) < 3:
        raise Wrong("%d of %d requests came while the one before was at work" % (len(gaps), n - 2))
    if sorted(gaps)[len(gaps) // 2] > 0.02:
        raise Wrong("answers come %s ms one behind the other" % ["%.1f" % (1000 * it) for it in gaps])


def replies_are_sent_at_once(program):
    """A short reply does not wait until what was sent before it is acknowledged."""
    with Service(program, 1) as service:
        sends_at_once(service)
        ends(service)


# Where Linux tells of a connection how many segments with bytes have come, and how many of them there may be.
SEGMENTS_AT, MOST_SEGMENTS = 152, 8


def segments_of(client):
    told = client.wire.getsockopt(socket.IPPROTO_TCP, socket.TCP_INFO, 256)
    return int.from_bytes(told[SEGMENTS_AT:SEGMENTS_AT + 4], sys.byteorder)


def answers_one_by_one(server):
    """Stops where a client that waits for each answer does not have it."""
    with connected(server) as client:
        hears_each_answer(client)
        client.send(b"QUIT\n")
        must_be(client.rest(), b"", "behind QUIT")


def answers_together(server):
    """Stops where a thousand answers to lines that come at once are not heard, or go out one by one."""
    with connected(server) as client:
        client.send(b"STATUS x\n" * 1000)
        must_be(client.exactly(1000 * len(UNKNOWN)), 1000 * UNKNOWN, "a thousand answers")
        if segments_of(client) > MOST_SEGMENTS:
            raise Wrong("a thousand answers came in %d segments" % segments_of(client))
        client.send(b"QUIT\n")
        must_be(client.rest(), b"", "behind QUIT")


def a_thousand_answers_in_one_write(program):
    """Nearly: no answer is written alone."""
    with Service(program, 1) as service:
        answers_together(service)
        ends(service)


# ---- many at once


def there_is_a_pause_behind_each_one_that_cannot_be_accepted(program):
    """Where descriptors are short, the thread that accepts does not run all the time; then all are served."""
    with Service(program, 48, descriptors=24) as service:
        clients = [connected(service) for _ in range(40)]
        must_be(clients[0].ask(b"STATUS x\n")[0], UNKNOWN, "the first client's reply")
        # By then the pauses have grown to a third of a second.
        time.sleep(1)
        before, slept = service.processor_seconds(), sleeps(service.run.pid)
        time.sleep(2)
        taken, slept = service.processor_seconds() - before, sleeps(service.run.pid) - slept
        # A thread that runs all the time never falls asleep, also where a busy machine lets it run little.
        if taken > 0.3 or not 2 <= slept <= 20:
            raise Wrong("a service whose descriptors are short takes %.2f s of a processor in two, and sleeps %d times" % (taken, slept))
        for client in clients:
            client.send(b"STATUS x\nQUIT\n")
        must_be(clients[0].rest(), UNKNOWN, "the first client's last reply")
        clients[0].wire.close()
        for client in clients[1:]:
            must_be(client.rest(), UNKNOWN, "the reply to one of many")
            client.wire.close()
        ends(service)


# ---- the end of a service


def is_refused(port):
    try:
        socket.create_connection(("127.0.0.1", port), PATIENCE).close()
        return False
    except OSError:
        return True


def sessions_that_run_end_by_themselves(program):
    """The service accepts no more when it is to end, and waits for the session that runs."""
    with Service(program, 3, more=("--grace", "600")) as service:
        with connected(service) as client:
            client.send(GIVEN)
            must_be([client.line(), client.line()], [b"OK 0\n", b"OK 1\n"], "the session that runs")
            service.run.stdin.close()
            wait_for(lambda: is_refused(service.port), "the end of accepting")
            must_be(service.run.poll(), None, "the service's end before its session's")
            client.send(ERODE[len(GIVEN):])
            client.is_over()
            must_be(client.rest(), ERODED[10:], "what the session hears behind the end of accepting")
        must_be((service.run.wait(PATIENCE), service.run.stderr.read()), (0, b""), "the service's end")


def sessions_are_ended_behind_the_grace(program):
    """A session that does not end is left so many seconds, and then its connection is closed: of two silent clients, and of a deaf one."""
    with Service(program, 4, more=("--grace", "2")) as service:
        with connected(service) as silent, connected(service) as other, connected(service) as deaf:
            for client in (silent, other):
                must_be(client.ask(b"STATUS x\n")[0], UNKNOWN, "the session that runs")
            deaf.send(MUCH)
            must_be(deaf.line(), b"OK 0\n", "the session of a client that listens no more")
            service.run.stdin.close()
            seconds = seconds_of(lambda: must_be(silent.rest(), b"", "the session behind its grace"))
            must_last(seconds, 2, "a session is left when the service is to end")
            must_be(other.rest(), b"", "the other session behind its grace")
            must_be((service.run.wait(PATIENCE), service.run.stderr.read()), (0, b""), "the service's end")


def who_comes_as_the_service_ends_is_closed(program):
    """A client that was accepted, and whose session begins when the connections are closed already. Its thread is begun late, by a
    library that a C compiler makes; where there is none, nothing is looked at."""
    if not shutil.which("cc"):
        return
    with tempfile.TemporaryDirectory() as folder:
        late = os.path.join(folder, "late.so")
        source = os.path.join(os.path.dirname(os.path.abspath(__file__)), "wrong_calls.c")
        subprocess.run(["cc", "-shared", "-fPIC", "-O1", "-o", late, source, "-ldl"], check=True)
        settings = (("LD_PRELOAD", late), ("WRONG", "late_threads"))
        with Service(program, 1, settings=settings, more=("--grace", "1")) as service:
            must_be(answers(service, ERODE), ERODED, "a session in a thread that begins late")
            with connected(service) as client:
                client.send(b"STATUS x\n")
                wait_for(lambda: service.threads() == 2, "the end of the first session's thread")
                # By then the client is accepted, and its thread is not begun.
                time.sleep(0.3)
                service.run.stdin.close()
                with contextlib.suppress(NoAnswer):
                    client.rest()
                end = (service.run.wait(PATIENCE), service.run.stderr.read())
                must_be(end, (0, b""), "the end of a service behind a client that comes then")


def end_before_any_client(program):
    """The line is told, and the end is well."""
    made = subprocess.run([program, "serve", "--until-end"], stdin=subprocess.DEVNULL, capture_output=True, timeout=PATIENCE)
    must_be((made.returncode, made.stderr), (0, b""), "a service that is to end at once")
    if not made.stdout.startswith(b"LISTENING 127.0.0.1 ") or made.stdout.count(b"\n") != 1:
        raise Wrong("a service that is to end at once told %r" % made.stdout)


def line_that_nobody_takes(program):
    """The fault is told."""
    with open("/dev/full", "wb") as full:
        words = [program, "serve", "--until-end"]
        made = subprocess.run(words, stdin=subprocess.DEVNULL, stdout=full, stderr=subprocess.PIPE, timeout=PATIENCE)
    must_be((made.returncode, made.stderr), (1, b"error: output\n"), "a service whose line nobody takes")


def within_descriptors(program, descriptors, *words):
    """What a service comes to that may open so few files, and that is to end at once."""
    bound = lambda: resource.setrlimit(resource.RLIMIT_NOFILE, (descriptors, descriptors))
    made = subprocess.run([program, "serve", "--until-end", *words], stdin=subprocess.DEVNULL, capture_output=True, timeout=PATIENCE,
                          preexec_fn=bound)
    return made.returncode, made.stdout, made.stderr


def start_without_a_descriptor_for_a_client(program):
    """It says so, in the place of a port where nobody is served."""
    must_be(within_descriptors(program, 5), (1, b"", b"error: descriptors\n"), "a start with five descriptors")
    status, told, faults = within_descriptors(program, 6)
    must_be((status, told[:20], faults), (0, b"LISTENING 127.0.0.1 ", b""), "a start with six descriptors")


def waits_to_write(run):
    """Whether a process waits in the call of the system by which it writes to its standard output."""
    with open("/proc/%d/syscall" % run.pid, encoding="ascii") as row:
        return row.read().split()[:2] == ["1", "0x1"]


def line_that_is_interrupted(program):
    """The line that tells the port waits for its reader, and the wait is interrupted: it is told all the same."""
    mine, theirs = socket.socketpair()
    with mine, theirs:
        theirs.setblocking(False)
        filled = 0
        try:
            while True:
                filled += theirs.send(bytes(4096))
        except BlockingIOError:
            theirs.setblocking(True)
        theirs.setsockopt(socket.SOL_SOCKET, socket.SO_SNDTIMEO, LONG_WAIT)
        words = [program, "serve", "--until-end"]
        with subprocess.Popen(words, stdin=subprocess.DEVNULL, stdout=theirs, stderr=subprocess.PIPE) as run:
            try:
                theirs.close()
                wait_for(lambda: waits_to_write(run), "the write of the line")
                for _ in range(3):
                    interrupt(run)
                heard, goes_on = bytearray(), True
                while goes_on:
                    data, goes_on = system.drained(mine)
                    heard += data
                    time.sleep(0.001)
                faults = run.stderr.read()
                must_be((run.wait(PATIENCE), faults), (0, b""), "a service whose line is interrupted")
            finally:
                run.kill()
        must_be(bytes(heard[filled:filled + 20]), b"LISTENING 127.0.0.1 ", "the line that was interrupted")


# ---- what a service says of itself

STATE = (rb'\{"version":"([0-9.]+)","sessions":\{"now":(\d+),"begun":(\d+)\},"requests":(\d+),"refusals":\{(?:"\d+":\d+,)*"60":\d+\},'
         rb'"bytes":\{"read":(\d+),"written":(\d+),"resident":(?:\d+|null)\},"seconds":\{"computing":\d+\.\d{3}\}\}\n')


def state_at(port):
    """What a service tells at this port."""
    try:
        wire = socket.create_connection(("127.0.0.1", port), PATIENCE)
    except OSError as fault:
        raise Wrong("nobody tells the state: %s" % fault) from None
    with Client(wire, PATIENCE) as client:
        line = client.rest()
    if not re.fullmatch(STATE, line):
        raise Wrong("the state is told as %r" % line)
    return json.loads(line)


def state_of(port):
    """What a service tells at this port: its version, sessions now and since its start, requests, refusals, and bytes."""
    told = state_at(port)
    return [told["version"], told["sessions"]["now"], told["sessions"]["begun"], told["requests"], told["refusals"],
            told["bytes"]["read"], told["bytes"]["written"]]


def who_asks(port):
    """A client of the port of the state that has said something, as those of HTTP do."""
    client = Client(socket.create_connection(("127.0.0.1", port), PATIENCE), PATIENCE)
    client.send(b"GET / HTTP/1.0\r\n\r\n")
    return client


def must_tell(port, counts, when):
    """Stops where a service does not come to tell these counts: it counts a reply when it is written, and then it may be heard."""
    wait_for(lambda: state_of(port) == counts, "the state %s of %s" % (counts, when))


def serve_tells_its_state(program):
    """To each who asks, whatever they send: sessions, requests and refusals by their numbers, and bytes."""
    port = free_port()
    told = subprocess.run([program, "--version"], capture_output=True, timeout=PATIENCE).stdout
    if not re.fullmatch(rb"morphd [0-9.]+\n", told):
        raise Wrong("the version is told as %r" % told)
    version = told.split()[1].decode()
    with Service(program, 1, more=("--status", str(port), "--queue", "1")) as service:
        must_be(state_of(port), [version, 0, 0, 0, {"60": 0}, 0, 0], "the state before any client")
        must_be(answers(service, ERODE), ERODED, "a session")
        must_tell(port, [version, 0, 1, 4, {"60": 0}, len(ERODE), len(ERODED)], "a service behind a session")
        with connected(service) as first, connected(service):
            must_be(first.ask(b"STATUS x\n")[0], UNKNOWN, "the first client's reply")
            is_told_busy(service)
            counts = [version, 1, 2, 5, {"41": 1, "60": 1}, len(ERODE) + 9, len(ERODED) + len(UNKNOWN)]
            must_tell(port, counts, "a service while a session runs")
            # While the service is stopped, what is said comes before the connection is accepted.
            with interrupt(service.run, lambda: who_asks(port)) as speaks:
                must_be(bool(re.fullmatch(STATE, speaks.rest())), True, "the state for who speaks")
            first.send(b"QUIT\n")
            must_be(first.rest(), b"", "behind the first client's QUIT")
        ends(service)


# Requests with refusals, a curve, and an image with lines of refusals in it; each with what is counted of it.
LINES = b"P5\n16 4\n255\n" + b"ERR 41 UNKNOWN\n\n" * 4
REFUSED = ((b"LOAD f %d\n%s" % (len(LINES), LINES), None), (b"STATUS x\n", "41"), (b"FETCH f\n", None), (b"RUN y ERODE x x\n", "41"),
           (b"ELEMENT b 0 0 9\nP1\n1 1\n0\n", "32"), (b"ELEMENT b 0 0 9\nP1\n1 1\n1\n", None), (b"LOAD f %d\n%s" % (len(LINES), LINES), "40"),
           (b"FETCH b\n", "42"), (b"RUN q SPECTRUM f b 2\n", None), (b"FETCH q\n", None), (b"STATUS x\n", "41"), (b"load x\n", "10"))


def refusals_are_counted_by_their_numbers(program):
    """Whatever images hold, and however the replies are asked for: one by one, or together."""
    wanted = {"60": 0}
    for _, number in REFUSED:
        if number:
            wanted[number] = wanted.get(number, 0) + 1
    port = free_port()
    with Service(program, 1, more=("--status", str(port))) as service:
        with connected(service) as client:
            for request, number in REFUSED:
                reply = client.ask(request)[0]
                must_be(reply.split()[1].decode() if reply.startswith(b"ERR ") else None, number, "the reply to %r" % request)
            must_be(client.rest(), b"", "behind a line that is none")
        wait_for(lambda: state_at(port)["sessions"]["now"] == 0, "the session's end")
        must_be((state_at(port)["requests"], state_at(port)["refusals"]), (len(REFUSED), wanted), "what is counted of requests one by one")
        answers(service, b"".join(request for request, _ in REFUSED))
        wait_for(lambda: state_at(port)["sessions"]["now"] == 0, "the session's end")
        twice = {number: 2 * count for number, count in wanted.items()}
        must_be((state_at(port)["requests"], state_at(port)["refusals"]), (2 * len(REFUSED), twice), "what is counted of requests together")
        ends(service)


def computing_is_told(program):
    """The seconds rise while a session computes, and not while it waits."""
    port = free_port()
    with Service(program, 1, tile=64, more=("--status", str(port))) as service:
        with at_long_work(service) as client:
            begun, before = time.monotonic(), state_at(port)
            time.sleep(1)
            passed, after = time.monotonic() - begun, state_at(port)
            more = after["seconds"]["computing"] - before["seconds"]["computing"]
            if not 0.3 < more < passed + 0.5:
                raise Wrong("in %.2f s a session computed %.2f s" % (passed, more))
            hang_up(client)
        wait_for(lambda: state_at(port)["sessions"]["now"] == 0, "the session's end")
        with connected(service) as silent:
            must_be(silent.ask(b"STATUS x\n")[0], UNKNOWN, "a first reply")
            before = state_at(port)["seconds"]["computing"]
            time.sleep(1)
            more = state_at(port)["seconds"]["computing"] - before
            if more > 0.2:
                raise Wrong("a session that waits for a second computed %.2f s" % more)
        ends(service)


def resident_size_is_told(program):
    """It is what the system tells of the process, and rises by a picture that a session loads."""
    port, picture = free_port(), b"P5\n4096 4096\n255\n" + bytes(1 << 24)
    with Service(program, 1, more=("--status", str(port))) as service:
        before = state_at(port)["bytes"]["resident"]
        with connected(service) as client:
            must_be(client.ask(b"LOAD f %d\n%s" % (len(picture), picture))[0], b"OK 0\n", "the reply to a picture")
            told, size = state_at(port)["bytes"]["resident"], service.size() * 1024
        if not abs(told - size) < 1 << 20:
            raise Wrong("%d bytes are told, of %d that are resident" % (told, size))
        if not 15 << 20 < told - before < 40 << 20:
            raise Wrong("by a picture of 16 MiB the resident size rose from %d to %d" % (before, told))
        ends(service)


def port_of_the_state_is_taken(program):
    """It is told, and no port is."""
    with Service(program, 1) as first:
        words = [program, "serve", "--until-end", "--status", str(first.port)]
        second = subprocess.run(words, stdin=subprocess.DEVNULL, capture_output=True, timeout=PATIENCE)
        told = b"error: socket: port %d: taken\n" % first.port
        must_be((second.returncode, second.stdout, second.stderr), (1, b"", told), "the end of a service without a port for its state")
        ends(first)


def unit_ends_in_good_order(program):
    """As the unit for systemd starts it, SIGTERM to all its processes has it accept no more, wait for its session, and end well."""
    port = free_port()
    text = (pathlib.Path(__file__).resolve().parent.parent / "examples/morphd.service").read_text(encoding="utf-8")
    line = re.search("^ExecStart=(.*)$", text, re.MULTILINE)[1]
    words = [it.replace("/usr/local/bin/morphd", shlex.quote(program)).replace("--port 7001", "--port %d" % port) for it in shlex.split(line)]
    pipes = {"stdin": subprocess.DEVNULL, "stdout": subprocess.PIPE, "stderr": subprocess.PIPE}
    with subprocess.Popen(words, start_new_session=True, **pipes) as run:
        try:
            must_be(run.stdout.readline(), b"LISTENING 127.0.0.1 %d\n" % port, "the line of the unit's service")
            with Client(socket.create_connection(("127.0.0.1", port), PATIENCE), PATIENCE) as client:
                must_be(client.ask(b"STATUS x\n")[0], UNKNOWN, "a session of the unit's service")
                os.killpg(run.pid, signal.SIGTERM)
                wait_for(lambda: is_refused(port), "the end of accepting")
                must_be(client.ask(b"STATUS x\n")[0], UNKNOWN, "the session behind SIGTERM")
                client.send(b"QUIT\n")
                must_be(client.rest(), b"", "behind QUIT")
            must_be((run.wait(PATIENCE), run.stderr.read()), (0, b""), "the end of the unit's service")
        finally:
            with contextlib.suppress(ProcessLookupError):
                os.killpg(run.pid, signal.SIGKILL)


# ---- how much memory one client may take

NO_MEMORY = b"ERR 50 MEMORY\n"
# A session that makes results of 1 MiB, and may take 8: the picture, and six or seven of them.
MEBIBYTES, BOX = 8, b"ELEMENT b 1 1 17\nP1\n3 3\n111111111\n"
# Stored sessions of so many bytes and more take long.
SHORT = 1 << 18
# So many questions are more than a log of 1 MiB has places for, by ten times; they are asked by so many at once.
PIECES, QUESTIONS = 50, 4000


def told_in_turn(client, line, most):
    """How often a line is accepted, with a number in it, before it finds no memory."""
    for number in range(most):
        told, _ = client.ask(line % number)
        if told == NO_MEMORY:
            return number
        must_be(told[:3], b"OK ", "the reply to %r" % (line % number))
    raise Wrong("%d times %r was accepted" % (most, line))


def a_session_takes_what_it_may(program):
    """What goes over it is refused, and what is let go makes room again. Neither the client nor others notice anything else."""
    with Service(program, 2, more=("--memory", str(MEBIBYTES))) as service:
        with connected(service) as client, connected(service) as other:
            must_be(client.ask(b"LOAD f %d\n%s" % (len(LARGE), LARGE))[0], b"OK 0\n", "a picture")
            must_be(client.ask(BOX)[0], b"OK 1\n", "an element")
            count = told_in_turn(client, b"RUN r%d ERODE f b\n", 2 * MEBIBYTES)
            if not MEBIBYTES - 3 <= count < MEBIBYTES:
                raise Wrong("a session that may take %d MiB has %d results of 1 MiB beside a picture" % (MEBIBYTES, count))
            for number in range(count):
                must_be(client.ask(b"WAIT r%d\n" % number)[0], b"DONE %d GREY 1024 1024 255\n" % (number + 2), "a result")
            must_be(client.ask(b"RUN s ERODE f b\n")[0], NO_MEMORY, "a result over the bound")
            must_be(other.ask(b"LOAD g %d\n%s" % (len(LARGE), LARGE))[0], b"OK 0\n", "another client's picture")
            must_be(client.ask(b"RELEASE r0\n")[0], b"OK 2\n", "what is let go")
            must_be(client.ask(b"RUN s ERODE f b\n")[0], b"OK %d\n" % (count + 2), "a result in its place")
            must_be(client.ask(b"WAIT s\n")[0], b"DONE %d GREY 1024 1024 255\n" % (count + 2), "the result in its place")
        ends(service)


def payloads_take_what_they_may(program):
    """One that is longer than the session may take ends it when it would, and others are served."""
    with Service(program, 2, more=("--memory", "1")) as service:
        with connected(service) as client:
            must_be(client.ask(b"STATUS x\n")[0], UNKNOWN, "the first reply")
            try:
                client.send(b"LOAD f %d\n" % LONGEST + bytes(4 << 20))
            except NoAnswer:
                pass
            must_be(client.line(), NO_MEMORY, "a payload over the bound")
            must_be(service.size() < 32768, True, "a service that holds no payload")
        must_be(answers(service, ERODE), ERODED, "the session behind it")
        ends(service)


def questions_take_what_they_may(program):
    """A log that is full of them takes no more, and the session goes on."""
    with Service(program, 1, more=("--memory", "1")) as service:
        with connected(service) as client:
            must_be(client.ask(b"STATUS x\n")[0], UNKNOWN, "the first reply")
            before, told = service.size(), []
            for _ in range(PIECES):
                client.send(b"STATUS x\n" * QUESTIONS)
                told += [client.line() for _ in range(QUESTIONS)]
            known = told.count(UNKNOWN)
            must_be(told == [UNKNOWN] * known + [NO_MEMORY] * (len(told) - known), True, "many questions are answered, and then refused")
            if not 4096 <= known <= 16384:
                raise Wrong("%d questions are kept in a MiB" % known)
            if service.size() > before + 2048:
                raise Wrong("a service whose session may take a MiB grew by %d kB" % (service.size() - before))
            client.send(b"QUIT\n")
            must_be(client.rest(), b"", "behind QUIT")
        must_be(answers(service, ERODE), ERODED, "the session behind one of many questions")
        ends(service)


def says_all(client, sent):
    """Sends, and says that nothing more is sent, to a client that may be closed meanwhile."""
    with contextlib.suppress(NoAnswer, OSError):
        client.send(sent)
        client.is_over()


def replies_meanwhile(service, sent):
    """All that is answered these bytes, to a client that listens while it sends."""
    with connected(service) as client:
        speaker = threading.Thread(target=says_all, args=(client, sent), daemon=True)
        speaker.start()
        come = client.rest()
        speaker.join(PATIENCE)
        return come


def stored_sessions_take_what_they_may(program):
    """A service with each bound that it may have, wide enough, answers the bytes of a batch."""
    bounds = ("--memory", "4096", "--time", "3600", "--queue", "8", "--grace", "60", "--idle", "3600", "--status", str(free_port()))
    with Service(program, 1, more=bounds) as service:
        for session in map(stored_sessions.stored, stored_sessions.names()):
            if len(session.given) + len(session.wanted) <= SHORT:
                is_same = replies_meanwhile(service, session.given) == session.wanted
                must_be(is_same, True, "the replies to the stored session %s within a bound" % session.name)
        ends(service)


# ---- words of the command line


def serve_has_its_port_and_sessions(program):
    """The process has its own thread, one that accepts, and one for each session that runs; the fourth client waits."""
    port = free_port()
    with Service(program, 3, more=("--port", str(port))) as service:
        must_be(service.port, port, "the port of a service")
        clients = [connected(service) for _ in range(3)]
        for client in clients:
            client.send(ERODE)
            must_be(client.exactly(len(ERODED)), ERODED, "a session at this port")
        with connected(service) as fourth:
            fourth.send(ERODE)
            fourth.is_over()
            service.is_at_rest()
            must_be(service.threads(), 5, "the threads beside three sessions")
            must_be(select.select([fourth.wire], [], [], 0)[0], [], "what the fourth client hears before a place is free")
            for client in clients:
                client.is_over()
                must_be(client.rest(), b"", "behind a session at this port")
                client.wire.close()
            must_be(fourth.rest(), ERODED, "the session of the fourth client")
        wait_for(lambda: service.threads() == 2, "the end of the sessions' threads")
        ends(service)


def threads_of_serve(program, workers, side):
    """The most threads that a service of one session has while it makes ranks."""
    session, wanted = ranks(256, 3)
    with Service(program, 1, workers=workers, tile=side) as service:
        with connected(service) as client:
            client.send(session)
            most, begun = 0, time.monotonic()
            while len(client.held) < len(wanted) and time.monotonic() < begun + PATIENCE:
                most = max(most, service.threads())
                if select.select([client.wire], [], [], 0)[0]:
                    client.more("ranks")
            must_be(client.taken(len(wanted)), wanted, "ranks of a service")
        ends(service)
    return most


def serve_has_its_workers_and_tiles(program):
    """Beside the process's own thread and the one that accepts, one of the workers is the session's own. Of one tile they make one
    task, which takes none beside it."""
    for workers, side, wanted in ((4, 64, 6), (2, 64, 4), (4, 256, 3)):
        must_be(threads_of_serve(program, workers, side), wanted, "the threads of a service of %d workers, tiles of %d" % (workers, side))


def serve_until_it_is_killed(program):
    """Without the word for it, the end of its input does not end it."""
    run = subprocess.Popen([program, "serve"], stdin=subprocess.DEVNULL, stdout=subprocess.PIPE, stderr=subprocess.PIPE)
    with run:
        try:
            port = int(run.stdout.readline().split()[2])
            time.sleep(0.2)
            with Client(socket.create_connection(("127.0.0.1", port), PATIENCE), PATIENCE) as client:
                client.send(ERODE + b"QUIT\n")
                must_be(client.rest(), ERODED, "a session of a service that has nothing to read")
            must_be(run.poll(), None, "the status of a service that runs")
        finally:
            run.kill()


CASES = (
    two_clients_have_their_own_names, each_connection_has_a_core_of_its_own, a_fault_ends_one_connection_alone, many_connections,
    each_answer_comes_before_the_next_read, who_closes_one_way_hears_its_last_replies, who_closes_one_way_hears_replies_that_wait,
    who_has_gone_is_computed_for_no_more, who_has_closed_one_way_is_computed_for, who_computes_too_long_is_cut,
    who_is_cut_with_more_to_say_is_reset, who_computes_at_the_end_is_cut,
    a_silent_client_is_waited_for_a_second, a_deaf_client_is_waited_for_two_seconds, who_pauses_within_a_line_is_waited_for,
    who_listens_late_is_waited_for, nobody_is_cut_off_without_a_bound, one_client_more_waits_its_turn,
    one_client_over_the_queue_is_turned_away, who_waits_longest_is_served_first, many_over_the_queue_are_turned_away,
    who_waits_at_the_end_is_turned_away, what_comes_behind_the_end_is_read_to_its_end,
    what_comes_behind_the_end_is_read_after_an_interruption, who_is_silent_behind_the_end_is_left, who_drips_behind_the_end_is_left,
    who_speaks_on_for_ever_is_left,
    replies_are_sent_at_once, a_thousand_answers_in_one_write, there_is_a_pause_behind_each_one_that_cannot_be_accepted,
    sessions_that_run_end_by_themselves, sessions_are_ended_behind_the_grace,
    who_comes_as_the_service_ends_is_closed, end_before_any_client, line_that_nobody_takes,
    start_without_a_descriptor_for_a_client, line_that_is_interrupted, serve_tells_its_state,
    refusals_are_counted_by_their_numbers, computing_is_told, resident_size_is_told, port_of_the_state_is_taken, unit_ends_in_good_order,
    a_session_takes_what_it_may, payloads_take_what_they_may, questions_take_what_they_may, stored_sessions_take_what_they_may,
    serve_has_its_port_and_sessions,
    serve_has_its_workers_and_tiles, serve_until_it_is_killed, bad_peers_serve.port_is_taken, bad_peers_serve.within_a_line,
    bad_peers_serve.within_a_payload, bad_peers_serve.many_at_once, bad_peers_serve.comes_late, bad_peers_serve.within_a_reply,
    bad_peers_serve.speaks_on,
)
