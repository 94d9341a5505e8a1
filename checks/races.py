#!/usr/bin/env python3
"""Looks for races: accesses of two threads to one place that nothing orders.

    python3 -B checks/races.py PROGRAM [out/libmorphd.so]
    python3 -B checks/races.py --threads INSTRUMENTED     the second half alone, by a program that checks/instrumented.py made
    python3 -B checks/races.py --test        sees that both ways tell a race and a lock that is left, and not an ordered access

By Debian's helgrind, on what is built: batches of four workers, and calls of the library from two threads (checks/shared_calls.c), which
are spoiled once to see that it is told. These share nothing but the starts and ends of threads. What threads of a server share lies behind
locks of atomics and futexes, which helgrind takes for races, a thousand at a board. So by ThreadSanitizer, which knows atomics, on an unproved
build of the same program (checks/instrumented.py): the batches, a board's session (`morphd listen`, three workers, clients that share
names) and a service's (`morphd serve`, two workers a session, clients at once). What comes back is compared with the reference model.
The sessions of batches are those of checks/refused_memory.py, whose tasks are worth threads: small pictures start none.

Any report fails but those of checks/races.txt, where each stands with its reason; one that no longer comes fails too.
"""
import os
import random
import re
import subprocess
import sys
import tempfile
import threading

import instrumented
import quick_model
import random_session
import reference_model
import refused_memory
import soak_listen
from board_knowledge import Differs
from peers import ERODED, Wrong, must_be
from server import NoAnswer, Server, Service

ROOT = os.path.dirname(os.path.dirname(os.path.realpath(__file__)))
# What ThreadSanitizer is not to tell: lines as `race:function`, each below its reason.
EXPLAINED = f"{ROOT}/checks/races.txt"
# How long a client waits for a reply, and a run for its end, in seconds: all is some fifty times as slow. More where a machine does much
# else.
PATIENCE = float(os.environ.get("PATIENCE", "400"))
# How much of a log is told.
TOLD = 6000


class Watch:
    """Runs of programs that are looked at, each with a log of its own in a folder."""

    def __init__(self, room):
        self.room, self.count, self.used = room, 0, ""

    def watched(self, program):
        """A program that runs another one so, with the words that it is given."""
        self.count += 1
        self.log, path = f"{self.room}/log{self.count}", f"{self.room}/run{self.count}"
        with open(path, "w", encoding="ascii") as file:
            file.write(f"#!/bin/sh\n{self.command(program)} \"$@\"\n")
        os.chmod(path, 0o755)
        return path

    def last(self):
        """How many reports the last run has, and its log."""
        logs = sorted(it for it in os.listdir(self.room) if it.startswith(os.path.basename(self.log)))
        text = ""
        for name in logs:
            with open(f"{self.room}/{name}", encoding="utf-8", errors="replace") as file:
                text += file.read()
        self.used += text
        return self.reports(text), text

    def is_clean(self, what):
        count, log = self.last()
        if count:
            sys.exit("%s\nraces.py: %s: %d reports that are not explained" % (log[max(log.find(self.FIRST), 0):][:TOLD], what, count))
        print("races.py: %s, by %s: nothing" % (what, self.NAME), flush=True)


class Helgrind(Watch):
    NAME, FIRST = "helgrind", "---Thread-Announcement---"

    def command(self, program):
        return f"exec valgrind --tool=helgrind --history-level=approx --log-file={self.log} {program}"

    def reports(self, text):
        found = re.search(r"ERROR SUMMARY: \d+ errors from (\d+) contexts", text)
        return int(found[1]) if found else 1


class Sanitizer(Watch):
    NAME, FIRST = "ThreadSanitizer", "WARNING: ThreadSanitizer"

    def command(self, program):
        options = f"log_path={self.log} suppressions={EXPLAINED} print_suppressions=1 exitcode=0 history_size=4"
        # It wants its shadow where a random place of the program may lie.
        return f"export TSAN_OPTIONS='{options}'\nexec setarch -R {program}"

    def reports(self, text):
        return text.count(self.FIRST)


# ---- sessions


class Small(soak_listen.Small):
    """Small pictures, some over a seam of tiles."""

    def frame(self):
        return super().frame() if self.often(6) else (66, 65)


SHARED = list(refused_memory.FOUR_WORKERS.values())


def a_session(number):
    return random_session.written(random.Random("races %d" % number), Small)


def at_once(works):
    """Runs all of them, each in a thread of its own; the first fault of any is raised."""
    faults = []

    def kept(work):
        try:
            work()
        except (Wrong, NoAnswer, Differs, OSError) as fault:
            faults.append(fault)
    threads = [threading.Thread(target=kept, args=(work,), daemon=True) for work in works]
    for thread in threads:
        thread.start()
    for thread in threads:
        thread.join(PATIENCE)
    if faults:
        raise faults[0]
    if any(thread.is_alive() for thread in threads):
        raise NoAnswer("a client had not ended after %d s" % PATIENCE)


def of_a_board(server, number):
    """One client of a board: entries of its own, and one that all of them work on."""
    mine = b"m%d" % number
    with server.connect(PATIENCE) as client:
        client.send(b"LOAD shared 19\nP2\n5 1\n9\n3 1 4 1 5\nELEMENT b 1 0 11\nP1\n3 1\n111\n")
        client.line(), client.line()
        client.send(b"LOAD %s 19\nP2\n5 1\n9\n3 1 4 1 5\n" % mine)
        must_be(client.line()[:3], b"OK ", "the reply to a picture")
        for turn in range(6):
            name = b"%s-%d" % (mine, turn)
            client.send(b"RUN %s ERODE %s b\nRUN %s-w OPEN shared b\nSTATUS %s-w\nWAIT %s-w\nFETCH %s\nWAIT %s\nFETCH %s\nRELEASE %s-w\n"
                        % (name, mine if turn % 2 else b"shared", name, name, name, name, name, name, name))
            replies = [client.reply() for _ in range(8)]
            must_be(replies[6][1], ERODED, "an erosion")
        client.send(b"RUN x%d OPEN shared b\nCANCEL x%d\nQUIT\n" % (number, number))
        client.rest()


def board(watch, program):
    with Server(watch.watched(program), 3, workers=3, tile=64) as server:
        at_once([lambda number=number: of_a_board(server, number) for number in range(3)])
        must_be(server.end(PATIENCE), (0, b""), "the server's end")
    watch.is_clean("a board of three workers and three clients")


def of_a_service(service, number, given, wanted):
    with service.connect(PATIENCE) as client:
        try:
            client.send(given)
            client.is_over()
        except (NoAnswer, OSError):
            # The session may end before all is sent.
            pass
        must_be(client.rest() == wanted, True, "whether the replies of session %d are those that are due" % number)


def service(watch, program):
    # Every other session is worth threads. The model is asked before, since its quick ways are for one thread.
    given = [a_session(number) if number % 2 else SHARED[number // 2] for number in range(8)]
    wanted = [reference_model.served(it)[0] for it in given]
    with Service(watch.watched(program), 3, workers=2, tile=64, idle=int(PATIENCE)) as served:
        for first in (0, 4):
            at_once([lambda number=number: of_a_service(served, number, given[number], wanted[number]) for number in range(first, first + 4)])
        must_be(served.end(PATIENCE), (0, b""), "the service's end")
    watch.is_clean("a service of two workers a session, and four clients at once")


def batch(watch, program):
    for name, given in refused_memory.FOUR_WORKERS.items():
        words = [watch.watched(program), "batch", "--workers", "4", "--tile", "64"]
        made = subprocess.run(words, input=given, capture_output=True, timeout=PATIENCE, check=False)
        must_be(made.stdout == reference_model.served(given)[0], True, "whether a batch writes what is due, %s" % name)
        watch.is_clean("a batch of four workers, %s" % name)


def starts_threads(program):
    """Stops where a session that is to be looked at starts no threads."""
    refused_memory.built_refuser()
    with tempfile.TemporaryDirectory() as room:
        for name, given in refused_memory.FOUR_WORKERS.items():
            made = refused_memory.run(program, ["--workers", "4", "--tile", "64"], given, f"{room}/count")
            if made.starts < refused_memory.LEAST_STARTS:
                sys.exit("races.py: the session %s starts %d threads by four workers" % (name, made.starts))


# ---- the library


def compiled(source, room, *more, compiler=("cc",)):
    made = f"{room}/{os.path.basename(source)}.out"
    subprocess.run([*compiler, "-g", "-O1", "-pthread", f"-I{ROOT}/include", source, *more, "-o", made], check=True)
    return made


def library(watch, path):
    folder = os.path.dirname(os.path.abspath(path))
    calls = compiled(f"{ROOT}/checks/shared_calls.c", watch.room, os.path.abspath(path), f"-Wl,-rpath,{folder}")
    for cpu in ("v2", "v3"):
        ran = subprocess.run([watch.watched(calls)], env={**os.environ, "MORPHD_CPU": cpu}, timeout=PATIENCE, check=False)
        must_be(ran.returncode, 0, "what two threads make")
        watch.is_clean(f"the library ({cpu}) from two threads")
    subprocess.run([watch.watched(calls), "spoiled"], timeout=PATIENCE, check=False)
    if not watch.last()[0]:
        sys.exit("races.py: two threads that write one place were not told")


# ---- that a report is told

RACE = """
#include <pthread.h>
static int count;
static pthread_mutex_t lock = PTHREAD_MUTEX_INITIALIZER;
static void *works(void *given) {
    (void)given;
    %s
    return 0;
}
int main(void) {
    pthread_t other;
    pthread_create(&other, 0, works, 0);
    works(0);
    pthread_join(other, 0);
    return count != 2;
}
"""
BODIES = {"ordered": "pthread_mutex_lock(&lock); count++; pthread_mutex_unlock(&lock);", "raced": "count++;",
          "left": "pthread_mutex_unlock(&lock); pthread_mutex_lock(&lock); count++; pthread_mutex_unlock(&lock);"}


def test():
    instrumented.needs("threads")
    for kind, compiler in ((Helgrind, ["cc"]), (Sanitizer, ["clang", "-fsanitize=thread"])):
        with tempfile.TemporaryDirectory() as room:
            watch = kind(room)
            for name, body in BODIES.items():
                with open(f"{room}/{name}.c", "w", encoding="ascii") as file:
                    file.write(RACE % body)
                subprocess.run([watch.watched(compiled(f"{room}/{name}.c", room, compiler=compiler))], timeout=PATIENCE, check=False)
                count, log = watch.last()
                if bool(count) != (name != "ordered"):
                    sys.exit(f"{log[:TOLD]}\nraces.py: {kind.NAME} has {count} reports of a program that is {name}")
    print("races.py: a race and a lock that is left are told")


def by_helgrind(words):
    with tempfile.TemporaryDirectory() as room:
        watch = Helgrind(room)
        for path in words:
            if path.endswith(".so"):
                library(watch, path)
            else:
                starts_threads(os.path.abspath(path))
                batch(watch, os.path.abspath(path))


def by_sanitizer(program):
    with tempfile.TemporaryDirectory() as room:
        watch = Sanitizer(room)
        for part in (batch, board, service):
            part(watch, program)
        with open(EXPLAINED, encoding="utf-8") as file:
            stale = [it.strip() for it in file if it.strip() and it[0] != "#" and it.strip() not in watch.used]
        if stale:
            sys.exit(f"races.py: no longer told, so no longer to be explained: {', '.join(stale)}")


def main():
    words = sys.argv[1:]
    quick_model.install()
    if words == ["--test"]:
        test()
    elif words[:1] == ["--threads"] and len(words) == 2:
        by_sanitizer(os.path.abspath(words[1]))
    elif words and not words[0].startswith("-"):
        by_helgrind(words)
        by_sanitizer(instrumented.built("threads"))
    else:
        sys.exit(__doc__)


if __name__ == "__main__":
    try:
        sys.exit(main())
    except (Wrong, NoAnswer, Differs, subprocess.TimeoutExpired) as fault:
        print("races.py: %s" % fault, flush=True)
        os._exit(1)
