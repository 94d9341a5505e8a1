#!/usr/bin/env python3
"""Replays worked cases on built programs, over real ends: batches whose input and output are cut, interrupted and fail, services
and servers with their clients over the loopback, and command lines. Each case says what the program does, byte for byte, as
values from outside (checks/cases_batch.py, cases_serve.py, cases_listen.py, cases_lines.py).

    python3 checks/replay_served.py PROGRAM..               all cases on each program
    python3 checks/replay_served.py --only WORD PROGRAM..   those whose name has the word
    python3 checks/replay_served.py --trial PROGRAM..       those that a trial build, which is hundreds of times slower, does in seconds
    python3 checks/replay_served.py --test PROGRAM          sees that each case can fail

It needs nothing that is proved, so it can be run on a trial build too. It prints a line for each case that fails, and then how
many passed; the status is 1 where one failed. What is to happen at some time is waited for up to 30 seconds.

`--test` spoils what comes of the program, and each case has to notice. It leaves out words of command lines and, where there is a C
compiler, makes calls of the system wrong (checks/wrong_calls.c): of each of these faults one case at least has to tell.
"""
import multiprocessing
import os
import shutil
import signal
import stat
import subprocess
import sys
import tempfile
import time

import cases_batch
import cases_lines
import cases_listen
import cases_serve
import ends
import server
from ends import PATIENCE, Hangs
from peers import Wrong
from server import NoAnswer

KINDS = {"batch": cases_batch, "lines": cases_lines, "serve": cases_serve, "listen": cases_listen}
# How long a case may take, in seconds. Most take less than one.
LONGEST = int(5 * PATIENCE)
# How many are at work at once: most of them wait, and of those that are to fail nearly all.
AT_ONCE, FAILING_AT_ONCE = 6, 16
FAULTS = (Wrong, NoAnswer, Hangs, subprocess.TimeoutExpired)
# It compares stored sessions with the reference model, and asks no program.
WITHOUT_PROGRAM = ("batch.worked_sessions_are_the_models",)
# They compute much, or send many megabytes.
LONG = {"batch": ("as_many_entries_as_there_may_be", "scripts_by_several_workers", "batch_has_its_workers_and_tiles",
                  "work_of_each_kind_is_shared", "worked_sessions_in_pieces"),
        "lines": ("as_many_workers_as_processors",),
        "serve": ("who_speaks_on_for_ever_is_left", "replies_are_sent_at_once", "serve_has_its_workers_and_tiles", "within_a_reply",
                  "nobody_is_cut_off_without_a_bound", "who_closes_one_way_hears_replies_that_wait", "who_listens_late_is_waited_for",
                   "a_deaf_client_is_waited_for_two_seconds", "speaks_on", "stored_sessions_take_what_they_may",
                   "who_comes_as_the_service_ends_is_closed", "who_has_gone_is_computed_for_no_more",
                   "who_has_closed_one_way_is_computed_for", "who_computes_too_long_is_cut", "who_is_cut_with_more_to_say_is_reset",
                   "who_computes_at_the_end_is_cut", "computing_is_told"),
        "listen": ("a_long_file_is_loaded", "workers_overlap", "cancel_fails_dependents", "what_is_released_serves_nothing_new",
                   "replies_are_sent_at_once", "listen_has_its_tiles", "within_a_reply")}


def all_cases(word=""):
    """The cases whose name has the word, by their names. Those that wait for long come first."""
    found = {"%s.%s" % (kind, case.__name__): case for kind, module in reversed(KINDS.items()) for case in module.CASES}
    return {name: case for name, case in found.items() if word in name}


def ring(*_):
    raise Hangs("the case did not end in %d s" % LONGEST)


def outcome(asked):
    """What a case tells of a program, nothing where all is well; and how long it took."""
    name, program, is_spoiled = asked
    signal.signal(signal.SIGALRM, ring)
    signal.alarm(LONGEST)
    begun = time.monotonic()
    if is_spoiled:
        spoil()
    try:
        all_cases()[name](program)
        told = ""
    except FAULTS as fault:
        told = "%s: %s" % (type(fault).__name__, fault)
    signal.alarm(0)
    return asked, told, time.monotonic() - begun


def outcomes(asked, at_once):
    """What each of these cases tells, so many at once, each in a process of its own."""
    with multiprocessing.get_context("fork").Pool(at_once, maxtasksperchild=1) as crew:
        yield from crew.imap_unordered(outcome, asked, chunksize=1)


def quick_cases():
    return [name for name in all_cases() if name.partition(".")[2] not in LONG[name.partition(".")[0]]]


def replay(programs, names, word=""):
    """Runs the cases of these names, and tells those that fail. Whether all passed."""
    begun = time.monotonic()
    asked = [(name, os.path.abspath(program), False) for name in names for program in programs
             if name not in WITHOUT_PROGRAM or program == programs[0]]
    failed = 0
    for (name, program, _), told, seconds in outcomes(asked, AT_ONCE):
        if told:
            failed += 1
            print("%s: %s: %s" % (program, name, told), flush=True)
        elif word:
            print("%s: %s: well, %.1f s" % (program, name, seconds), flush=True)
    passed = len(asked) - failed
    print("replay_served.py: %d of %d cases passed, on %d programs, in %.0f s"
          % (passed, len(asked), len(programs), time.monotonic() - begun), flush=True)
    return bool(asked) and not failed


# ---- that each case can fail


def turned(data):
    """These bytes, all of them others."""
    return bytes(byte ^ 1 for byte in data)


def spoil():
    """From now on whatever comes of a program comes otherwise: files, pipes, what clients hear, and what a run leaves."""
    whole_of, drained, more, run = ends.whole_of, ends.drained, server.Client.more, subprocess.run
    ends.whole_of = lambda file: turned(whole_of(file))

    def spoiled_drained(wire):
        data, goes_on = drained(wire)
        return turned(data), goes_on
    ends.drained = spoiled_drained

    def spoiled_more(client, what):
        count = more(client, what)
        client.held[-count:] = turned(client.held[-count:]) if count else b""
        return count
    server.Client.more = spoiled_more

    def spoiled_run(*words, **given):
        made = run(*words, **given)
        made.stdout, made.stderr = (turned(it) if it else it for it in (made.stdout, made.stderr))
        return made
    subprocess.run = spoiled_run


# Words that are left out of command lines, and the cases that have to notice.
LEFT_OUT = (
    ("batch", "--workers", "batch.batch_has_its_workers_and_tiles"),
    ("batch", "--tile", "batch.batch_has_its_workers_and_tiles"),
    ("batch", "--strict", "batch.strict_sessions"),
    ("serve", "--workers", "serve.serve_has_its_workers_and_tiles"),
    ("serve", "--tile", "serve.serve_has_its_workers_and_tiles"),
    ("serve", "--sessions", "serve.serve_has_its_port_and_sessions"),
    ("serve", "--port", "serve.serve_has_its_port_and_sessions"),
    ("serve", "--idle", "serve.a_silent_client_is_waited_for_a_second"),
    ("serve", "--until-end", "serve.end_before_any_client"),
    ("serve", "--queue", "serve.one_client_over_the_queue_is_turned_away"),
    ("serve", "--grace", "serve.sessions_are_ended_behind_the_grace"),
    ("serve", "--status", "serve.serve_tells_its_state"),
    ("serve", "--time", "serve.who_computes_too_long_is_cut"),
    ("serve", "--memory", "serve.a_session_takes_what_it_may"),
    ("serve", "--memory", "serve.questions_take_what_they_may"),
    ("listen", "--workers", "listen.listen_has_its_port_workers_and_sessions"),
    ("listen", "--sessions", "listen.listen_has_its_port_workers_and_sessions"),
    ("listen", "--tile", "listen.listen_has_its_tiles"),
    ("listen", "--idle", "listen.clients_that_are_not_waited_for"),
    ("listen", "--announce", "listen.port_is_told"),
)
FLAGS = ("--strict", "--until-end", "--announce")
# What checks/wrong_calls.c does to calls of the system, and the cases that have to notice.
WRONG_CALLS = (
    ("both_ways", "serve.what_comes_behind_the_end_is_read_to_its_end"),
    ("read_once", "serve.what_comes_behind_the_end_is_read_to_its_end"),
    ("read_for_ever", "serve.who_speaks_on_for_ever_is_left"),
    ("delayed", "serve.replies_are_sent_at_once"),
    ("delayed", "listen.replies_are_sent_at_once"),
    ("milliseconds", "serve.who_pauses_within_a_line_is_waited_for"),
    ("milliseconds", "serve.who_listens_late_is_waited_for"),
    ("milliseconds", "listen.who_pauses_within_a_line_is_waited_for"),
    ("reads_unbounded", "serve.a_silent_client_is_waited_for_a_second"),
    ("writes_unbounded", "serve.a_deaf_client_is_waited_for_two_seconds"),
    ("writes_unbounded", "listen.clients_that_are_not_waited_for"),
    ("one_by_one", "serve.a_thousand_answers_in_one_write"),
    ("one_by_one", "listen.a_thousand_answers_in_one_write"),
    ("no_pause", "serve.there_is_a_pause_behind_each_one_that_cannot_be_accepted"),
    ("short_pauses", "serve.there_is_a_pause_behind_each_one_that_cannot_be_accepted"),
    ("gives_up", "batch.a_reader_that_is_interrupted"),
    ("gives_up", "serve.line_that_is_interrupted"),
    ("loses_rest", "batch.a_writer_that_takes_parts"),
    ("no_errors", "serve.who_has_gone_is_computed_for_no_more"),
    ("ends_as_errors", "serve.who_has_closed_one_way_is_computed_for"),
)
# A program in the place of the one that is tried, with the same number of its process.
FRONT = """#!{python} -SE
import os, sys
words = sys.argv[1:]
{change}
os.execv({program!r}, [{program!r}] + words)
"""
DROP = """if words[:1] == [{job!r}] and {word!r} in words:
    at = words.index({word!r})
    del words[at:at + {count}]"""
PRELOAD = "os.environ.update(LD_PRELOAD={library!r}, WRONG={wrong!r})"


def front(folder, program, name, change):
    """A program that changes something, and then becomes the other one."""
    path = os.path.join(folder, name)
    with open(path, "w", encoding="utf-8") as file:
        file.write(FRONT.format(python=os.path.realpath(sys.executable), program=program, change=change))
    os.chmod(path, stat.S_IRWXU)
    return path


def wrong_programs(folder, program):
    """Programs with a fault, each with the case that has to notice."""
    for job, word, name in LEFT_OUT:
        change = DROP.format(job=job, word=word, count=1 if word in FLAGS else 2)
        yield name, front(folder, program, "%s without %s" % (job, word), change)
    if not shutil.which("cc"):
        print("replay_served.py: wrong calls of the system are not tried: install Debian's package gcc", file=sys.stderr)
        return
    library = os.path.join(folder, "wrong_calls.so")
    source = os.path.join(os.path.dirname(os.path.abspath(__file__)), "wrong_calls.c")
    subprocess.run(["cc", "-shared", "-fPIC", "-O1", "-o", library, source, "-ldl"], check=True)
    for wrong, name in WRONG_CALLS:
        yield name, front(folder, program, "calls by " + wrong, PRELOAD.format(library=library, wrong=wrong))


def can_fail(program, word):
    """Tells the cases that notice nothing. Whether all did."""
    program, unseen = os.path.abspath(program), 0
    with tempfile.TemporaryDirectory() as folder:
        asked = [(name, path, False) for name, path in wrong_programs(folder, program) if word in name]
        asked += [(name, program, True) for name in all_cases(word) if name not in WITHOUT_PROGRAM]
        for (name, asked_of, is_spoiled), told, _ in outcomes(asked, FAILING_AT_ONCE):
            if not told:
                unseen += 1
                print("%s does not notice: %s" % (name, "what comes is spoiled" if is_spoiled else os.path.basename(asked_of)), flush=True)
    print("replay_served.py: %d of %d faults are noticed" % (len(asked) - unseen, len(asked)), flush=True)
    return not unseen


def main():
    kind, words = "", sys.argv[1:]
    if words and words[0] in ("--test", "--trial"):
        kind, *words = words
    word, words = (words[1], words[2:]) if words[:1] == ["--only"] else ("", words)
    if not words:
        sys.exit(__doc__)
    if kind == "--test":
        if "PATIENCE" not in os.environ:
            # What a fault keeps from coming is not waited for as long as what a slow machine makes late.
            os.execve(sys.executable, [sys.executable, "-B", *sys.argv], os.environ | {"PATIENCE": "8"})
        sys.exit(not can_fail(words[0], word))
    sys.exit(not replay(words, quick_cases() if kind else all_cases(word), word))


if __name__ == "__main__":
    main()
