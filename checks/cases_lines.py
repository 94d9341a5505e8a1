"""Cases of command lines for checks/replay_served.py: what is told of each that asks for no job, and with which status. What a job
was asked for is seen by what it does, in the cases of the jobs. Each case takes the program, and stops by `Wrong` where it does
something else.
"""
import os
import pathlib
import re
import subprocess

from cases_batch import threads_of_batch
from ends import PATIENCE
from peers import Wrong, must_be
from reference_model import OPERATIONS

# Command lines, each with all that is told of it, and its status behind that.
TOLD = pathlib.Path(__file__).resolve().with_name("command_lines.txt")
VERSION = (pathlib.Path(__file__).resolve().parents[1] / "VERSION").read_text().strip()


def ran(program, line, **pipes):
    """What a command line ends with, and what it tells."""
    pipes = {"stdout": subprocess.PIPE, "stderr": subprocess.PIPE} | pipes
    made = subprocess.run([program, *line.split()], stdin=subprocess.DEVNULL, timeout=PATIENCE, **pipes)
    return made.returncode, made.stdout, made.stderr


TILE = "error: tile must be a multiple of 64"
WORKERS = "error: workers must be from 1 to 64"
IDLE = "error: idle must be from 1 to 86400"
PORT = "error: port must be from 1 to 65535"
SESSIONS = "error: sessions must be from 1 to 64"
# Of two faults the first is told, in the order of the words of the help.
FAULTS = {
    "batch --tile 100": TILE,
    "batch --tile 65": TILE,
    "batch --tile 0 --workers 2": TILE,
    "batch --tile 1088": TILE,
    "batch --tile 0 --workers 0": WORKERS,
    "batch --workers 65": WORKERS,
    "batch --workers 0 --tile 65": WORKERS,
    "listen --port 0": PORT,
    "listen --port 0 --workers 0": PORT,
    "listen --port 65536": PORT,
    "listen --port 7001 --workers 65 --sessions 0": WORKERS,
    "listen --port 7001 --workers 0": WORKERS,
    "listen --port 7001 --workers 0 --sessions 0": WORKERS,
    "listen --port 7001 --sessions 0 --tile 1": SESSIONS,
    "listen --port 7001 --sessions 65": SESSIONS,
    "listen --port 7001 --sessions 65 --tile 65": SESSIONS,
    "listen --port 7001 --tile 100": TILE,
    "listen --port 7001 --idle 86401": IDLE,
    "listen --port 7001 --idle 0": IDLE,
    "listen --port 7001 --idle 0 --tile 1": TILE,
    "listen --port 7001 --tile 100 --idle 0": TILE,
    "serve --port 65536 --workers 0": "error: port must be from 0 to 65535",
    "serve --workers 65 --sessions 0": WORKERS,
    "serve --sessions 1025 --tile 65": "error: sessions must be from 1 to 1024",
    "serve --sessions 0": "error: sessions must be from 1 to 1024",
    "serve --tile 1 --idle 0": TILE,
    "serve --idle 0": IDLE,
    "serve --idle 86401": IDLE,
    "serve --idle 0 --queue 0": IDLE,
    "serve --queue 0": "error: queue must be from 1 to 1024",
    "serve --queue 1025 --grace 0": "error: queue must be from 1 to 1024",
    "serve --grace 0": "error: grace must be from 1 to 86400",
    "serve --grace 86401 --status 0": "error: grace must be from 1 to 86400",
    "serve --status 0": "error: status must be from 1 to 65535",
    "serve --status 65536": "error: status must be from 1 to 65535",
    "serve --status 0 --time 0": "error: status must be from 1 to 65535",
    "serve --time 0": "error: time must be from 1 to 86400",
    "serve --time 86401": "error: time must be from 1 to 86400",
    "serve --time 0 --memory 0": "error: time must be from 1 to 86400",
    "serve --memory 0": "error: memory must be from 1 to 1048576",
    "serve --memory 1048577": "error: memory must be from 1 to 1048576",
}


def lines_of_faults(program):
    """Each by its line on standard error alone, with status 2."""
    for line, told in FAULTS.items():
        must_be(ran(program, line), (2, b"", told.encode() + b"\n"), "morphd " + line)


# Words that are no command line, and what is told of them among others.
NO_WORDS = {
    "": "requires a subcommand but one was not provided",
    "listen": "the following required arguments were not provided",
    "batch --tile x": "invalid value 'x' for '--tile <T>'",
    "batch --tile 4294967296": "invalid value '4294967296' for '--tile <T>'",
    "batch --tiles 64": "unexpected argument '--tiles' found",
    "batch --tile 64 --tile 64": "the argument '--tile <T>' cannot be used multiple times",
    "erode": "unrecognized subcommand 'erode'",
}


def words_that_clap_refuses(program):
    """On standard error, with status 2."""
    for line, told in NO_WORDS.items():
        status, output, faults = ran(program, line)
        must_be((status, output), (2, b""), "morphd " + line)
        if told.encode() not in faults:
            raise Wrong("morphd %s told %r" % (line, faults))


def words_that_are_taken(program):
    """The least and the greatest numbers, in both forms; a batch of nothing ends at once."""
    for line in ("batch", "batch --tile 64", "batch --tile=1024", "batch --workers 1", "batch --workers 64", "batch --strict",
                 "batch --tile 1024 --workers=64 --strict"):
        must_be(ran(program, line), (0, b"", b""), "morphd " + line)
    for line in ("serve --until-end", "serve --workers 64 --sessions 1024 --tile 64 --idle 86400 --until-end",
                 "serve --port 0 --sessions 1 --idle=1 --until-end", "serve --queue 1 --grace=1 --until-end",
                 "serve --queue 1024 --grace 86400 --until-end", "serve --time 1 --until-end", "serve --time=86400 --until-end",
                 "serve --memory 1 --until-end", "serve --memory=1048576 --until-end"):
        status, output, faults = ran(program, line)
        must_be((status, output.count(b"\n"), faults), (0, 1, b""), "morphd " + line)


def stored():
    """What each of these command lines ends with and tells: helps on standard output, what clap refuses on standard error."""
    told = TOLD.read_text(encoding="utf-8")
    blocks = re.findall(r"^\$ morphd (.*)\n((?:.*\n)*?)\[([0-9]+)\]\n", told, re.MULTILINE)
    must_be(sum(len("$ morphd %s\n%s[%s]\n" % it) for it in blocks), len(told), "the length of what is stored")
    return {line: (0, text.encode(), b"") if status == "0" else (int(status), b"", text.encode()) for line, text, status in blocks}


def told_of(program, line):
    """What is told of a command line, in which a build of another name is called morphd."""
    status, *texts = ran(program, line)
    name = os.path.basename(program).encode()
    return status, *(re.sub(rb"(?<![^\s`'])" + re.escape(name) + rb"(?![\w.])", b"morphd", it) for it in texts)


def texts_word_for_word(program):
    """Each of them."""
    for line, wanted in stored().items():
        must_be(told_of(program, line), wanted, "morphd " + line)


def helps(program):
    """The word asks for the same text as the option."""
    for line, option in (("help", "--help"), ("help batch", "batch --help")):
        must_be(told_of(program, line), stored()[option], "morphd " + line)


def help_shows_a_session(program):
    """A whole one."""
    _, output, _ = ran(program, "--help")
    for text in (b"LOAD f 19\n  P2\n  5 1\n  9\n  3 1 4 1 5\n", b"FETCH e"):
        must_be(text in output, True, "%r in the help" % text)


def help_of_a_batch_names_the_operations(program):
    """All of them."""
    _, output, _ = ran(program, "batch --help")
    for name in OPERATIONS:
        must_be(b"\n  %s " % name.encode() in output, True, name + " in the help of a batch")


def version_is_shown(program):
    """That of the repository."""
    must_be(ran(program, "--version"), (0, b"morphd %s\n" % VERSION.encode(), b""), "the version")


def help_that_nobody_takes(program):
    """The fault is told."""
    with open("/dev/full", "wb") as full:
        for line in ("--help", "batch --help", "--version"):
            status, _, told = ran(program, line, stdout=full)
            must_be((status, told), (1, b"error: output\n"), "morphd %s to a full device" % line)


def as_many_workers_as_processors(program):
    """A batch that asks for no number of workers has as many as there are processors for it: here one, and then two."""
    mine = sorted(os.sched_getaffinity(0))
    for count in (1, 2)[:len(mine)]:
        os.sched_setaffinity(0, mine[:count])
        must_be(threads_of_batch(program, ("--tile", "64")), count, "the threads of a batch on %d processors" % count)
    os.sched_setaffinity(0, mine)


CASES = (lines_of_faults, words_that_clap_refuses, words_that_are_taken, texts_word_for_word, helps, help_shows_a_session,
         help_of_a_batch_names_the_operations, version_is_shown, help_that_nobody_takes, as_many_workers_as_processors)
