"""Runs `morphd batch` between ends that the system makes bad: an input that comes in pieces, each of which one read gets, that
fails behind so many bytes, or whose reads are interrupted; an output that has room for so many bytes, or that takes a part of
each write. What is seen is the exit status, what was written, and what was told of faults.

Pieces come through a pair of sockets that keeps them apart. A socket whose other end is closed with bytes unread fails. A file
grows to a limit, and no further. A wait at a socket with a limit in time is interrupted by a stop of the process.
"""
import collections
import contextlib
import fcntl
import os
import resource
import signal
import socket
import struct
import subprocess
import tempfile
import termios
import time

# How long a program may take that is to end, in seconds; more where a machine does much else.
PATIENCE = float(os.environ.get("PATIENCE", "30"))
# The seconds and microseconds of a wait that is long enough.
LONG_WAIT = struct.pack("ll", int(PATIENCE), 0)
ALONE = ("--workers", "1")

Left = collections.namedtuple("Left", "status written told")


class Hangs(Exception):
    """Something did not come to pass in time."""


def wait_for(is_so, what):
    """Waits until it is so."""
    begun = time.monotonic()
    while not is_so():
        if time.monotonic() > begun + PATIENCE:
            raise Hangs("%s did not come to pass in %.0f s" % (what, PATIENCE))
        time.sleep(0.0002)


def state(run):
    """What a process does: S where it waits, T where it is stopped, Z where it has ended."""
    with open("/proc/%d/stat" % run.pid, encoding="latin-1") as row:
        return row.read().rpartition(")")[2].split()[0]


def interrupt(run, meanwhile=lambda: None):
    """Interrupts the wait of a process of one thread, if it has not ended, and does something while it is stopped."""
    wait_for(lambda: state(run) in "SZ", "a wait")
    if state(run) == "Z":
        return meanwhile()
    run.send_signal(signal.SIGSTOP)
    wait_for(lambda: state(run) in "TZ", "a stop")
    done = meanwhile()
    run.send_signal(signal.SIGCONT)
    wait_for(lambda: state(run) != "T", "going on")
    return done


class Feed:
    """A standard input of which each read gets one piece."""

    def __init__(self):
        self.mine, self.theirs = socket.socketpair(socket.AF_UNIX, socket.SOCK_SEQPACKET)
        self.mine.settimeout(PATIENCE)

    def give(self, data, size, behind_each=None):
        """Gives these bytes in pieces, as long as somebody reads, and does something once each piece was taken."""
        with contextlib.suppress(BrokenPipeError, ConnectionResetError):
            for at in range(0, len(data), size):
                self.mine.send(data[at:at + size])
                if behind_each:
                    self.wait_until_taken()
                    behind_each()

    def wait_until_taken(self):
        held = bytearray(4)
        wait_for(lambda: fcntl.ioctl(self.mine, termios.TIOCOUTQ, held) == 0 and not any(held), "a read")

    def end(self):
        self.mine.close()
        self.theirs.close()

    def fail(self):
        """Has the next read fail: what this end has not read when it is closed is told to the other one."""
        self.wait_until_taken()
        with contextlib.suppress(BrokenPipeError):
            self.theirs.send(b"unread")
        self.end()


@contextlib.contextmanager
def started(program, words, source, sink, faults):
    """A batch, which is killed where it does not end."""
    run = subprocess.Popen([program, "batch", *words], stdin=source, stdout=sink, stderr=faults)
    try:
        yield run
    finally:
        run.kill()
        run.wait()


def left_of(run, sink, faults):
    """What a batch leaves in these files, once it has ended."""
    try:
        status = run.wait(PATIENCE)
    except subprocess.TimeoutExpired:
        raise Hangs("the batch did not end in %.0f s" % PATIENCE) from None
    return Left(status, *(whole_of(file) for file in (sink, faults)))


def whole_of(file):
    file.seek(0)
    return file.read()


def fed(program, words, feed, give):
    """What a batch leaves that reads of a feed. Its input is given it by a function of the process."""
    with tempfile.TemporaryFile() as sink, tempfile.TemporaryFile() as faults:
        with started(program, words, feed.theirs, sink, faults) as run:
            give(run)
            return left_of(run, sink, faults)


def whole(program, session, words=ALONE):
    """What it leaves of a session that comes whole."""
    with tempfile.TemporaryFile() as source, tempfile.TemporaryFile() as sink, tempfile.TemporaryFile() as faults:
        source.write(session)
        source.seek(0)
        with started(program, words, source, sink, faults) as run:
            return left_of(run, sink, faults)


def in_pieces(program, session, size, words=ALONE):
    """What it leaves of a session that comes in pieces."""
    feed = Feed()

    def give(_):
        feed.theirs.close()
        feed.give(session, size)
        feed.end()
    return fed(program, words, feed, give)


def failing(program, session, size):
    """What it leaves of a session in pieces, where the read behind them fails."""
    feed = Feed()

    def give(_):
        feed.give(session, size)
        feed.fail()
    return fed(program, ALONE, feed, give)


def interrupted(program, session, size):
    """What it leaves of a session in pieces, where each read behind a piece is interrupted."""
    feed = Feed()
    feed.theirs.setsockopt(socket.SOL_SOCKET, socket.SO_RCVTIMEO, LONG_WAIT)

    def give(run):
        feed.theirs.close()
        feed.give(session, size, lambda: interrupt(run))
        feed.end()
    return fed(program, ALONE, feed, give)


@contextlib.contextmanager
def files_within(room):
    """Files grow to so many bytes; a process that is started here keeps that. Where they do not, a write fails."""
    usual = resource.getrlimit(resource.RLIMIT_FSIZE)
    resource.setrlimit(resource.RLIMIT_FSIZE, (room, usual[1]))
    try:
        yield
    finally:
        resource.setrlimit(resource.RLIMIT_FSIZE, usual)


def within(program, session, room):
    """What it leaves of a session whose output has room for so many bytes. The faults go through a pipe, which has no such limit."""
    with tempfile.TemporaryFile() as source, tempfile.TemporaryFile() as sink:
        source.write(session)
        source.seek(0)
        with files_within(room):
            # The signal of a file that may not grow is ignored here, and so it is there.
            run = subprocess.Popen([program, "batch", *ALONE], stdin=source, stdout=sink, stderr=subprocess.PIPE, restore_signals=False)
        try:
            _, told = run.communicate(timeout=PATIENCE)
        except subprocess.TimeoutExpired:
            raise Hangs("the batch did not end in %.0f s" % PATIENCE) from None
        finally:
            run.kill()
            run.wait()
        return Left(run.returncode, whole_of(sink), told)


def drained(wire):
    """All that a socket has for now, and whether more may come."""
    data = bytearray()
    with contextlib.suppress(BlockingIOError):
        while piece := wire.recv(1 << 16, socket.MSG_DONTWAIT):
            data += piece
        return data, False
    return data, True


def taken_in_parts(program, session):
    """What it leaves of a session, where again and again a write is interrupted of which a part was taken. What was taken is read
    while the process is stopped, so the write behind it has room."""
    mine, theirs = socket.socketpair()
    theirs.setsockopt(socket.SOL_SOCKET, socket.SO_SNDTIMEO, LONG_WAIT)
    theirs.setsockopt(socket.SOL_SOCKET, socket.SO_SNDBUF, 4096)
    written, goes_on = bytearray(), True
    with tempfile.TemporaryFile() as source, tempfile.TemporaryFile() as faults, mine:
        source.write(session)
        source.seek(0)
        with started(program, ALONE, source, theirs, faults) as run:
            theirs.close()
            while goes_on:
                data, goes_on = interrupt(run, lambda: drained(mine))
                written += data
            status = run.wait(PATIENCE)
        return Left(status, bytes(written), whole_of(faults))
