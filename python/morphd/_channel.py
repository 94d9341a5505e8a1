"""The two ways to a machine of morphd, a pipe to `morphd batch` and a connection to `morphd listen`, and the requests and
replies that go over them.

A thread of its own reads replies while requests are written, so neither side waits for the other. Replies come in the order
of requests. What ends a session is told to all who wait, and to all who ask behind it.

A child process that is forked has none of the parent's threads, its locks as they were, and copies of its files. There a channel
takes no lock, sends nothing and waits for nothing; the copies are closed at once, so that the parent's program ends with the parent.
"""
from __future__ import annotations

import collections
import io
import os
import re
import shutil
import signal
import socket
import subprocess
import tempfile
import threading
import weakref
from collections.abc import Callable
from pathlib import Path
from typing import Protocol

from .errors import REFUSALS, OutOfMemory, ProgramMissing, Refused, SessionEnded

# The refusals behind which a session has ended. A 50 may be one, too; then the end follows at once.
ENDING = (10, 11, 12)
# How long the end of a program or of a thread is waited for, in seconds, where it has to come at once.
PATIENCE = 30.0
# The lines of replies; those of images and curves tell how many bytes follow.
_REPLY = re.compile(rb"(?:OK|CANCELLED|RELEASED|PENDING) [0-9]+\n|ERR [0-9]+ [A-Z_]+\n|DONE [0-9]+ [A-Z]+(?: [0-9]+)+\n|"
                    rb"FAILED [0-9]+ (?:MEMORY|INPUT [0-9]+)\n|(?:IMAGE|CURVE) [0-9]+ ([0-9]{1,9})\n")


class Reply:
    """The reply to a request, once it has come.

    Attributes
    ----------
    asked : str
        The request, in words.
    words : list of str
        The words of the reply's line.
    payload : bytes
        What followed it.
    """

    def __init__(self, asked: str, then: Callable[[Reply], None] | None = None) -> None:
        self.asked, self._then, self._come = asked, then, threading.Event()
        self._process = os.getpid()
        self.words: list[str] = []
        self.payload = b""
        self._fault: SessionEnded | None = None

    def settle(self, words: list[str], payload: bytes = b"") -> None:
        """It has come."""
        self.words, self.payload = words, payload
        if self._then is not None:
            self._then(self)
        self._come.set()

    def fail(self, fault: SessionEnded) -> None:
        """It will never come."""
        self._fault = fault
        self._come.set()

    def wait(self, timeout: float | None = None) -> Reply:
        """Waits for it. Raises why it does not come."""
        if self._process != os.getpid():
            if not self._come.is_set():
                raise _of_another_process(self.asked, self._process)
        elif not self._come.wait(timeout):
            raise TimeoutError(f"{self.asked}: no reply in {timeout} s")
        if self._fault is not None:
            # a new one each time: each has the place where it is raised
            raise SessionEnded(self._fault.why, self._fault.refusal, self._fault.status)
        return self

    @property
    def number(self) -> int | None:
        """The number of a refusal, None of another reply."""
        return int(self.words[1]) if self.words[0] == "ERR" else None

    def checked(self, timeout: float | None = None) -> Reply:
        """This reply, once it is there and where it is no refusal."""
        self.wait(timeout)
        if self.number is not None:
            raise refusal(self.number, self.asked)
        return self


def refusal(number: int, asked: str) -> Refused | OutOfMemory:
    """What is raised for the number of a refusal."""
    return OutOfMemory(asked) if number == 50 else Refused(number, asked)


def _of_another_process(asked: str, process: int) -> SessionEnded:
    """What is raised where a session is used in a child of the process that opened it."""
    return SessionEnded(f"{asked}: the session is that of process {process}, of which this one is a forked child: open another one here")


class Way(Protocol):
    """How bytes go to the machine and come back."""

    replies: io.BufferedReader

    def send(self, data: bytes) -> None:
        """Writes all of it."""

    def no_more(self) -> None:
        """Says that nothing more is sent."""

    def ended(self) -> tuple[str, int | None]:
        """How it ended, in words, and the exit status of a program."""

    def close(self) -> None:
        """Lets go of it."""

    def leave(self) -> None:
        """Closes a forked child's copies. It touches nothing that could be locked: a file's buffer, a thread, the other end."""


def _described(status: int, told: str) -> str:
    if status < 0:
        return f"morphd was killed by {signal.Signals(-status).name}"
    said = f", and said: {told}" if told else ""
    return f"morphd ended with status {status}{said}"


class Pipe:
    """A program that this process has started."""

    def __init__(self, command: list[str]) -> None:
        self._told = tempfile.TemporaryFile()
        pipes = {"stdin": subprocess.PIPE, "stdout": subprocess.PIPE, "stderr": self._told}
        try:
            # a session of its own, so that an interrupt at the terminal is this process's to handle
            self._run = subprocess.Popen(command, bufsize=0, start_new_session=True, **pipes)  # type: ignore[call-overload]
        except OSError as fault:
            self._told.close()
            raise ProgramMissing(f"{command[0]} cannot be started: {fault}") from fault
        self.replies = io.BufferedReader(self._run.stdout)
        self.pid: int = self._run.pid
        self._ended: tuple[str, int | None] | None = None

    def send(self, data: bytes) -> None:
        left = memoryview(data)
        while left:
            left = left[self._run.stdin.write(left) :]

    def no_more(self) -> None:
        self._run.stdin.close()

    def ended(self) -> tuple[str, int | None]:
        if self._ended is None:
            try:
                status = self._run.wait(PATIENCE)
                self._told.seek(0)
                self._ended = _described(status, self._told.read().decode("utf-8", "replace").strip()), status
            except subprocess.TimeoutExpired:
                self._run.kill()
                self._ended = "morphd closed its output and went on, and was killed", self._run.wait()
        return self._ended

    def close(self) -> None:
        if self._run.poll() is None:
            self._run.kill()
        status = self._run.wait()
        self._ended = self._ended or (_described(status, ""), status)
        for file in (self._run.stdin, self.replies, self._told):
            file.close()

    def leave(self) -> None:
        for file in (self._run.stdin, self._run.stdout):
            file.close()


class Wire:
    """A connection to a server."""

    pid = None

    def __init__(self, host: str, port: int, timeout: float | None) -> None:
        self._socket = socket.create_connection((host, port), timeout)
        self._socket.settimeout(None)
        self._socket.setsockopt(socket.IPPROTO_TCP, socket.TCP_NODELAY, 1)
        self._peer = f"the server at {host}:{port}"
        self.replies = self._socket.makefile("rb")

    def send(self, data: bytes) -> None:
        self._socket.sendall(data)

    def no_more(self) -> None:
        self._socket.shutdown(socket.SHUT_WR)

    def ended(self) -> tuple[str, int | None]:
        return f"{self._peer} closed the connection", None

    def close(self) -> None:
        try:
            self._socket.shutdown(socket.SHUT_RDWR)
        except OSError:
            pass
        self.replies.close()
        self._socket.close()

    def leave(self) -> None:
        self.replies.raw.close()
        self._socket.close()


def found_program(program: str | os.PathLike[str] | None) -> str:
    """The path of the program: as it is given, or by MORPHD, or on PATH, or in a checkout."""
    named = program or os.environ.get("MORPHD")
    if named:
        return os.fspath(named)
    built = Path(__file__).resolve().parents[2] / "crates" / "morphd" / "out" / "morphd"
    found = shutil.which("morphd") or (str(built) if built.exists() else None)
    if found is None:
        raise ProgramMissing(
            "the program morphd was not found: build it with `make morphd` at the top of the repository, and put it on PATH "
            "or name it by program= or MORPHD"
        )
    return found


_channels: weakref.WeakSet[Channel] = weakref.WeakSet()


def _leave_all() -> None:
    """What a forked child does first."""
    for channel in list(_channels):
        channel.way.leave()


os.register_at_fork(after_in_child=_leave_all)


class Channel:
    """Requests over a way, and their replies."""

    def __init__(self, way: Way) -> None:
        self.way, self._process = way, os.getpid()
        self._awaited: collections.deque[Reply] = collections.deque()
        self._sending, self._ending = threading.RLock(), threading.Lock()
        self._end: SessionEnded | None = None
        self._last: Reply | None = None
        self._is_closing = False
        self._reader = threading.Thread(target=self._read_all, name="morphd replies", daemon=True)
        _channels.add(self)
        self._reader.start()

    @property
    def _is_inherited(self) -> bool:
        """Whether this is a forked child of the process whose channel it is."""
        return self._process != os.getpid()

    def send(self, asked: str, data: bytes, then: Callable[[Reply], None] | None = None) -> Reply:
        """Writes a request; gives the reply to come."""
        if self._is_inherited:
            raise _of_another_process(asked, self._process)
        reply = Reply(asked, then)
        with self._sending:
            if self._is_closing:
                raise SessionEnded(f"{asked}: the session is closed")
            with self._ending:
                if self._end is not None:
                    raise SessionEnded(self._end.why, self._end.refusal, self._end.status)
                self._awaited.append(reply)
            try:
                self.way.send(data)
            except OSError:
                # the reader comes to the end, too, and knows why; it tells the reply
                self._reader.join(PATIENCE)
                self._finish("the connection broke while a request was written")
            except BaseException:
                # what was written of the request cannot be taken back
                self._finish("a request was written in part")
                raise
        return reply

    def _read_all(self) -> None:
        why = ""
        try:
            while self._read_one():
                pass
        except SessionEnded as fault:
            self._finish(fault.why)
            return
        except (OSError, ValueError) as fault:
            why = str(fault)
        if self._is_closing and not self._awaited:
            return
        ended, status = self.way.ended()
        self._finish(f"{ended} ({why})" if why else ended, status)

    def _read_one(self) -> bool:
        """Reads a reply; False at the end."""
        line = self.way.replies.readline()
        if not line.endswith(b"\n"):
            return False
        known, payload = _REPLY.fullmatch(line), b""
        if known is None:
            raise SessionEnded(f"this is no reply of morphd: {line[:80]!r}")
        if known.group(1) is not None:
            payload = self.way.replies.read(int(known.group(1)))
            if len(payload) < int(known.group(1)):
                return False
        reply = self._awaited.popleft() if self._awaited else Reply("no request")
        self._last = reply
        reply.settle(line.decode("ascii").split(), payload)
        return True

    def _finish(self, why: str, status: int | None = None) -> None:
        """Tells everybody that it is over."""
        with self._ending:
            if self._end is None:
                self._end = self._told(why, status)
            while self._awaited:
                self._awaited.popleft().fail(self._end)

    def _told(self, why: str, status: int | None) -> SessionEnded:
        """Why it is over: by the last refusal, if that ends sessions."""
        number = self._last.number if self._last is not None and self._last.words else None
        if self._last is not None and (number in ENDING or (number == 50 and (status == 1 or status is None))):
            assert number is not None
            ending = Refused(number, self._last.asked)
            told = f"the session was ended by refusal {number} {REFUSALS[number][0]} of {self._last.asked}"
            return SessionEnded(told, ending, status)
        left = len(self._awaited)
        return SessionEnded(f"{why}; {left} {'request' if left == 1 else 'requests'} had no reply", None, status)

    @property
    def is_over(self) -> bool:
        """Whether nothing more can be asked."""
        return self._is_closing or self._end is not None or self._is_inherited

    def close(self, goodbye: bytes) -> SessionEnded | None:
        """Says goodbye, waits for the end, and gives what went wrong. In a forked child there is nothing to be done."""
        if self._is_inherited:
            return None
        with self._sending:
            if self._is_closing:
                return None
            self._is_closing = True
            try:
                if self._end is None:
                    self.way.send(goodbye)
                self.way.no_more()
            except OSError:
                pass
        if threading.current_thread() is not self._reader:
            self._reader.join(PATIENCE)
        has_ended = not self._reader.is_alive()
        ended, status = self.way.ended() if has_ended else ("the session did not end", None)
        self.way.close()
        self._finish(ended, status)
        is_fine = has_ended and status in (0, None)
        return None if is_fine or (self._end is not None and self._end.refusal is not None) else self._end
