"""Sessions with the program `morphd`, in a process of its own or on a server.

    with morphd.Session(workers=4) as session:
        grains = session.load(image)
        opened = session.opening(grains, morphd.disk(5))
        mask = session.threshold(opened, 40)            # of a result that is still pending
        picture = mask.result()                         # waits; a Picture, and mask.array() is a NumPy array

    with morphd.Session.connect("127.0.0.1", 7001) as session: ..

A call writes its request and returns a handle; nothing waits but what asks for a result. A refusal is raised where the
result is asked for, and tells the request that was refused. What a handle stands for is let go of when the handle is.
A session is that of its process: in a forked child it raises `SessionEnded`, and dropping it there does nothing.
This module needs nothing but Python; arrays need NumPy.
"""
from __future__ import annotations

import collections
import os
import secrets
import time
import warnings
import weakref
from itertools import count
from typing import TYPE_CHECKING, Any

from ._channel import Channel, Pipe, Reply, Way, Wire, found_program, refusal
from ._families import family
from ._numbers import whole
from .errors import Cancelled, InputFailed, OutOfMemory, Refused
from .footprints import Footprint
from .netpbm import Picture

if TYPE_CHECKING:
    from .curves import Spectrum

__all__ = ["Handle", "Session"]

# How long a result is left alone between two looks, where the time is limited, in seconds.
SHORTEST_LOOK, LONGEST_LOOK = 0.001, 0.05


class Handle:
    """Something in a session: an image, a footprint or a curve, which may still be pending.

    Attributes
    ----------
    name : str
        Its name there. On a server other clients can use it.
    """

    def __init__(self, session: Session, name: str, submitted: Reply | None, inputs: tuple[Handle, ...] = ()) -> None:
        self.name, self._session, self._submitted, self._inputs = name, session, submitted, inputs
        self._measured: tuple[Footprint | tuple[Footprint, ...], Handle] | None = None
        # of a spectrum by several footprints the curves before this one, whose first volumes are its own
        self._before: tuple[Handle, ...] = ()
        self._letting_go = weakref.finalize(self, session._dropped.append, name) if submitted is not None else None
        if self._letting_go is not None:
            self._letting_go.atexit = False

    def _check_submitted(self) -> None:
        """Raises why it was refused: of an input's refusal that of the input."""
        if self._submitted is None:
            return
        reply = self._submitted.wait()
        if reply.number is None:
            self._inputs = ()
            return
        if reply.number == 41:
            for each in self._inputs:
                each._check_submitted()
        raise refusal(reply.number, reply.asked)

    def accepted(self) -> Handle:
        """Waits until the session has taken it, and raises why if it has not.

        Returns
        -------
        Handle
            Itself.
        """
        self._check_submitted()
        return self

    @property
    def ticket(self) -> int:
        """Its number in the session."""
        self._check_submitted()
        reply = self._submitted or self._session._ask("STATUS", self.name).checked()
        return int(reply.words[1])

    def status(self) -> str:
        """How it stands now.

        Returns
        -------
        str
            'pending', 'done', 'cancelled', 'failed' or 'released'.
        """
        self._check_submitted()
        return self._session._ask("STATUS", self.name).checked().words[0].lower()

    def wait(self, timeout: float | None = None) -> Handle:
        """Waits until it is settled.

        Parameters
        ----------
        timeout : float, optional
            For how many seconds at most.

        Returns
        -------
        Handle
            Itself.

        Raises
        ------
        Refused, OutOfMemory, Cancelled, InputFailed
            What came of it, where it is not done.
        TimeoutError
            Where it is not settled in time. It goes on.
        """
        self._of(self._settled(timeout))
        return self

    def _settled(self, timeout: float | None) -> Reply:
        """The reply to WAIT. Over a connection a limited wait looks again and again, so that other requests come through."""
        if timeout is None or not self._session.is_shared:
            return self._session._ask("WAIT", self.name).wait(timeout)
        until, pause = time.monotonic() + timeout, SHORTEST_LOOK
        while True:
            reply = self._session._ask("STATUS", self.name).wait(max(until - time.monotonic(), 0))
            if reply.words[0] != "PENDING":
                return reply
            if time.monotonic() + pause > until:
                raise TimeoutError(f"{self.name} is not settled in {timeout} s")
            time.sleep(pause)
            pause = min(2 * pause, LONGEST_LOOK)

    def _of(self, reply: Reply) -> Reply:
        """The reply, where it tells that it is done."""
        self._check_submitted()
        word, asked = reply.words[0], self._submitted.asked if self._submitted is not None else self.name
        if word == "CANCELLED":
            raise Cancelled(f"{asked} was cancelled")
        if word == "FAILED" and reply.words[2] == "MEMORY":
            raise OutOfMemory(asked)
        if word == "FAILED":
            raise InputFailed(asked, int(reply.words[3]))
        if word == "RELEASED":
            raise Refused(51, asked)
        return reply.checked()

    def result(self, timeout: float | None = None) -> Any:
        """Waits for it and fetches it.

        Parameters
        ----------
        timeout : float, optional
            For how many seconds at most.

        Returns
        -------
        Picture or list of int
            The image, or the volumes of a spectrum.

        Raises
        ------
        Refused, OutOfMemory, Cancelled, InputFailed
            What came of it, where it is not done.
        TimeoutError
            Where it does not come in time. It goes on.
        SessionEnded
            Where the session is over, and why.
        """
        begun = time.monotonic()
        if timeout is not None:
            self._of(self._settled(timeout))
            timeout = max(timeout - (time.monotonic() - begun), 0.0)
        elif self._session.is_shared:
            self._session._ask("WAIT", self.name)
        reply = self._of(self._session._ask("FETCH", self.name).wait(timeout))
        if reply.words[0] == "IMAGE":
            return Picture.of_file(reply.payload)
        lines = (line.split() for line in reply.payload.decode("ascii").splitlines())
        volumes = [int(words[2]) for words in lines if words[0] == "V"]
        return [*(each.result(timeout)[0] for each in self._before), volumes[0]] if self._before else volumes

    def array(self, timeout: float | None = None) -> Any:
        """The image as a NumPy array of bool, uint8 or uint16; waits as `result` does."""
        import numpy

        return numpy.asarray(self.result(timeout))

    def __array__(self, dtype: Any = None, copy: bool | None = None) -> Any:
        made = self.array()
        return made if dtype is None else made.astype(dtype)

    def spectrum(self, pixel: float | str | tuple[float, str] = 1.0, timeout: float | None = None) -> Spectrum:
        """The curve of a spectrum with its widths; waits as `result` does. Of a set the set is fetched, too, to see which grains the
        frame cuts.

        Parameters
        ----------
        pixel : float, str or (float, str), optional
            The side of a pixel, as 0.32 or '0.32um'.
        timeout : float, optional
            For how many seconds at most.

        Returns
        -------
        Spectrum
            Its `gains` are None.

        Warns
        -----
        UserWarning
            For each of its `doubts`.
        """
        import numpy

        from ._runs import cut_area
        from .curves import Spectrum
        from .pixels import pixel_size

        if self._measured is None:
            raise TypeError(f"{self.name} is no spectrum of a footprint that this session knows")
        footprint, image = self._measured
        volumes = numpy.array(self.result(timeout), numpy.uint64)
        words, frame, cut = self._session._ask("STATUS", image.name).wait().words, None, 0
        if is_set := words[2:3] == ["BIT"]:
            held = image.result(timeout)
            frame, cut = held.width * held.height, cut_area(numpy.asarray(held))
        found = Spectrum(volumes, footprint, *pixel_size(pixel), is_set, frame, cut)
        for line in found.doubts:
            warnings.warn(line, UserWarning, stacklevel=2)
        return found

    def cancel(self) -> bool:
        """Cancels it, and with it all that is made of it and still pending.

        Returns
        -------
        bool
            False where it was settled before.
        """
        self._check_submitted()
        reply = self._session._ask("CANCEL", self.name).wait()
        if reply.number == 49:
            return False
        reply.checked()
        return True

    def release(self) -> None:
        """Lets go of it, which is done as well when the handle is dropped. Its name stays taken."""
        self._check_submitted()
        self._session._ask("RELEASE", self.name).checked()
        if self._letting_go is not None:
            self._letting_go.detach()

    def __repr__(self) -> str:
        return f"<Handle {self.name}{': ' + self._submitted.asked if self._submitted is not None else ''}>"


class Session:
    """A session with a machine of its own, in a process that this one starts.

    Parameters
    ----------
    workers : int, optional
        How many threads compute, 1 to 64; as many as there are processors, at most 16, if left out.
    tile : int, optional
        The side of the tiles, a multiple of 64 up to 1024. If left out, one that suits each element: 256 up to 1024.
    program : str or path, optional
        The program `morphd`; found by MORPHD, on PATH or in a checkout if left out.

    Attributes
    ----------
    is_shared : bool
        Whether it is one of several on a server.
    """

    is_shared: bool

    def __init__(
        self, workers: int | None = None, tile: int | None = None, *, program: str | os.PathLike[str] | None = None,
    ) -> None:
        words = [found_program(program), "batch"]
        for option, value in (("--workers", workers), ("--tile", tile)):
            words += [] if value is None else [option, str(value)]
        self._begin(Pipe(words), False)

    @classmethod
    def connect(cls, host: str = "127.0.0.1", port: int = 7001, timeout: float | None = None) -> Session:
        """A session on a server, `morphd listen`.

        Parameters
        ----------
        host : str
        port : int
        timeout : float, optional
            For how many seconds the connection is waited for.

        Returns
        -------
        Session
        """
        made = cls.__new__(cls)
        made._begin(Wire(host, port, timeout), True)
        return made

    def _begin(self, way: Way, is_shared: bool) -> None:
        self.is_shared = is_shared
        self._channel = Channel(way)
        # clients of one server share its names
        self._mark, self._numbers = secrets.token_hex(6), count()
        self._dropped: collections.deque[str] = collections.deque()
        self._later: collections.deque[str] = collections.deque()
        self._elements: dict[Footprint, Handle] = {}
        self._closing = weakref.finalize(self, self._channel.close, b"QUIT\n")
        self._closing.atexit = False

    @property
    def pid(self) -> int | None:
        """The number of the process, None over a connection."""
        return getattr(self._channel.way, "pid", None)

    def __enter__(self) -> Session:
        return self

    def __exit__(self, kind: object, *_: object) -> None:
        fault = self._channel.close(b"QUIT\n")
        if fault is not None and kind is None:
            raise fault

    def close(self) -> None:
        """Ends the session. Raises `SessionEnded` where it did not end well."""
        self.__exit__(None)

    def _send(self, asked: str, data: bytes) -> Reply:
        """Writes a request, and before it those that let go of what was dropped."""
        while self._dropped:
            name = self._dropped.popleft()
            self._channel.send(f"release of {name}", b"RELEASE %s\n" % name.encode(), self._try_later)
        return self._channel.send(asked, data)

    def _try_later(self, reply: Reply) -> None:
        """What is pending can be let go of only when it is settled."""
        if reply.number == 52:
            self._later.append(reply.asked.rpartition(" ")[2])

    def _ask(self, word: str, name: str) -> Reply:
        reply = self._send(f"{word} {name}", f"{word} {name}\n".encode())
        if word in ("WAIT", "FETCH"):
            while self._later:
                self._dropped.append(self._later.popleft())
        return reply

    def _name(self) -> str:
        return f"{self._mark}-{next(self._numbers)}"

    def handle(self, name: str) -> Handle:
        """What has a name, made by another client of the same server. It is not let go of with the handle.

        Parameters
        ----------
        name : str

        Returns
        -------
        Handle
        """
        return Handle(self, name, None)

    def load(self, image: Any, maxval: int | None = None) -> Handle:
        """Loads an image.

        Parameters
        ----------
        image : array_like, Picture, bytes or path
            An array of bool, uint8 or uint16; a picture; the bytes of a PBM or PGM file; or the path of a picture's file.
        maxval : int, optional
            The greatest sample that an array, or a PNG or TIFF, can have; the type's if left out.

        Returns
        -------
        Handle
        """
        data, name = _file_of(image, maxval), self._name()
        asked = f"load of {len(data)} bytes"
        return Handle(self, name, self._send(asked, b"LOAD %s %d\n" % (name.encode(), len(data)) + data))

    def element(self, footprint: Any) -> Handle:
        """Loads a footprint. The same one is loaded once.

        Parameters
        ----------
        footprint : Footprint or array_like

        Returns
        -------
        Handle
        """
        b = Footprint(footprint)
        if b not in self._elements:
            name = self._name()
            data = b"P1\n%d %d\n" % (b.shape[1], b.shape[0]) + b.pixels.translate(b"01" + bytes(254))
            line = b"ELEMENT %s %d %d %d\n" % (name.encode(), b.origin[1], b.origin[0], len(data))
            self._elements[b] = Handle(self, name, self._send(f"footprint {b!r}", line + data))
        return self._elements[b]

    def _run(self, operation: str, image: Any, footprints: tuple[Any, ...], *numbers: int) -> Handle:
        """Asks for an operation. Whatever is no handle is loaded before."""
        loaded = image if isinstance(image, Handle) else self.load(image)
        inputs = (loaded, *(b if isinstance(b, Handle) else self.element(b) for b in footprints))
        name = self._name()
        words = " ".join([operation, *(each.name for each in inputs), *map(_digits, numbers)])
        return Handle(self, name, self._send(words, f"RUN {name} {words}\n".encode()), inputs)

    def erosion(self, image: Any, footprint: Any) -> Handle:
        """Asks for an erosion, as `morphd.erosion`. So do the calls below; images and footprints are handles, or what `load`
        and `element` take."""
        return self._run("ERODE", image, (footprint,))

    def dilation(self, image: Any, footprint: Any) -> Handle:
        """Asks for a dilation."""
        return self._run("DILATE", image, (footprint,))

    def opening(self, image: Any, footprint: Any) -> Handle:
        """Asks for an opening."""
        return self._run("OPEN", image, (footprint,))

    def closing(self, image: Any, footprint: Any) -> Handle:
        """Asks for a closing."""
        return self._run("CLOSE", image, (footprint,))

    def gradient(self, image: Any, footprint: Any) -> Handle:
        """Asks for a gradient."""
        return self._run("GRADIENT", image, (footprint,))

    def white_tophat(self, image: Any, footprint: Any) -> Handle:
        """Asks for a white top-hat."""
        return self._run("WTOPHAT", image, (footprint,))

    def black_tophat(self, image: Any, footprint: Any) -> Handle:
        """Asks for a black top-hat."""
        return self._run("BTOPHAT", image, (footprint,))

    def rank(self, image: Any, k: int, footprint: Any) -> Handle:
        """Asks for sample number `k` from 1; at the frame's edge it is number min(k, m) of the m that are there."""
        return self._run("RANK", image, (footprint,), k)

    def threshold(self, image: Any, k: int) -> Handle:
        """Asks for the set of the samples of `k` or more."""
        return self._run("THRESHOLD", image, (), k)

    def hit_or_miss(self, image: Any, hit: Any, miss: Any) -> Handle:
        """Asks for a hit-or-miss transform."""
        return self._run("HITMISS", image, (hit, miss))

    def skeleton(self, image: Any, footprint: Any, levels: int) -> Handle:
        """Asks for a skeleton of a set."""
        return self._run("SKELETON", image, (footprint,), levels)

    def restored(self, marks: Any, footprint: Any, levels: int) -> Handle:
        """Asks for the set that a skeleton came from."""
        return self._run("RESTORE", marks, (footprint,), levels)

    def spectrum(self, image: Any, footprint: Any, sizes: int | None = None) -> Handle:
        """Asks for a granulometric spectrum: `Handle.result` gives its volumes, `Handle.spectrum` the curve. By a list of footprints,
        as `morphd.spectrum` takes it, these are openings by each, and `sizes` is left out."""
        loaded = image if isinstance(image, Handle) else self.load(image)
        several = None if isinstance(footprint, Handle) else family(footprint)
        if several is None:
            if sizes is None:
                raise TypeError("sizes says how many openings there are by one footprint")
            made = self._run("SPECTRUM", loaded, (footprint,), sizes)
            if not isinstance(footprint, Handle):
                made._measured = Footprint(footprint), loaded
            return made
        if sizes is not None and sizes != len(several):
            raise ValueError(f"sizes goes with one footprint, and these are {len(several)}: leave it out")
        pixel = self.element([[1]])
        opened = [loaded, *(self.opening(loaded, each) for each in several)]
        *before, made = (self._run("SPECTRUM", each, (pixel,), 1) for each in opened)
        made._measured, made._before = (several, loaded), tuple(before)
        return made


def _digits(number: Any) -> str:
    """A number as a request writes it. A line with another one is none of the protocol, and would end the session."""
    count = whole(number, "a number of a request")
    if not 0 <= count < 10**9:
        raise Refused(47, f"a request with {count}")
    return str(count)


def _file_of(image: Any, maxval: int | None) -> bytes:
    """The bytes of a Netpbm file of an image."""
    if isinstance(image, (bytes, bytearray, memoryview)):
        return bytes(image)
    if isinstance(image, Picture):
        return image.file()
    if isinstance(image, (str, os.PathLike)):
        with open(image, "rb") as file:
            data = file.read()
        if data[:2] in (b"P1", b"P2", b"P4", b"P5"):
            return data
        from .files import load

        image = load(image).array
    return Picture.of_array(image, maxval).file()
