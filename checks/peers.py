"""What checks of servers share: worked requests with their replies, a picture that no socket has room for when it is asked for
often enough, clients that go, what tells a difference, and a bound on how long a check takes. checks/server.py starts servers
and has the clients.
"""
import contextlib
import signal
import socket
import struct
from collections.abc import Iterator

from server import PATIENCE, Client, Server, most_held

# `f`, a row of five samples, and `b`, three pixels in a row with the origin in the middle.
GIVEN = b"LOAD f 19\nP2\n5 1\n9\n3 1 4 1 5\nELEMENT b 1 0 11\nP1\n3 1\n111\n"
GIVEN_REPLIES = [b"OK 0\n", b"OK 1\n"]
ERODED = b"P5\n5 1\n9\n" + bytes([1, 1, 1, 1, 1])
# Both given, an erosion of the one by the other, and what each request is answered.
ERODE = GIVEN + b"RUN e ERODE f b\nFETCH e\n"
REPLIES = [(b"OK 0\n", b""), (b"OK 1\n", b""), (b"OK 2\n", b""), (b"IMAGE 2 14\n", ERODED)]
# The longest payload that a line may announce, and a picture that fills what sockets hold here when it is asked for so often.
LONGEST = 134217728
SIDE = 2048
PICTURE = b"P5\n%d %d\n255\n" % (SIDE, SIDE) + bytes(range(256)) * (SIDE * SIDE // 256)
FETCHES = 16 + most_held() // len(PICTURE)
# How many seconds a check of one kind of client may take.
LONGEST_CHECK = 10 * PATIENCE


class Wrong(Exception):
    """The program did something else than it must."""


def must_be(found, wanted, what):
    if found != wanted:
        raise Wrong("%s: %s in the place of %s" % (what, shown(found), shown(wanted)))


def shown(value):
    """A value as it stands in a message, which is no longer than a screen."""
    text = repr(value)
    return text if len(text) <= 400 else "%s .. %s" % (text[:200], text[-180:])


def must_be_unwritten(server: Server, client: Client, read: int = 0) -> None:
    """Of the pictures of a client that has read so many bytes of them, some bytes are not written yet."""
    written = read + server.unread(client)
    if written >= FETCHES * len(PICTURE):
        raise Wrong("the system took %d pictures of %d bytes, so no write waited" % (FETCHES, len(PICTURE)))


@contextlib.contextmanager
def bounded(seconds: float = LONGEST_CHECK) -> Iterator[None]:
    """Ends with a fault what takes longer, wherever it is."""
    def too_long(*_: object) -> None:
        raise Wrong("it did not end in %.0f s" % seconds)

    signal.signal(signal.SIGALRM, too_long)
    signal.setitimer(signal.ITIMER_REAL, seconds)
    try:
        yield
    finally:
        signal.setitimer(signal.ITIMER_REAL, 0)


def hang_up(client):
    """Closes the connection at once: what comes from then on is answered by a reset."""
    client.wire.setsockopt(socket.SOL_SOCKET, socket.SO_LINGER, struct.pack("ii", 1, 0))
    client.wire.close()
