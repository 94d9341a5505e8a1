"""Starts and stops a `morphd listen` or a `morphd serve`, and speaks to it as a client, or to a `morphd batch` through pipes.
Whatever waits here has a time limit, and says what it waited for when that is over.
"""
import functools
import os
import random
import re
import resource
import select
import socket
import subprocess
import time

# How long a client waits for a reply, and a server for its start or its end, in seconds.
PATIENCE = float(os.environ.get("PATIENCE", "60"))


class NoAnswer(Exception):
    """Something did not come in time, or the connection ended before it."""


def free_port():
    """A port that nobody listens on, below those that the system gives to clients: a client that asks for a port of its own
    could else be given the very one that it wants to reach, and would then speak with itself."""
    chance = random.SystemRandom()
    for _ in range(1000):
        port = chance.randrange(10000, 30000)
        with socket.socket() as door:
            door.setsockopt(socket.SOL_SOCKET, socket.SO_REUSEADDR, 1)
            try:
                door.bind(("127.0.0.1", port))
            except OSError:
                continue
            return port
    raise NoAnswer("no port was free")


def most_held() -> int:
    """How many bytes the system holds at most between two ends of a connection: what one has written and the other has not read."""
    most = 0
    for name in ("tcp_wmem", "tcp_rmem"):
        with open("/proc/sys/net/ipv4/" + name, encoding="ascii") as row:
            most += max(map(int, row.read().split()))
    return most


class Server:
    """A server that serves so many connections and then ends. More words may stand on its command line."""

    def __init__(self, program, sessions, workers=2, tile=128, port=None, more=()):
        self.port = port or free_port()
        words = {"--port": self.port, "--workers": workers, "--sessions": sessions, "--tile": tile}
        words = [str(word) for pair in words.items() for word in pair] + list(more)
        pipes = {"stdin": subprocess.DEVNULL, "stdout": subprocess.DEVNULL, "stderr": subprocess.PIPE}
        self.run = subprocess.Popen([program, "listen", *words], **pipes)

    def __enter__(self):
        return self

    def __exit__(self, *_):
        self.run.kill()
        self.run.wait()
        self.run.stderr.close()

    def connect(self, patience=PATIENCE):
        """A connection, once the server listens."""
        begun = time.monotonic()
        while self.run.poll() is None and time.monotonic() < begun + patience:
            try:
                return Client(socket.create_connection(("127.0.0.1", self.port), timeout=patience), patience)
            except ConnectionRefusedError:
                time.sleep(0.01)
        raise NoAnswer("no connection to port %d in %.0f s: %s" % (self.port, patience, self.how_it_is()))

    def how_it_is(self):
        """Whether the server runs, or how it ended."""
        status = self.run.poll()
        return "the server runs" if status is None else "the server ended with status %d, %r" % (status, self.run.stderr.read())

    def end(self, patience=PATIENCE):
        """Its exit status and what it told, once it has ended."""
        try:
            _, told = self.run.communicate(timeout=patience)
        except subprocess.TimeoutExpired:
            raise NoAnswer("the server did not end in %.0f s" % patience) from None
        return self.run.returncode, told

    def size(self, word="VmRSS"):
        """Its resident size in kB; with VmHWM the greatest one so far."""
        with open("/proc/%d/status" % self.run.pid, encoding="ascii") as rows:
            return int(re.search(word + r":\s*(\d+) kB", rows.read()).group(1))

    def threads(self):
        """How many threads it has."""
        return len(os.listdir("/proc/%d/task" % self.run.pid))

    def processor_seconds(self):
        """The processor time that it has used."""
        with open("/proc/%d/stat" % self.run.pid, encoding="ascii") as row:
            return sum(map(int, row.read().rpartition(")")[2].split()[11:13])) / 100

    def unread(self, client: "Client") -> int:
        """How many bytes the system holds of those that were written to this client: at the server's end and at the client's."""
        here, there = self.port, client.wire.getsockname()[1]
        queues: dict[tuple[int, ...], list[str]] = {}
        with open("/proc/net/tcp", encoding="ascii") as rows:
            next(rows)
            for row in rows:
                local, other, _, both = row.split()[1:5]
                queues[tuple(int(address.rpartition(":")[2], 16) for address in (local, other))] = both.split(":")
        if (there, here) not in queues:
            raise NoAnswer("the system does not list the connection of port %d to port %d" % (there, here))
        # A server that has closed the connection may have no end of it any more.
        sent, come = queues.get((here, there), ["0"])[0], queues[there, here][1]
        return int(sent, 16) + int(come, 16)

    def is_at_rest(self, patience=PATIENCE):
        """Waits until it uses no processor time: whatever was sent to it has come."""
        begun, last = time.monotonic(), -1.0
        while time.monotonic() < begun + patience:
            now = self.processor_seconds()
            if now == last:
                return True
            last = now
            time.sleep(0.3)
        return False


def set_bounds(bounds):
    """Bounds what the process may have."""
    for which, bound in bounds:
        resource.setrlimit(which, (bound, bound))


class Service(Server):
    """A `morphd serve`, which ends when its standard input does. It says on which port it listens."""

    def __init__(self, program, sessions, workers=1, tile=128, idle=None, descriptors=None, settings=(), more=(), addresses=None):
        words = ["--sessions", sessions, "--workers", workers, "--tile", tile] + (["--idle", idle] if idle else []) + list(more)
        pipes = {"stdin": subprocess.PIPE, "stdout": subprocess.PIPE, "stderr": subprocess.PIPE}
        bounds = [(resource.RLIMIT_NOFILE, descriptors), (resource.RLIMIT_AS, addresses)]
        few = functools.partial(set_bounds, [(which, bound) for which, bound in bounds if bound])
        words = [program, "serve", "--until-end", *map(str, words)]
        self.run = subprocess.Popen(words, preexec_fn=few, env=os.environ | dict(settings), **pipes)
        self.port = self.told_port()

    def told_port(self, patience=PATIENCE):
        """The port of the line that comes when connections can be made."""
        if not select.select([self.run.stdout], [], [], patience)[0]:
            raise NoAnswer("no line came in %.0f s" % patience)
        line = self.run.stdout.readline()
        told = re.fullmatch(rb"LISTENING 127\.0\.0\.1 ([1-9][0-9]*)\n", line)
        if not told:
            raise NoAnswer("the first line was %r: %s" % (line, self.how_it_is()))
        return int(told.group(1))

    def __exit__(self, *_):
        super().__exit__()
        self.run.stdin.close()
        self.run.stdout.close()


class Client:
    """A connection. It keeps what has come and was not asked for yet."""

    def __init__(self, wire, patience=PATIENCE):
        self.wire, self.patience, self.held = wire, patience, bytearray()
        self.wire.settimeout(patience)
        self.wire.setsockopt(socket.IPPROTO_TCP, socket.TCP_NODELAY, 1)

    def __enter__(self):
        return self

    def __exit__(self, *_):
        self.wire.close()

    def send(self, data):
        try:
            self.wire.sendall(data)
        except socket.timeout:
            raise NoAnswer("%d bytes were not taken in %.0f s" % (len(data), self.patience)) from None
        except OSError as fault:
            raise NoAnswer("the connection broke while %d bytes were sent: %s" % (len(data), fault)) from None

    def more(self, what):
        """Waits for bytes; none at the end."""
        try:
            data = self.wire.recv(1 << 16)
        except socket.timeout:
            raise NoAnswer("no %s in %.0f s" % (what, self.patience)) from None
        except OSError as fault:
            raise NoAnswer("the connection broke before %s: %s" % (what, fault)) from None
        self.held += data
        return len(data)

    def taken(self, count):
        data = bytes(self.held[:count])
        del self.held[:count]
        return data

    def line(self):
        """A line with its LF."""
        while b"\n" not in self.held:
            if not self.more("whole line"):
                raise NoAnswer("the end came in the place of a line, behind %r" % bytes(self.held))
        return self.taken(self.held.index(b"\n") + 1)

    def exactly(self, count):
        while len(self.held) < count:
            if not self.more("more of %d bytes" % count):
                raise NoAnswer("the end came behind %d of %d bytes" % (len(self.held), count))
        return self.taken(count)

    def reply(self):
        """A reply: its line, and the bytes of the image or curve behind it."""
        line = self.line()
        words = line.split()
        return line, self.exactly(int(words[2])) if words[0] in (b"IMAGE", b"CURVE") else b""

    def ask(self, request):
        self.send(request)
        return self.reply()

    def is_over(self):
        """Says that nothing more is sent."""
        self.wire.shutdown(socket.SHUT_WR)

    def rest(self):
        """All that comes until the end."""
        while self.more("end"):
            pass
        return self.taken(len(self.held))


class Pipes:
    """The pipes to a process and from it, as a wire."""

    def __init__(self, run):
        self.run, self.patience = run, PATIENCE

    def settimeout(self, patience):
        self.patience = patience

    def setsockopt(self, *_):
        """Pipes have no such options."""

    def recv(self, most):
        if not select.select([self.run.stdout], [], [], self.patience)[0]:
            raise socket.timeout
        return os.read(self.run.stdout.fileno(), most)

    def sendall(self, data):
        self.run.stdin.write(data)
        self.run.stdin.flush()

    def shutdown(self, _):
        self.run.stdin.close()

    def close(self):
        for pipe in (self.run.stdin, self.run.stdout, self.run.stderr):
            pipe.close()


class Talk(Client):
    """A `morphd batch`, spoken to through pipes."""

    def __init__(self, program, words=(), patience=PATIENCE):
        pipes = {name: subprocess.PIPE for name in ("stdin", "stdout", "stderr")}
        self.run = subprocess.Popen([program, "batch", *words], **pipes)
        super().__init__(Pipes(self.run), patience)

    def __exit__(self, *_):
        self.run.kill()
        self.run.wait()
        super().__exit__()

    def end(self):
        """Its exit status and what it told of faults, once it has ended."""
        try:
            status = self.run.wait(self.patience)
        except subprocess.TimeoutExpired:
            raise NoAnswer("the batch did not end in %.0f s" % self.patience) from None
        return status, self.run.stderr.read()
