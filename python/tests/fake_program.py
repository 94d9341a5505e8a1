"""A slow stand-in for the program `morphd`, made of the reference model in checks/reference_model.py: `batch`, `listen` and `serve`.

    python3 fake_program.py batch
    python3 fake_program.py listen --port 7001
    python3 fake_program.py serve

Environment: FAKE_WORK is how many seconds a result stays pending; FAKE_PAUSE how long each request is left alone; FAKE_ENTRIES
how many entries there is room for; FAKE_KILLED the number of the request at which it kills itself; FAKE_STATUS the status with
which it ends there in place of that; FAKE_LACK the number of the request that is answered 50, behind which the session ends;
FAKE_STARVED the operation whose results find no memory.
"""
import os
import signal
import socket
import sys
import threading
import time
from pathlib import Path

sys.path.insert(0, str(Path(__file__).resolve().parents[2] / "checks"))
import reference_model  # noqa: E402


def told(name, usual="0"):
    return float(os.environ.get(name, usual))


class Entry(reference_model.Entry):
    """An entry that can die for want of memory, too."""

    def is_dead(self):
        return self.outcome == "MEMORY" or super().is_dead()


class Machine(reference_model.Session):
    """The machine, whose results are pending for some time where other clients look at it."""

    def __init__(self, is_shared):
        super().__init__()
        self.is_shared, self.lock, self.due, self.requests = is_shared, threading.RLock(), {}, 0
        self.starved = set()

    def accept(self, entry):
        self.due[entry.name] = time.monotonic() + told("FAKE_WORK")
        return super().accept(Entry(entry.name, entry.shape, entry.inputs, entry.outcome, entry.make))

    def starve(self, entry):
        """The entry dies, and so does what is made of it."""
        self.cancel(entry.name)
        entry.outcome = "MEMORY"

    def status(self, name):
        text = super().status(name)
        t, entry = self.known(name)
        return b"FAILED %d MEMORY\n" % t if entry.outcome == "MEMORY" else text

    def work(self):
        if not self.is_shared:
            time.sleep(told("FAKE_WORK") if any(entry.outcome == "PENDING" for entry in self.entries) else 0)
        for entry in self.entries:
            if entry.outcome == "PENDING" and entry.name in self.starved:
                self.starve(entry)
        for entry in self.entries:
            if entry.outcome == "PENDING" and (not self.is_shared or time.monotonic() >= self.due[entry.name]):
                entry.outcome = "DONE"

    def is_pending(self, name):
        with self.lock:
            self.work()
            t = self.ticket(name)
            return t is not None and self.entries[t].outcome == "PENDING"

    def answered(self, word, words, payload):
        while word == "WAIT" and self.is_pending(words[0]):
            time.sleep(0.005)
        with self.lock:
            if word == os.environ.get("FAKE_STARVED"):
                self.starved.add(words[0])
            return reference_model.answer(self, word, words, payload)


def request(source):
    """The next request, None at the end."""
    line = source.readline(201)
    if not line:
        return None
    reference_model.unless(line.endswith(b"\n") or len(line) > 200, 12)
    reference_model.unless(line.endswith(b"\n"), 10)
    word, words = reference_model.words_of(line[:-1])
    if word not in ("LOAD", "ELEMENT"):
        return word, words, b""
    size = int(words[-1])
    reference_model.unless(size <= reference_model.LONGEST_PAYLOAD, 11)
    payload = source.read(size)
    reference_model.unless(len(payload) == size, 12)
    return word, words, payload


def misfortune(machine):
    """What is to befall it at this request: whether the session ends here for want of memory."""
    machine.requests += 1
    if machine.requests == told("FAKE_KILLED"):
        if "FAKE_STATUS" in os.environ:
            sys.stderr.write("error: output\n")
            sys.stderr.flush()
            os._exit(int(told("FAKE_STATUS")))
        os.kill(os.getpid(), signal.SIGKILL)
    time.sleep(told("FAKE_PAUSE"))
    return machine.requests == told("FAKE_LACK")


def serve(machine, source, sink):
    """Answers requests until the end; gives the exit status."""
    while True:
        try:
            asked = request(source)
        except reference_model.Refused as refused:
            sink.write(reference_model.refusal(refused.code))
            sink.flush()
            return 1
        if asked is None or asked[0] == "QUIT":
            return 0
        if misfortune(machine):
            sink.write(b"ERR 50 MEMORY\n")
            sink.flush()
            return 1
        try:
            sink.write(machine.answered(*asked))
        except reference_model.Refused as refused:
            sink.write(reference_model.refusal(refused.code))
        sink.flush()


def serve_client(machine, client):
    with client, client.makefile("rb") as source, client.makefile("wb") as sink:
        try:
            serve(machine, source, sink)
        except OSError:
            pass


def listen(port, machine_of):
    """Serves clients at a port, each by the machine that is made or kept for it."""
    with socket.create_server(("127.0.0.1", port)) as door:
        print("LISTENING 127.0.0.1", door.getsockname()[1], flush=True)
        while True:
            client, _ = door.accept()
            threading.Thread(target=serve_client, args=(machine_of(), client), daemon=True).start()


def main():
    reference_model.MOST_ENTRIES = int(told("FAKE_ENTRIES", "65536"))
    if sys.argv[1] == "listen":
        shared = Machine(True)
        listen(int(sys.argv[sys.argv.index("--port") + 1]), lambda: shared)
    if sys.argv[1] == "serve":
        listen(0, lambda: Machine(False))
    sys.exit(serve(Machine(False), sys.stdin.buffer, sys.stdout.buffer))


if __name__ == "__main__":
    main()
