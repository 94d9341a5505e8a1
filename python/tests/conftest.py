"""What the tests stand on: the library that is built, or a slow stand-in where none is; the program, or a stand-in, too."""
import os
import signal
import subprocess
import sys
import time
from pathlib import Path

import pytest

HERE = Path(__file__).resolve().parent
sys.path[:0] = [str(HERE), str(HERE.parent)]

try:
    import numpy  # noqa: F401
except ImportError:
    # footprints, pictures and sessions need no NumPy; nothing else can be tried
    collect_ignore = sorted(path.name for path in HERE.glob("test_*.py") if "import numpy" in path.read_text(encoding="utf-8"))
else:
    collect_ignore = []

if not (HERE.parents[1] / "docs").exists():
    # a source archive has neither documents nor examples
    collect_ignore += ["test_documents.py", "test_examples.py"]

# A shell that starts the tests beside others has them ignore interrupts, and each process that they start, too.
if signal.getsignal(signal.SIGINT) is signal.SIG_IGN:
    signal.signal(signal.SIGINT, signal.default_int_handler)

import stand_in  # noqa: E402
from morphd import errors  # noqa: E402
from morphd._channel import found_program  # noqa: E402

USES_STAND_IN = stand_in.is_wanted()
if USES_STAND_IN:
    stand_in.install()


def pytest_report_header():
    stand = "a slow stand-in made of checks/reference_model.py, since none is built"
    told = [f"library: {stand if USES_STAND_IN else 'the one that is built'}"]
    if collect_ignore:
        told.append(f"NumPy is missing: {', '.join(collect_ignore)} are left out")
    return told


@pytest.fixture
def stood_in():
    """The stand-in, for tests that need to see its calls or to let it refuse."""
    from morphd import _library

    before = _library.use(stand_in.library)
    stand_in.calls.clear()
    yield stand_in.library
    stand_in.library.refusing = None
    _library.use(before)


@pytest.fixture
def fake(tmp_path):
    """The stand-in for the program, as an executable."""
    script = tmp_path / "fake"
    script.write_text(f'#!/bin/sh\nexec "{sys.executable}" "{HERE / "fake_program.py"}" "$@"\n', encoding="utf-8")
    script.chmod(0o755)
    return str(script)


@pytest.fixture(params=["stand-in", "morphd"])
def program(request, fake):
    """The stand-in for the program, and the program itself where it is built."""
    if request.param == "stand-in":
        return fake
    try:
        found = found_program(None)
    except errors.ProgramMissing:
        pytest.skip("the program morphd is not built")
    if not os.path.exists(found):
        pytest.skip(f"MORPHD names no file: {found}")
    return found


class Server:
    """A server on a free port."""

    def __init__(self, program, sessions=8, **environment):
        import socket

        with socket.socket() as found:
            found.bind(("127.0.0.1", 0))
            self.port = found.getsockname()[1]
        words = [program, "listen", "--port", str(self.port), "--sessions", str(sessions)]
        silent = dict.fromkeys(("stdin", "stdout", "stderr"), subprocess.DEVNULL)
        self.run = subprocess.Popen(words, env=dict(os.environ, **environment), **silent)

    def session(self):
        from morphd import Session

        until = time.monotonic() + 60
        while True:
            try:
                return Session.connect("127.0.0.1", self.port, 60)
            except ConnectionRefusedError:
                if self.run.poll() is not None or time.monotonic() > until:
                    raise
                time.sleep(0.02)

    def kill(self):
        self.run.kill()
        self.run.wait()


@pytest.fixture
def server(program):
    """Starts servers, and ends them behind the test."""
    running = []

    def start(**options):
        running.append(Server(program, **options))
        return running[-1]

    start.is_fake = "fake" in os.path.basename(program)
    yield start
    for each in running:
        each.kill()
