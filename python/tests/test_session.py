"""Sessions: handles, refusals, pending results, ends of every kind, and servers that are killed, slow and full."""
import gc
import os
import pickle
import signal
import socket
import subprocess
import sys
import threading
import time
import traceback

import pytest

from morphd import (
    Cancelled, Footprint, InputFailed, OutOfMemory, Picture, ProgramMissing, Refused, Session, SessionEnded, _channel, errors, square)

FIVE = Picture(5, 1, 9, False, bytes([3, 1, 4, 1, 5]))
BAR = Footprint([[1, 1, 1]])


def samples(handle):
    return list(handle.result().samples)


def test_an_erosion_of_five_samples(program):
    with Session(program=program) as session:
        eroded = session.erosion(FIVE, BAR)
        assert eroded.result() == Picture(5, 1, 9, False, bytes([1, 1, 1, 1, 1]))
        assert eroded.status() == "done"
        assert eroded.ticket == 2


def test_all_operations(program):
    with Session(workers=2, tile=64, program=program) as session:
        f, b = session.load(FIVE), session.element(BAR)
        x = session.threshold(f, 3)
        assert samples(x) == [1, 0, 1, 0, 1]
        assert samples(session.dilation(f, b)) == [3, 4, 4, 5, 5]
        assert samples(session.opening(f, b)) == [1, 1, 1, 1, 1]
        assert samples(session.closing(f, b)) == [3, 3, 4, 4, 5]
        assert samples(session.gradient(f, b)) == [2, 3, 3, 4, 4]
        assert samples(session.white_tophat(f, b)) == [2, 0, 3, 0, 4]
        assert samples(session.black_tophat(f, b)) == [0, 2, 0, 3, 0]
        assert samples(session.rank(f, 2, b)) == [3, 3, 1, 4, 5]
        assert samples(session.hit_or_miss(x, Footprint([[1, 0]], (0, 0)), Footprint([[0, 1]], (0, 0)))) == [1, 0, 1, 0, 1]
        marks = session.skeleton(x, b, 2)
        assert samples(marks) == [1, 0, 1, 0, 1]
        assert samples(session.restored(marks, b, 2)) == [1, 0, 1, 0, 1]
        assert session.spectrum(f, b, 2).result() == [14, 5, 5]


def test_handles_are_taken_while_they_are_pending(program):
    with Session(program=program) as session:
        handle = session.load(FIVE)
        for _ in range(200):
            handle = session.dilation(handle, BAR)
        assert samples(handle) == [5, 5, 5, 5, 5]


def test_more_is_written_than_pipes_hold(program):
    """Replies are read while requests are written: neither side may wait for the other."""
    image = Picture(300, 200, 255, False, bytes(range(200)) * 300)
    with Session(program=program) as session:
        handles = [session.load(image) for _ in range(20)]
        fetched = [session._ask("FETCH", handle.name) for handle in handles]
        assert all(Picture.of_file(reply.checked().payload) == image for reply in fetched)


def test_writes_that_take_a_part_are_gone_on_with(program, monkeypatch):
    """As where a signal comes."""
    class Sparing:
        def __init__(self, file):
            self.file, self.close = file, file.close

        def write(self, data):
            return self.file.write(bytes(data[:3]))

    with Session(program=program) as session:
        monkeypatch.setattr(session._channel.way._run, "stdin", Sparing(session._channel.way._run.stdin))
        assert list(session.erosion(FIVE, BAR).result(timeout=20).samples) == [1] * 5


def test_each_who_waits_has_a_fault_of_its_own():
    """A fault keeps the place where it was raised."""
    reply, faults = _channel.Reply("an erosion"), []
    reply.fail(SessionEnded("over", Refused(10, "x"), 1))
    for _ in range(2):
        with pytest.raises(SessionEnded, match="over") as told:
            reply.wait()
        faults.append(told.value)
    assert faults[0] is not faults[1] and faults[0].refusal is faults[1].refusal


def test_a_footprint_is_loaded_once(program):
    with Session(program=program) as session:
        assert session.element(square(3)) is session.element([[1, 1, 1]] * 3)
        assert session.element(square(3)) is not session.element(square(3).at((0, 0)))


def test_refusals_are_told_where_the_result_is_asked_for(program):
    with Session(program=program) as session:
        bad = session.rank(FIVE, 4, BAR)
        of_bad = session.opening(session.erosion(bad, BAR), BAR)
        with pytest.raises(Refused) as told:
            of_bad.result()
        assert (told.value.number, told.value.word) == (47, "PARAM")
        assert told.value.asked.startswith("RANK ") and told.value.asked.endswith(" 4")
        with pytest.raises(Refused, match="22 SIZE"):
            session.load(b"P5\n0 1\n9\n").accepted()
        with pytest.raises(Refused, match="44 BINARY"):
            session.skeleton(FIVE, BAR, 2).wait()
        assert samples(session.erosion(FIVE, BAR)) == [1] * 5


def test_cancelled_results_and_those_made_of_them(program):
    with Session(program=program) as session:
        f = session.load(FIVE)
        first = session.erosion(f, BAR)
        second = session.dilation(first, BAR)
        assert first.cancel() is True
        with pytest.raises(Cancelled):
            first.result()
        with pytest.raises(InputFailed) as told:
            second.result()
        assert told.value.ticket == first.ticket
        assert first.status() == "cancelled" and second.status() == "failed"
        assert f.cancel() is False


def test_released_results(program):
    with Session(program=program) as session:
        made = session.erosion(FIVE, BAR).wait()
        made.release()
        assert made.status() == "released"
        with pytest.raises(Refused, match="51 RELEASED"):
            made.result()


@pytest.fixture
def written(monkeypatch):
    """The lines that go to programs."""
    lines, send = [], _channel.Pipe.send

    def kept(self, data):
        lines.append(bytes(data).partition(b"\n")[0].decode())
        send(self, data)

    monkeypatch.setattr(_channel.Pipe, "send", kept)
    return lines


def test_a_handle_is_let_go_of_once(program, written):
    """By `release` or by being dropped, but not by both, and one that is taken by its name by neither."""
    with Session(program=program) as session:
        f = session.load(FIVE)
        released, dropped = session.erosion(f, BAR).wait(), session.dilation(f, BAR).wait()
        names = {each.name: written.count(f"RELEASE {each.name}") for each in (released, dropped)}
        released.release()
        gone, by_name = dropped.name, session.handle(dropped.name)
        del released, dropped, by_name
        gc.collect()
        assert f.status() == "done" and session.handle(gone).status() == "released"
        assert [written.count(f"RELEASE {name}") for name in names] == [1, 1]
        assert not any(names.values())


def test_a_dropped_handle_is_let_go_of(program):
    with Session(program=program) as session:
        f = session.load(FIVE)
        pending = session.erosion(f, BAR)
        name, kept = pending.name, session.dilation(pending, BAR)
        del pending
        gc.collect()
        # it is pending at first, and cannot be let go of; then it is done
        assert samples(kept) == [1] * 5
        kept.wait()
        f.status()
        f.status()
        assert session.handle(name).status() == "released"
        assert f.status() == "done"


def test_a_handle_that_is_dropped_while_it_is_pending(program):
    with Session(program=program) as session:
        f = session.load(FIVE).accepted()
        name = session.erosion(f, BAR).name
        gc.collect()
        # the first time it is refused, since it is pending; behind a result it is tried again
        f.wait()
        f.wait()
        f.status()
        assert session.handle(name).status() == "released"


def test_handles_by_name_are_not_let_go_of(program):
    with Session(program=program) as session:
        f = session.load(FIVE).accepted()
        session.handle(f.name).wait()
        gc.collect()
        assert f.status() == "done"
        with pytest.raises(Refused, match="41 UNKNOWN"):
            session.handle("nobody").status()


def test_the_session_is_closed(program):
    session = Session(program=program)
    f = session.load(FIVE).accepted()
    session.close()
    session.close()
    with pytest.raises(SessionEnded, match="closed"):
        f.status()


def test_a_missing_program(tmp_path, monkeypatch):
    with pytest.raises(ProgramMissing, match="nowhere"):
        Session(program=tmp_path / "nowhere")


def test_refused_words_of_the_command_line(program):
    if program.endswith("fake"):
        pytest.skip("the stand-in takes any number of workers")
    session = Session(workers=65, program=program)
    with pytest.raises(SessionEnded, match="workers must be from 1 to 64") as told:
        session.load(FIVE).wait()
    assert told.value.status == 2


def test_a_killed_program_is_told(program):
    session = Session(program=program)
    f = session.load(FIVE).accepted()
    os.kill(session.pid, signal.SIGKILL)
    with pytest.raises(SessionEnded, match="killed by SIGKILL") as told:
        for _ in range(100):
            f.wait()
    assert told.value.status == -9
    with pytest.raises(SessionEnded, match="killed by SIGKILL"):
        session.load(FIVE)
    with pytest.raises(SessionEnded, match="killed by SIGKILL"):
        session.close()


def test_killed_while_much_is_written(fake, monkeypatch):
    monkeypatch.setenv("FAKE_KILLED", "3")
    session = Session(program=fake)
    image = Picture(1000, 1000, 255, False, bytes(1000000))
    with pytest.raises(SessionEnded, match="killed by SIGKILL"):
        for handle in [session.load(image) for _ in range(50)]:
            handle.accepted()


def test_an_exit_status_and_what_it_said(fake, monkeypatch):
    monkeypatch.setenv("FAKE_KILLED", "2")
    monkeypatch.setenv("FAKE_STATUS", "1")
    session = Session(program=fake)
    kept = session.load(FIVE).accepted()
    with pytest.raises(SessionEnded, match="status 1, and said: error: output.*1 request had no reply"):
        session.load(FIVE).accepted()


def test_a_refusal_that_ends_the_session(program):
    session = Session(program=program)
    with pytest.raises(Refused, match="10 LINE"):
        session._send("nonsense", b"NONSENSE\n").checked()
    with pytest.raises(SessionEnded, match="ended by refusal 10 LINE of nonsense") as told:
        session.load(FIVE).accepted()
    assert told.value.refusal.number == 10
    session.close()


def test_want_of_memory_that_ends_the_session(fake, monkeypatch):
    monkeypatch.setenv("FAKE_LACK", "2")
    session = Session(program=fake)
    kept = session.load(FIVE).accepted()
    with pytest.raises(OutOfMemory):
        session.load(FIVE).accepted()
    with pytest.raises(SessionEnded, match="refusal 50 MEMORY"):
        kept.status()


def test_results_that_find_no_memory(fake, monkeypatch):
    monkeypatch.setenv("FAKE_STARVED", "RANK")
    with Session(program=fake) as session:
        dead = session.rank(FIVE, 1, BAR)
        made = session.erosion(dead, BAR)
        with pytest.raises(OutOfMemory, match="RANK .* 1: there is not enough memory"):
            dead.result()
        with pytest.raises(InputFailed, match="its input, ticket 2,"):
            made.wait()
        assert dead.status() == made.status() == "failed"
        with pytest.raises(Refused, match="43 DEAD"):
            session.erosion(dead, BAR).result()
        assert samples(session.erosion(FIVE, BAR)) == [1] * 5


def test_want_of_memory_is_not_why_a_program_was_killed(fake):
    """A refusal 50 ends a session only where the end follows it by itself."""
    session = Session(program=fake)
    kept = session.load(FIVE).accepted()
    lacking = _channel.Reply("an erosion")
    lacking.settle(["ERR", "50", "MEMORY"])
    session._channel._last = lacking
    os.kill(session.pid, signal.SIGKILL)
    with pytest.raises(SessionEnded, match="killed by SIGKILL") as told:
        kept.status()
    assert told.value.refusal is None


def test_a_full_session(fake, monkeypatch):
    monkeypatch.setenv("FAKE_ENTRIES", "3")
    with Session(program=fake) as session:
        f = session.load(FIVE)
        assert samples(session.erosion(f, BAR)) == [1] * 5
        with pytest.raises(Refused, match="48 FULL"):
            session.erosion(f, BAR).result()


def test_a_slow_program(fake, monkeypatch):
    monkeypatch.setenv("FAKE_WORK", "0.5")
    with Session(program=fake) as session:
        made = session.erosion(FIVE, BAR)
        with pytest.raises(TimeoutError):
            made.result(timeout=0.05)
        assert samples(made) == [1] * 5


def test_one_limit_of_time_for_all_requests(fake, monkeypatch):
    """Each of two requests takes less than the limit, and both together more."""
    monkeypatch.setenv("FAKE_PAUSE", "1")
    with Session(program=fake) as session:
        made = session.load(FIVE).accepted()
        with pytest.raises(TimeoutError):
            made.result(timeout=1.6)
        assert samples(made) == [3, 1, 4, 1, 5]


def test_a_slow_server_lets_other_requests_through(server):
    if not server.is_fake:
        pytest.skip("the program is quick")
    # long enough for what is asked meanwhile, on a busy machine, too
    with server(FAKE_WORK="3").session() as session:
        made = session.erosion(FIVE, BAR)
        assert made.status() == "pending"
        with pytest.raises(TimeoutError):
            made.wait(timeout=0.05)
        with pytest.raises(Refused, match="52 PENDING"):
            made.release()
        assert made.result(timeout=60).samples == bytes([1] * 5)
        other = session.erosion(made, BAR)
        assert other.cancel() is True


def test_two_clients_of_one_server(server):
    started = server()
    with started.session() as one, started.session() as other:
        f = one.load(FIVE)
        made = one.erosion(f, BAR)
        assert made.accepted().name.isascii()
        assert samples(other.dilation(other.handle(f.name), BAR)) == [3, 4, 4, 5, 5]
        assert samples(other.handle(made.name)) == [1] * 5
        assert samples(made) == [1] * 5


def test_a_service_with_a_table_for_each_session(program):
    run = subprocess.Popen([program, "serve"], stdin=subprocess.DEVNULL, stdout=subprocess.PIPE, stderr=subprocess.DEVNULL)
    try:
        line = run.stdout.readline().split()
        if not line:
            pytest.skip("this program has no serve")
        with Session.connect(line[1].decode(), int(line[2])) as one, Session.connect(line[1].decode(), int(line[2])) as other:
            made = one.erosion(FIVE, BAR)
            assert made.result(timeout=30).samples == bytes([1] * 5)
            assert samples(other.dilation(FIVE, BAR)) == [3, 4, 4, 5, 5]
            with pytest.raises(Refused, match="41 UNKNOWN"):
                other.handle(made.name).status()
    finally:
        run.kill()
        run.wait()
        run.stdout.close()


def test_a_server_that_is_killed(server):
    started = server()
    session = started.session()
    f = session.load(FIVE).accepted()
    started.kill()
    with pytest.raises(SessionEnded, match="closed the connection|reset|broke"):
        for _ in range(100):
            f.wait()
    session.close()


def test_a_connection_that_is_idle(server):
    """The limit of time is that of connecting, and small requests go out at once."""
    started = server()
    started.session().close()
    with Session.connect("127.0.0.1", started.port, 0.3) as session:
        f = session.load(FIVE)
        assert samples(f) == [3, 1, 4, 1, 5]
        time.sleep(0.6)
        assert samples(f) == [3, 1, 4, 1, 5]
        assert session._channel.way._socket.getsockopt(socket.IPPROTO_TCP, socket.TCP_NODELAY) != 0


def test_no_server():
    with pytest.raises(ConnectionRefusedError):
        Session.connect("127.0.0.1", 1, 5)


def test_many_threads_share_a_session(program):
    wrong = []
    with Session(program=program) as session:
        def work(level):
            picture = Picture(5, 1, 99, False, bytes([level] * 5))
            for _ in range(5):
                if samples(session.erosion(picture, BAR)) != [level] * 5:
                    wrong.append(level)

        crew = [threading.Thread(target=work, args=(level,)) for level in range(8)]
        for each in crew:
            each.start()
        for each in crew:
            each.join()
    assert wrong == []


def test_an_interrupted_request_ends_the_session(fake, monkeypatch):
    session = Session(program=fake)
    session.load(FIVE).accepted()

    def interrupted(data):
        raise KeyboardInterrupt

    monkeypatch.setattr(session._channel.way, "send", interrupted)
    with pytest.raises(KeyboardInterrupt):
        session.load(FIVE)
    with pytest.raises(SessionEnded, match="in part"):
        session.load(FIVE)


def test_an_interrupt_at_the_terminal_goes_to_this_process_alone(program):
    with Session(program=program) as session:
        session.load(FIVE).accepted()
        assert os.getsid(session.pid) == session.pid != os.getsid(0)


def test_a_fault_of_the_work_is_told_and_not_that_of_the_session(fake):
    with pytest.raises(ZeroDivisionError):
        with Session(program=fake) as session:
            os.kill(session.load(FIVE).accepted()._session.pid, signal.SIGKILL)
            raise ZeroDivisionError
    assert session._channel.is_over


@pytest.mark.parametrize("text, told", [("exec 1>&-; exec sleep 60", "closed its output and went on, and was killed"),
                                        ("exec sleep 60", "the session did not end")])
def test_a_program_that_does_not_end_is_killed(tmp_path, monkeypatch, text, told):
    monkeypatch.setattr(_channel, "PATIENCE", 0.3)
    script = tmp_path / "stubborn"
    script.write_text(f"#!/bin/sh\n{text}\n", encoding="utf-8")
    script.chmod(0o755)
    session = Session(program=script)
    pid = session.pid
    if "1>&-" in text:
        session._channel._reader.join(60)
    begun = time.monotonic()
    with pytest.raises(SessionEnded, match=told):
        session.close()
    assert time.monotonic() - begun < 30
    with pytest.raises(ProcessLookupError):
        os.kill(pid, 0)


@pytest.mark.parametrize("line", [
    "HTTP/1.1 400 Bad Request", "", "OK", "OK x", "ERR 40", "IMAGE 0", "IMAGE 0 x", "IMAGE 0 -1", "IMAGE 0 9999999999999999999999",
    "FAILED 0 INPUT", "DONE 0"])
def test_lines_that_are_no_replies(tmp_path, line):
    """Who waits is told, whatever comes."""
    script = tmp_path / "other"
    script.write_text(f"#!/bin/sh\nread request; echo '{line}'; exec cat > '{tmp_path}/rest'\n", encoding="utf-8")
    script.chmod(0o755)
    session = Session(program=script)
    loaded = session.load(b"P1 1 1 1")
    with pytest.raises(SessionEnded, match="this is no reply of morphd"):
        loaded._submitted.wait(60)
    session.close()


def test_a_process_that_ends_waits_for_no_session(fake):
    code = "import sys, morphd; s = morphd.Session(program=sys.argv[1]); f = s.load(b'P1 1 1 1'); print(s.pid)"
    path, slow = os.path.dirname(os.path.dirname(errors.__file__)), dict(os.environ, FAKE_PAUSE="25")
    begun = time.monotonic()
    subprocess.run([sys.executable, "-c", code, fake], cwd=path, env=slow, stdout=subprocess.DEVNULL, timeout=60, check=True)
    assert time.monotonic() - begun < 20


def test_where_the_program_is_found(tmp_path, monkeypatch):
    """As it is given; by MORPHD; on PATH; in a checkout."""
    for folder in ("path", "python/morphd", "crates/morphd/out"):
        (tmp_path / folder).mkdir(parents=True)
    on_path, built = tmp_path / "path" / "morphd", tmp_path / "crates" / "morphd" / "out" / "morphd"
    for each in (on_path, built):
        each.touch(0o755)
    monkeypatch.setattr(_channel, "__file__", str(tmp_path / "python" / "morphd" / "_channel.py"))
    monkeypatch.setenv("MORPHD", "by-morphd")
    monkeypatch.setenv("PATH", str(tmp_path / "path"))
    assert _channel.found_program("given") == "given" and _channel.found_program(None) == "by-morphd"
    monkeypatch.delenv("MORPHD")
    assert _channel.found_program(None) == str(on_path)
    on_path.unlink()
    assert _channel.found_program(None) == str(built)
    built.unlink()
    with pytest.raises(ProgramMissing, match="make morphd"):
        _channel.found_program(None)


def test_a_dropped_session_ends_its_program(fake):
    session = Session(program=fake)
    session.load(FIVE).accepted()
    pid = session.pid
    del session
    gc.collect()
    until = time.monotonic() + 60
    while time.monotonic() < until:
        try:
            os.kill(pid, 0)
        except ProcessLookupError:
            return
        time.sleep(0.02)
    raise AssertionError("the program goes on")


def in_child(work, seconds=30):
    """How a forked child ends that does the work: 0, 1 where it raises, or None where it hung and was killed."""
    pid = os.fork()
    if pid == 0:
        try:
            work()
            os._exit(0)
        except BaseException:
            traceback.print_exc()
        finally:
            os._exit(1)
    until = time.monotonic() + seconds
    while time.monotonic() < until:
        ended, status = os.waitpid(pid, os.WNOHANG)
        if ended:
            return os.waitstatus_to_exitcode(status)
        time.sleep(0.01)
    os.kill(pid, signal.SIGKILL)
    os.waitpid(pid, 0)
    return None


def raises_there(call):
    """The call raises `SessionEnded`, which says that the session is another process's."""
    parent = os.getppid()
    with pytest.raises(SessionEnded, match=f"the session is that of process {parent}"):
        call()


USES_IN_A_CHILD = {
    "dropped": lambda kept: kept.clear() or gc.collect(),
    "closed": lambda kept: kept[0].close() or kept[0].close(),
    "left": lambda kept: kept[0].__exit__(None),
    "asked for more": lambda kept: raises_there(lambda: kept[0].load(FIVE)),
    "asked for what there is": lambda kept: raises_there(lambda: kept[0].handle("f").wait(5)),
    "beside one of its own": lambda kept: samples(Session(program=kept[1]).erosion(FIVE, BAR)),
}


@pytest.mark.parametrize("use", USES_IN_A_CHILD)
def test_a_forked_child_leaves_the_session_alone(program, use):
    kept = [Session(program=program), program]
    assert samples(kept[0].erosion(FIVE, BAR)) == [1] * 5
    assert in_child(lambda: USES_IN_A_CHILD[use](kept)) == 0
    assert samples(kept[0].erosion(FIVE, BAR)) == [1] * 5
    kept[0].close()


@pytest.mark.parametrize("use", ["dropped", "closed", "asked for more"])
def test_a_forked_child_leaves_a_connection_alone(server, use):
    kept = [server().session()]
    assert samples(kept[0].erosion(FIVE, BAR)) == [1] * 5
    assert in_child(lambda: USES_IN_A_CHILD[use](kept)) == 0
    assert samples(kept[0].erosion(FIVE, BAR)) == [1] * 5
    kept[0].close()


def test_replies_that_a_forked_child_waits_for(fake, monkeypatch):
    """Those that had come are there; those that had not will never come."""
    monkeypatch.setenv("FAKE_PAUSE", "0.5")
    with Session(program=fake) as session:
        f = session.load(FIVE).accepted()
        late = session.load(FIVE)
        assert in_child(lambda: f.accepted() and raises_there(late.accepted)) == 0
        late.accepted()


def test_locks_that_a_thread_held_when_a_child_was_forked(fake):
    """The reader has one of its buffer at all times; here others are held as well."""
    kept = [Session(program=fake), fake]
    channel, f = kept[0]._channel, kept[0].load(FIVE).accepted()
    with channel._sending, channel._ending, f._submitted._come._cond:
        for use in ("closed", "asked for more"):
            assert in_child(lambda: USES_IN_A_CHILD[use](kept)) == 0
        assert in_child(f.accepted) == 0
    kept[0].close()


def test_a_forked_child_comes_to_its_end(fake):
    """The interpreter's, not by `os._exit`."""
    code = ("import os, sys, morphd; s = morphd.Session(program=sys.argv[1]); f = s.load(b'P1 1 1 1').accepted(); pid = os.fork()\n"
            "if pid: print(os.waitpid(pid, 0)[1], f.status()); s.close()")
    path = os.path.dirname(os.path.dirname(errors.__file__))
    words = [sys.executable, "-W", "error", "-c", code, fake]
    done = subprocess.run(words, cwd=path, capture_output=True, text=True, timeout=60, check=True)
    assert (done.stdout, done.stderr) == ("0 done\n", "")


def test_a_program_ends_with_its_parent_though_a_child_goes_on(fake):
    session = Session(program=fake)
    pid = os.fork()
    if pid == 0:
        time.sleep(60)
        os._exit(0)
    try:
        session._channel.way.no_more()
        assert session._channel.way._run.wait(30) == 0
    finally:
        os.kill(pid, signal.SIGKILL)
        os.waitpid(pid, 0)
    session.close()


@pytest.mark.parametrize("fault", [
    Refused(47, "rank"), OutOfMemory("rank"), SessionEnded("over", Refused(10, "x"), 1), InputFailed("RUN", 3), Cancelled("x")])
def test_faults_go_to_other_processes(fault):
    back = pickle.loads(pickle.dumps(fault))
    assert type(back) is type(fault) and str(back) == str(fault)
    assert {name: str(value) for name, value in vars(back).items()} == {name: str(value) for name, value in vars(fault).items()}


def test_faults_are_of_pythons_kinds():
    assert issubclass(Refused, ValueError) and issubclass(OutOfMemory, MemoryError)
    assert issubclass(SessionEnded, ConnectionError) and issubclass(errors.LibraryMissing, ImportError)
    assert str(Refused(47, "rank")).startswith("rank: ") and "47 PARAM" in str(Refused(47))


def test_numbers_that_no_request_has_leave_the_session_open(program):
    """Their line would be none of the protocol, behind which a session ends."""
    with Session(program=program) as session:
        image = session.load(b"P2 2 1 9 3 4")
        for wrong in (-1, 10**9):
            with pytest.raises(Refused, match="47 PARAM"):
                session.threshold(image, wrong)
        for wrong in (2.0, "2", None):
            with pytest.raises(TypeError, match="is a whole number"):
                session.rank(image, wrong, [[1]])
        assert session.rank(image, True, [[1]]).result().rows() == [[3, 4]]
        assert session.threshold(image, 4).result().rows() == [[0, 1]]


def test_a_batch_at_a_terminal_tells_that_it_waits(program, fake):
    if program == fake:
        pytest.skip("the stand-in tells nothing")
    ours, its = os.openpty()
    try:
        with subprocess.Popen([program, "batch"], stdin=its, stdout=subprocess.PIPE, stderr=subprocess.PIPE) as run:
            os.write(ours, b"STATUS x\nQUIT\n")
            replies, told = run.communicate(timeout=30)
    finally:
        os.close(ours)
        os.close(its)
    assert (run.returncode, replies) == (0, b"ERR 41 UNKNOWN\n")
    assert told == b"morphd batch: reads a session from this terminal, up to QUIT or Ctrl-D\n"
