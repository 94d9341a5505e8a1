#!/usr/bin/env python3
"""Runs a built morphd over sessions with each of its allocations refused in turn, and holds what it writes against the
machine of checks/reference_model.py: every reply has to be the machine's, but for one mark of the refused allocation. A mark is
a request that is answered 50, a pending entry that is killed before work is done, or the end of the session by 50.

With `--strict` the status is 3 exactly where it would be 0 and a request was answered 50, in a session that is answered no
other refusal.

By four workers each start of a thread is refused in turn, too, alone and with all behind it: output and status have to
stay the same. Then each allocation is refused where threads can be started and where none can. `morphd listen` with a
start refused has to end with `error: thread`.

    python3 checks/refused_memory.py crates/morphd/out/morphd [SESSION..]

Without sessions it takes those below and two of examples/, else the given ones by one worker and by four. The library
refuse.so is built from refuse.c.
"""
import collections
import copy
import os
import pathlib
import socket
import subprocess
import sys
import tempfile
import time

import quick_model
import reference_model

HERE = pathlib.Path(__file__).resolve().parent
FIVE = b"LOAD f 19\nP2\n5 1\n9\n3 1 4 1 5\n"
BAR = b"ELEMENT b 1 0 11\nP1\n3 1\n111\n"
SESSIONS = {
    "erosion": FIVE + BAR + b"RUN e ERODE f b\nFETCH e\nRUN e ERODE f b\nRUN g DILATE e b\nSTATUS g\nFETCH e\n",
    "accepted": FIVE + BAR + b"RUN e ERODE f b\nRUN d DILATE e b\nSTATUS d\nFETCH e\nFETCH d\n",
    "dependents": FIVE + BAR + b"RUN a ERODE f b\nRUN c DILATE a b\nCANCEL a\nSTATUS c\nRUN d DILATE f b\n"
                  b"RUN e ERODE d b\nRUN g ERODE e b\nWAIT g\nFETCH d\nFETCH e\nFETCH g\nSTATUS b\nFETCH b\n",
    "release": FIVE + BAR + b"RUN e ERODE f b\nRELEASE e\nRELEASE f\nRUN g DILATE f b\nSTATUS f\nFETCH e\nRELEASE f\n"
               + FIVE + b"CANCEL f\nRELEASE e\nFETCH e\nRELEASE z\nRELEASE b\nFETCH b\nQUIT\n",
    "seam": b"LOAD f 75\nP5\n65 1\n9\n" + bytes(64) + b"\x09" + BAR + b"RUN d DILATE f b\nRUN e ERODE d b\nFETCH d\n"
            b"STATUS e\nFETCH e\n",
    "two bytes": b"LOAD f 25\nP2\n5 1\n1000\n7 1000 0 3 4\n" + BAR + b"RUN d DILATE f b\nFETCH d\nFETCH f\nSTATUS d\n",
}

def loaded(name, picture):
    return b"LOAD %s %d\n%s" % (name, len(picture), picture)


def element(name, side, holds):
    """A square bitmap with its origin in the middle, and the pixels whose column and row from there hold."""
    half = side // 2
    rows = b"".join(b"%d" % holds(x - half, y - half) for y in range(side) for x in range(side))
    bitmap = b"P1\n%d %d\n%s\n" % (side, side, rows)
    return b"ELEMENT %s %d %d %d\n%s" % (name, half, half, len(bitmap), bitmap)


def square(name, side):
    return element(name, side, lambda x, y: True)


def disc(name, side):
    """A disc without the pixel to the right of its origin."""
    return element(name, side, lambda x, y: x * x + y * y <= (side // 2) ** 2 and (x, y) != (1, 0))


def sieve(name, side):
    """Every second pixel of a square, the origin among them: so many runs that a tile under it is worth a thread of its own."""
    return element(name, side, lambda x, y: (x + y) % 2 == 0)


# Levels without a pattern, which have all 8 or 12 bits, and a set. Ranks of them under a few offsets are counted, under
# a large square made eight rows at a time, and under a large disc by a moving histogram.
MIXED = [(x * x * 31 + y * y * 57 + x * y * 13 + 5 * x) % 4096 for y in range(12) for x in range(40)]
BYTES = loaded(b"f", b"P5\n40 12\n255\n" + bytes(level % 256 for level in MIXED))
WORDS = loaded(b"f", b"P5\n40 12\n4095\n" + b"".join(level.to_bytes(2, "big") for level in MIXED))
DOTS = loaded(b"f", b"P1\n40 12\n" + b"".join(b"%d" % (level % 7 < 3) for level in MIXED) + b"\n")
RANKS = (b"RUN s RANK f b 3\nRUN m RANK f c 25\nRUN l RANK f d 40\nFETCH s\nFETCH m\nFETCH l\nRUN e RANK m b 9\n"
         b"FETCH e\n")
# Medians by vectors, also where the frame cuts the square.
MEDIANS = square(b"b", 3) + square(b"c", 5) + b"RUN m RANK f b 5\nRUN n RANK f c 13\nFETCH m\nFETCH n\n"
# An element without its origin, beside a square of three.
BESIDE = b"ELEMENT c 0 0 11\nP1\n3 1\n001\n"
SESSIONS.update({
    "ranks of bytes": BYTES + square(b"b", 3) + square(b"c", 8) + disc(b"d", 13) + RANKS,
    "ranks of two bytes": WORDS + square(b"b", 3) + square(b"c", 8) + disc(b"d", 13) + RANKS,
    "ranks of a set": DOTS + square(b"b", 3) + square(b"c", 23) + disc(b"d", 23) + RANKS,
    "medians of bytes": BYTES + MEDIANS,
    "medians of two bytes": WORDS + MEDIANS,
    "sets of bytes": BYTES + square(b"b", 3) + BESIDE + b"RUN t THRESHOLD f 128\nRUN h HITMISS f b c\n"
                     b"RUN s SKELETON t b 2\nRUN r RESTORE s b 2\nRUN q SPECTRUM t b 2\nFETCH t\nFETCH h\nFETCH s\n"
                     b"FETCH r\nFETCH q\n",
    "sets of two bytes": WORDS + square(b"b", 3) + BESIDE + b"RUN h HITMISS f b c\nRUN q SPECTRUM f b 2\n"
                         b"RUN t THRESHOLD h 9\nRUN g HITMISS t b c\nFETCH h\nFETCH q\nSTATUS q\nFETCH t\nRELEASE t\n"
                         b"FETCH g\n",
})
# Pictures of several tiles of side 64, a grey one of 16 and a set of 20, so that four workers have tasks side by side. Levels of two bytes
# are worth a thread by a small element, and a set by a sieve or by ranks.
WIDE = b"P5\n250 250\n999\n" + b"".join(((71 * x + 37 * y + x * y % 40) % 1000).to_bytes(2, "big") for y in range(250) for x in range(250))
SET = b"P1\n260 200\n" + b"".join(b"0" if (x * y + x // 9) % 11 == 0 else b"1" for y in range(200) for x in range(260)) + b"\n"
CROSS = b"ELEMENT b 1 1 17\nP1\n3 3\n010111010\n"
# A pixel that neither a cross nor a sieve has.
NEXT = b"ELEMENT d 0 0 12\nP1\n4 1\n0001\n"
FOUR_WORKERS = {
    "steps": loaded(b"f", WIDE) + BAR + b"RUN e ERODE f b\nRUN d DILATE e b\nRUN o OPEN f b\nFETCH d\nFETCH e\nFETCH o\n"
             b"RUN g GRADIENT o b\nSTATUS g\nFETCH g\n",
    "side by side": loaded(b"f", WIDE) + CROSS + b"RUN a ERODE f b\nRUN c DILATE f b\nRUN d GRADIENT f b\n"
                    b"RUN e CLOSE a b\nRUN g ERODE c b\nCANCEL c\nWAIT e\nFETCH a\nFETCH d\nFETCH g\nRELEASE a\n"
                    b"FETCH e\nRUN h DILATE d b\nRELEASE d\nFETCH h\nSTATUS a\n",
    "set": loaded(b"x", SET) + sieve(b"s", 51) + CROSS + b"RUN o OPEN x s\nRUN c CLOSE x b\nFETCH o\nRUN e DILATE c s\n"
           b"RELEASE o\nRELEASE x\nFETCH e\nSTATUS c\nQUIT\n",
    "ranks": loaded(b"f", WIDE) + loaded(b"x", SET) + square(b"b", 3) + b"RUN m RANK f b 5\nRUN n RANK x b 5\n"
             b"RUN l RANK n b 2\nFETCH l\nFETCH m\n",
    "skeleton": loaded(b"x", SET) + sieve(b"b", 51) + b"RUN s SKELETON x b 1\nRUN r RESTORE s b 1\nRUN q SPECTRUM x b 1\nFETCH s\n"
                b"FETCH r\nFETCH q\n",
    "sets of levels": loaded(b"f", WIDE) + CROSS + sieve(b"s", 51) + NEXT + b"RUN h HITMISS f b d\nRUN t THRESHOLD f 500\n"
                      b"RUN g HITMISS t s d\nFETCH h\nFETCH g\nSTATUS t\n",
}
# So many starts of threads a session of these makes at least: by four workers three at once.
LEAST_STARTS = 3
LISTENED = FIVE + BAR + b"RUN e ERODE f b\nWAIT e\nFETCH e\nQUIT\n"
SECONDS = 60
ALL_BEHIND = 1 << 30

# What a run of the program came to: no status where it hung, and no counts where it did not end by itself.
Run = collections.namedtuple("Run", "status written told calls starts")

MEMORY = "MEMORY"
LACK = b"ERR 50 MEMORY\n"
LACKED = "a request was answered 50"
ENDED = "the session was ended"


class Entry(reference_model.Entry):
    """An entry of the reference model's machine that can be killed for want of memory, too."""

    def is_dead(self):
        return self.outcome == MEMORY or super().is_dead()


class Session(reference_model.Session):
    """The machine of the reference model, with entries that are killed."""

    def copied(self):
        """This machine once more, to be gone on with in another way. Entries have the same values there."""
        other = Session()
        other.entries = [copy.copy(entry) for entry in self.entries]
        return other

    def accept(self, entry):
        return super().accept(Entry(entry.name, entry.shape, entry.inputs, entry.outcome, entry.make))

    def pending(self):
        return [t for t, entry in enumerate(self.entries) if entry.outcome == "PENDING"]

    def killed(self, t):
        """This machine where that entry finds no memory: what is to come of it dies as if it were cancelled."""
        other = self.copied()
        other.cancel(other.entries[t].name)
        other.entries[t].outcome = MEMORY
        return other

    def status(self, name):
        told = super().status(name)
        t, entry = self.known(name)
        return b"FAILED %d MEMORY\n" % t if entry.outcome == MEMORY else told


def remembered(operator):
    """The operator, which makes the same of the same once: sessions are gone through again for each allocation. Numbers and bytes are
    told apart by what they are, and all else by its place, which it keeps while it is held here."""
    made = {}

    def applied(*given):
        key = tuple(it if isinstance(it, (int, bytes)) else id(it) for it in given)
        if key not in made:
            made[key] = given, operator(*given)
        return made[key][1]
    return applied


def remember_all():
    """Lets the reference model's machine remember what it read, what its operators made and what was written of it."""
    quick_model.install()
    for name in ("image_in", "element_in", "image_text"):
        setattr(reference_model, name, remembered(getattr(reference_model, name)))
    reference_model.OPERATIONS.update((word, (elements, numbers, remembered(operator)))
                                      for word, (elements, numbers, operator) in list(reference_model.OPERATIONS.items()))


def requests(data):
    """The requests of a session, each as its word, its words and its payload. Sessions here have no faults."""
    at, found = 0, []
    while at < len(data):
        word, words, payload, at = reference_model.request(data, at)
        found.append((word, words, payload))
        if word == "QUIT":
            return found
    return found + [("QUIT", (), b"")]


def replied(session, asked):
    """The machine behind the request, and what it answers."""
    after = session.copied()
    try:
        return after, reference_model.answer(after, *asked)
    except reference_model.Refused as refused:
        return after, reference_model.refusal(refused.code)


def before(session, word):
    """The states in which the request may be met, each with its mark."""
    if word not in ("STATUS", "FETCH", "WAIT"):
        return [(session, None)]
    met = [(session.copied(), None)] + [(session.killed(t), "an entry was killed") for t in session.pending()]
    for state, _ in met:
        state.work()
    return met


def is_taken(session, asked):
    """Whether the request is refused before its payload is looked at: that this finds no memory is then not told. The log
    has places for its first 16 items from the start, and no session here asks for this behind them."""
    word, words, _ = asked
    return word in ("LOAD", "ELEMENT") and session.ticket(words[0]) is not None


def following(state, asked, written):
    """How it may go on behind this request: the machine, up to where it has written, and the mark."""
    session, at, mark = state
    free, found = mark == "nothing", []
    for met, kill in before(session, asked[0]):
        if kill and not free:
            continue
        after, text = replied(met, asked)
        if written.startswith(text, at):
            found.append((after, at + len(text), kill or mark))
        if free and not kill and not is_taken(session, asked) and written.startswith(LACK, at):
            found.append((met, at + len(LACK), LACKED))
    return found


def is_end(state, word, written, status):
    """The mark with which the session may have ended here, where it did."""
    _, at, mark = state
    if mark == "nothing" and status == 1 and written[at:] == LACK:
        return ENDED
    return mark if word == "QUIT" and status == 0 and at == len(written) else None


def explained(asked, written, status):
    """The one mark with which the machine writes this and ends so, 'nothing' without one, or None; and in which line of
    requests it ended."""
    states, ended = [(Session(), 0, "nothing")], []
    for line, request in enumerate(asked, 1):
        ended += [(end, line) for state in states for end in [is_end(state, request[0], written, status)] if end]
        if request[0] != "QUIT":
            states = [after for state in states for after in following(state, request, written)]
    return next(iter(ended), (None, None))


def built_refuser():
    """Builds the library that refuses an allocation."""
    (HERE / "out").mkdir(exist_ok=True)
    # under a name of its own first, so that a check that runs beside this one keeps a whole library
    made = HERE / "out" / ("refuse.%d.so" % os.getpid())
    subprocess.run(["cc", "-shared", "-fPIC", "-O1", "-o", made, HERE / "refuse.c", "-ldl"], check=True)
    os.replace(made, HERE / "out" / "refuse.so")


def refusing(number, count, starts=(0, 0)):
    """The environment in which this allocation is refused, none for 0, and the starts of threads from the one to the
    other; the numbers of all go into the file."""
    first, last = starts
    return dict(os.environ, LD_PRELOAD=str(HERE / "out" / "refuse.so"), REFUSE=str(number), REFUSE_START=str(first),
                REFUSE_START_TO=str(last), COUNT=count)


def counted(count):
    """How many allocations and starts of threads the last run asked for, and zeros where it did not end by itself."""
    if not os.path.exists(count):
        return 0, 0
    with open(count) as file:
        calls, starts = file.read().split()
    os.remove(count)
    return int(calls), int(starts)


def run(program, words, session, count, number=0, starts=(0, 0)):
    """Runs a batch with this allocation and these starts refused."""
    command, kept = [program, "batch"] + words, refusing(number, count, starts)
    try:
        made = subprocess.run(command, input=session, capture_output=True, env=kept, timeout=SECONDS)
    except subprocess.TimeoutExpired:
        return Run(None, b"", b"", *counted(count))
    return Run(made.returncode, made.stdout, made.stderr, *counted(count))


def mark_of(asked, made):
    """The mark with which this run is the machine's, or None."""
    if made.status == 1 and not made.written and made.told == b"error: memory\n":
        return "the program did not begin"
    mark, line = explained(asked, made.written, made.status)
    told = b"error: line %d: no memory for it\n" % line if mark == ENDED else b""
    return mark if made.told == told else None


def differs(name, refused, made):
    print("DIFFERS: %s, %s: %r %r %r" % (name, refused, made.status, made.written[-200:], made.told))
    return 1


def refuse_allocations(program, words, name, session, count, starts=(0, 0)):
    """Runs a session with each allocation refused in turn, and says how many runs were not the machine's."""
    asked, found, bad, last, number = requests(session), collections.Counter(), 0, 0, 0
    while number <= last:
        made = run(program, words, session, count, number, starts)
        last = max(last, made.calls) if number else made.calls
        mark = mark_of(asked, made)
        if mark is None or (number == 0 and mark != "nothing"):
            bad += differs(name, "allocation %d" % number, made)
        elif 0 < number <= made.calls:
            found[mark] += 1
        number += 1
    print("%s: %d allocations refused in turn; %s" % (
        name, sum(found.values()), ", ".join("%d times %s" % (n, mark) for mark, n in sorted(found.items()))))
    return bad


def refuse_strictly(program, count):
    """Runs a session that is answered no refusal strictly, with each allocation refused in turn, and says how many runs
    ended otherwise than told: with 3 exactly where a request was answered 50."""
    asked, alone, bad, last, number = requests(SESSIONS["accepted"]), 0, 0, 0, 0
    while number <= last:
        made = run(program, ["--workers", "1", "--strict"], SESSIONS["accepted"], count, number)
        last = max(last, made.calls) if number else made.calls
        mark = mark_of(asked, made._replace(status=0) if made.status == 3 else made)
        if mark is None or (made.status == 3) != (mark == LACKED):
            bad += differs("strict", "allocation %d" % number, made)
        alone += made.status == 3 and made.written.count(b"ERR") == 1
        number += 1
    print("strict: %d allocations refused in turn, %d times status 3 for one ERR 50 alone" % (last, alone))
    return bad or not alone


def refuse_starts(program, words, name, session, count):
    """Runs a session with each start of a thread refused, and says how many runs differ from the one without."""
    whole = run(program, words, session, count)
    bad = 0
    if whole.starts < LEAST_STARTS or mark_of(requests(session), whole) != "nothing":
        bad += differs(name, "%d starts" % whole.starts, whole)
    for first in range(1, whole.starts + 1):
        for last in (first, ALL_BEHIND):
            made = run(program, words, session, count, starts=(first, last))
            if made[:3] != whole[:3]:
                bad += differs(name, "starts from %d to %d" % (first, last), made)
    print("%s: %d starts of threads refused in turn, alone and with all behind" % (name, whole.starts))
    return bad


def refuse_by_four(program, name, session, count):
    words = ["--workers", "4", "--tile", "64"]
    return (refuse_starts(program, words, name + ", 4 workers", session, count)
            + refuse_allocations(program, words, name + ", 4 workers", session, count)
            + refuse_allocations(program, words, name + ", 4 workers without threads", session, count, (1, ALL_BEHIND)))


def free_port():
    with socket.socket() as found:
        found.bind(("127.0.0.1", 0))
        return found.getsockname()[1]


def answered(port, server):
    """What a client of the server is answered, nothing where it ends before."""
    while server.poll() is None:
        try:
            with socket.create_connection(("127.0.0.1", port), SECONDS) as client:
                client.sendall(LISTENED)
                return b"".join(iter(lambda: client.recv(65536), b""))
        except ConnectionRefusedError:
            time.sleep(0.01)
        except OSError:
            return b""
    return b""


def listen(program, count, starts=(0, 0)):
    """Runs a server of one session beside two workers with these starts refused."""
    port = free_port()
    words = [program, "listen", "--port", str(port), "--workers", "2", "--sessions", "1"]
    server = subprocess.Popen(words, stdin=subprocess.DEVNULL, stderr=subprocess.PIPE, env=refusing(0, count, starts))
    try:
        written = answered(port, server)
        _, told = server.communicate(timeout=SECONDS)
    except subprocess.TimeoutExpired:
        server.kill()
        return Run(None, b"", server.communicate()[1], *counted(count))
    return Run(server.returncode, written, told, *counted(count))


def refuse_starts_of_listen(program, count):
    """Runs a server with each start of a thread refused in turn, and says how many runs ended in another way than told."""
    whole, bad = listen(program, count), 0
    if whole.status != 0 or whole.told or explained(requests(LISTENED), whole.written, 0)[0] != "nothing" or not whole.starts:
        bad += differs("listen", "%d starts" % whole.starts, whole)
    for first in range(1, whole.starts + 1):
        made = listen(program, count, (first, first))
        if (made.status, made.told) != (1, b"error: thread\n") or not whole.written.startswith(made.written):
            bad += differs("listen", "start %d" % first, made)
    print("listen: %d starts of threads refused in turn" % whole.starts)
    return bad


def main():
    program = os.path.abspath(sys.argv[1])
    given = {name: pathlib.Path(name).read_bytes() for name in sys.argv[2:]}
    examples = {name: (HERE.parent / "examples" / (name + ".session")).read_bytes() for name in ("grains", "defects")}
    built_refuser()
    remember_all()
    bad = 0
    with tempfile.TemporaryDirectory() as folder:
        count = os.path.join(folder, "count")
        for name, session in (given or dict(SESSIONS, **examples)).items():
            bad += refuse_allocations(program, ["--workers", "1"], name, session, count)
        for name, session in (given or FOUR_WORKERS).items():
            bad += refuse_by_four(program, name, session, count)
        bad += refuse_strictly(program, count)
        bad += refuse_starts_of_listen(program, count)
    sys.exit(bad != 0)


if __name__ == "__main__":
    main()
