"""Cases of `morphd batch` for checks/replay_served.py: what a session writes and how it ends, whatever its input is cut into, and
whatever becomes of its ends. Each case takes the program, and stops by `Wrong` where it does something else.
"""
import os
import pathlib
import random
import shutil
import subprocess
import tempfile
import time

import ends
import reference_model
import refused_memory
import soak
from ends import ALONE, PATIENCE, Left
from peers import ERODE, GIVEN, Wrong, must_be
from server import Talk

SESSIONS = pathlib.Path(__file__).resolve().parent / "sessions"
# What the session ERODE writes.
OUTPUT = b"OK 0\nOK 1\nOK 2\nIMAGE 2 14\nP5\n5 1\n9\n\x01\x01\x01\x01\x01"
# After how many bytes of it a request is whole, and how many bytes are written by then.
WHOLE_REQUESTS = ((0, 0), (29, 5), (57, 10), (73, 15), (81, 40))
FULL = "/dev/full"


def written_for(count):
    """What is written for the whole requests in the first bytes of ERODE, and whether nothing follows them there."""
    read, written = [it for it in WHOLE_REQUESTS if it[0] <= count][-1]
    return OUTPUT[:written], read == count


# The stored sessions that were worked by hand, so that none gets lost unseen.
WORKED = (
    "worked_a_cancelled_entry_is_not_released", "worked_a_long_line_on_a_long_row", "worked_a_sample_behind_the_seam",
    "worked_an_element_larger_than_the_image", "worked_beside_workers_1", "worked_beside_workers_2", "worked_beside_workers_3",
    "worked_beside_workers_4", "worked_beside_workers_5", "worked_beside_workers_6", "worked_beside_workers_7",
    "worked_beside_workers_8", "worked_cancel_fails_dependents", "worked_dilation_and_elements_off_their_origin",
    "worked_each_operation_is_read", "worked_elements_with_common_offsets", "worked_erosion_of_five_samples",
    "worked_images_of_each_kind", "worked_numbers_at_their_ends", "worked_offsets_of_elements", "worked_payloads_that_are_no_image",
    "worked_plain_files", "worked_plain_samples_of_each_length", "worked_raw_files", "worked_refusals_of_elements",
    "worked_refusals_of_headers", "worked_refusals_of_operations", "worked_refusals_of_plain_rasters",
    "worked_refusals_of_raw_rasters", "worked_refusals_of_submissions", "worked_released_entries", "worked_requests_about_a_name",
    "worked_requests_behind_quit", "worked_rows_by_each_operation", "worked_samples_at_their_ends",
    "worked_sets_are_eroded_and_dilated", "worked_skeleton_and_its_restoration", "worked_spectrum_and_its_curve",
)


def worked():
    """Their names, what they read, write, and end with."""
    found = sorted(path.stem for path in SESSIONS.glob("worked_*.in"))
    must_be(found, sorted(WORKED), "the worked sessions")
    for name in found:
        path = SESSIONS / name
        status = path.with_suffix(".status")
        session, output = (path.with_suffix(it).read_bytes() for it in (".in", ".out"))
        yield name, session, output, int(status.read_text()) if status.exists() else 0


def must_leave(left, output, status, what):
    """Of a request that ends the session is told which it was, and why; else nothing. Each reply before it is a line."""
    told = soak.told_of(output, status, output.count(b"\n") - 1) if status == 1 else b""
    must_be(left, Left(status, output, told), what)


def worked_sessions_in_pieces(program):
    """However the bytes of a session are cut, it writes the same."""
    for name, session, output, status in worked():
        for size in (64, 5, 3, 2, 1) if len(session) < 600 else (4096, 63):
            must_leave(ends.in_pieces(program, session, size), output, status, "%s in pieces of %d" % (name, size))


def worked_sessions_are_the_models(_program):
    """The reference model writes what is stored, too."""
    for name, session, output, status in worked():
        must_be(reference_model.served(session)[:2], (output, status), name + " by the reference model")


# Lines that are none: other letters, blanks, ends of lines and numbers, too few and too many words, and no operations.
NO_LINES = (
    "load x 5", "LOAD x 07", "LOAD  x 5", "LOAD x 5 ", " QUIT", "QUIT\r", "", "STATUS X", "STATUS", "LOAD x 1234567890", "STATUS  x",
    "STATUS x\r", "RUN", "RUN r", "RUN r ERODE", "RUN r ERODE f", "RUN r OPEN f", "RUN r THRESHOLD f", "RUN r THRESHOLD 4",
    "RUN r RANK f b", "RUN r HITMISS f b", "RUN r SKELETON f b", "RUN r RESTORE f 3", "RUN r SPECTRUM f", "RUN r ERODE f b c",
    "RUN r CLOSE f b 1", "RUN r THRESHOLD f 4 5", "RUN r THRESHOLD f b 4", "RUN r RANK f b 1 2", "RUN r HITMISS f b c d",
    "RUN r SKELETON f b 2 3", "RUN r RESTORE f b c 3", "RUN r SPECTRUM f b 2 ", "RUN r THRESHOLD f 04", "RUN r THRESHOLD f 1000000000",
    "RUN r THRESHOLD f b", "RUN r RANK f b 01", "RUN r RANK f b -1", "RUN r SKELETON f b 00", "RUN r RESTORE f b 2_",
    "RUN r SPECTRUM f b +2", "RUN r ROTATE f b", "RUN r OPENING f b", "RUN r Open f b", "RUN r TOPHAT f b", "RUN r  OPEN f b",
    "RUN R OPEN f b", "RUN OPEN f b", "OPEN r f b", "A" * 200)


def ends_by(program, session, output, status):
    must_leave(ends.whole(program, session), output, status, "a batch of %r" % session[:60])


def lines_that_are_none(program):
    """Each ends the session by 10, and what stands behind it is not answered."""
    for line in NO_LINES:
        ends_by(program, line.encode() + b"\nSTATUS x\n", b"ERR 10 LINE\n", 1)
        ends_by(program, GIVEN + line.encode() + b"\n", b"OK 0\nOK 1\nERR 10 LINE\n", 1)


def lines_that_end_a_session(program):
    """Cut inputs, long lines, long payloads, QUIT, and nothing at all."""
    for session, output, status in (
            (b"LOAD x 5\nabc", b"ERR 12 CUT\n", 1), (b"STATUS x", b"ERR 12 CUT\n", 1), (b"LOAD x 134217729\n", b"ERR 11 LENGTH\n", 1),
            (b"ELEMENT x 0 0 134217729\n", b"ERR 11 LENGTH\n", 1), (b"LOAD x 134217728\n0123456789", b"ERR 12 CUT\n", 1),
            (b"A" * 201, b"ERR 10 LINE\n", 1), (b"A" * 200, b"ERR 12 CUT\n", 1), (b"A" * 300, b"ERR 10 LINE\n", 1),
            (b"RUN o OPEN f b\n", b"ERR 41 UNKNOWN\n", 0), (b"", b"", 0), (b"QUIT\nSTATUS x\n", b"", 0)):
        ends_by(program, session, output, status)


def a_bad_line_stays_bad(program):
    """Nothing is served behind a bad line, in whatever pieces it comes."""
    for size in (1, 11, 64):
        left = ends.in_pieces(program, b"load x 5\nQUIT\nSTATUS x\n", size)
        must_leave(left, b"ERR 10 LINE\n", 1, "a bad line in pieces of %d" % size)


def every_prefix_of_a_session(program):
    """It is answered what was whole, and then that the input is cut, unless it ends between two requests."""
    for count in range(len(ERODE) + 1):
        written, is_between = written_for(count)
        ends_by(program, ERODE[:count], written + (b"" if is_between else b"ERR 12 CUT\n"), 0 if is_between else 1)


def a_reader_that_fails_anywhere(program):
    """All that was due is written, and the fault is told."""
    for count in range(len(ERODE) + 1):
        for size in (1, 7, 64):
            left = ends.failing(program, ERODE[:count], size)
            must_be(left, Left(1, written_for(count)[0], b"error: input\n"), "a reader that fails behind %d bytes" % count)


def a_reader_that_cannot_be_read(program):
    """The first read fails."""
    folder = os.open(SESSIONS.parent, os.O_RDONLY)
    try:
        made = subprocess.run([program, "batch"], stdin=folder, capture_output=True, timeout=PATIENCE)
    finally:
        os.close(folder)
    must_be((made.returncode, made.stdout, made.stderr), (1, b"", b"error: input\n"), "a batch of a folder")


def a_reader_that_is_interrupted(program):
    """An interrupted read is made again."""
    for size in (1, 7, 64):
        must_be(ends.interrupted(program, ERODE, size), Left(0, OUTPUT, b""), "interrupted reads of %d bytes" % size)


def a_writer_that_fails_anywhere(program):
    """What there is room for is written, and the fault is told."""
    for room in range(len(OUTPUT)):
        left = ends.within(program, ERODE, room)
        must_be(left, Left(1, OUTPUT[:room], b"error: output\n"), "a writer with room for %d bytes" % room)
    must_be(ends.within(program, ERODE, len(OUTPUT)), Left(0, OUTPUT, b""), "a writer with just enough room")


def a_writer_that_takes_nothing(program):
    """A full device, and a pipe that nobody reads: the fault is told, and nothing is lost before it."""
    with open(FULL, "wb") as full:
        made = subprocess.run([program, "batch"], input=ERODE, stdout=full, stderr=subprocess.PIPE, timeout=PATIENCE)
    must_be((made.returncode, made.stderr), (1, b"error: output\n"), "a batch to a full device")
    ours, theirs = os.pipe()
    os.close(ours)
    try:
        pipes = {"stdout": theirs, "stderr": subprocess.PIPE}
        made = subprocess.run([program, "batch"], input=ERODE, timeout=PATIENCE, restore_signals=False, **pipes)
    finally:
        os.close(theirs)
    must_be((made.returncode, made.stderr), (1, b"error: output\n"), "a batch to a pipe that nobody reads")


def a_writer_that_takes_parts(program):
    """A write that took a part goes on with the rest."""
    picture = b"P5\n600 500\n255\n" + random.Random(1).randbytes(300000)
    session = b"LOAD f %d\n%sFETCH f\n" % (len(picture), picture)
    wanted = b"OK 0\nIMAGE 0 %d\n%s" % (len(picture), picture)
    left = ends.taken_in_parts(program, session)
    if left != Left(0, wanted, b""):
        raise Wrong("a write in parts left status %d, %d of %d bytes, %r" % (left.status, len(left.written), len(wanted), left.told))


def as_many_entries_as_there_may_be(program):
    """65,536 of them, and then none."""
    session = b"".join(b"LOAD n%d 11\nP2\n1 1\n9\n5\n" % n for n in range(65536)) + b"LOAD m 1\nxRUN m ERODE zz zz\nLOAD n0 1\nx"
    wanted = b"".join(b"OK %d\n" % n for n in range(65536)) + b"ERR 48 FULL\nERR 48 FULL\nERR 40 NAME_TAKEN\n"
    must_be(ends.whole(program, session), Left(0, wanted, b""), "a batch of 65,536 entries")


def quit_stops_reading(program):
    """A batch ends at QUIT, though more could be read."""
    with Talk(program) as talk:
        talk.send(b"STATUS x\nQUIT\nSTATUS y\n")
        must_be(talk.rest(), b"ERR 41 UNKNOWN\n", "a batch behind QUIT")
        must_be(talk.end(), (0, b""), "the end of a batch behind QUIT")


# What is sent, and what is heard before anything more is.
ASKED = ((b"LOAD f 19\n", b""), (b"P2\n5 1\n9\n3 1 4 1 5\n", b"OK 0\n"), (b"STATUS f\n", b"DONE 0 GREY 5 1 9\n"),
         (b"FETCH f\nSTATUS x\nCANC", b"IMAGE 0 14\nP5\n5 1\n9\n\x03\x01\x04\x01\x05ERR 41 UNKNOWN\n"), (b"EL f\n", b"ERR 49 SETTLED\n"),
         (b"RELEASE f\n", b"OK 0\n"), (b"STATUS f\n", b"RELEASED 0\n"))


def hears_each_answer(client):
    """A client that waits for each answer has it: none is held back when more is read."""
    for request, answer in ASKED:
        client.send(request)
        must_be(client.exactly(len(answer)), answer, "the answer to %r" % request)


def each_answer_comes_before_the_next_read(program):
    """Also through pipes."""
    with Talk(program) as talk:
        hears_each_answer(talk)
        talk.is_over()
        must_be(talk.rest(), b"", "behind the last answer")
        must_be(talk.end(), (0, b""), "the end")


def a_thousand_lines_at_once(program):
    """They have a thousand answers."""
    ends_by(program, b"STATUS x\n" * 1000, b"ERR 41 UNKNOWN\n" * 1000, 0)


OPERATIONS = ("ERODE", "DILATE", "OPEN", "CLOSE", "GRADIENT", "WTOPHAT", "BTOPHAT")
ABOUT = ("STATUS", "WAIT", "FETCH", "CANCEL", "RELEASE", "STATUS")
CROSS = b"ELEMENT c 1 1 19\nP1\n3 3\n010 111 010\n"


def without_a_pattern(seed):
    """Ten commands on a picture over four tiles of side 64, of what others make too, and then all that they made."""
    chance = random.Random("without a pattern %d" % seed)
    picture = b"P5\n75 70\n255\n" + chance.randbytes(75 * 70)
    lines = [b"LOAD r0 %d\n%s" % (len(picture), picture), b"ELEMENT b 1 0 11\nP1\n3 1\n111\n", CROSS]
    for n in range(1, 11):
        words = n, chance.choice(OPERATIONS), chance.randrange(n), chance.choice("bc")
        lines.append(("RUN r%d %s r%d %s\n" % words).encode())
        if chance.randrange(4) == 0:
            lines.append(("%s r%d\n" % (chance.choice(ABOUT), chance.randrange(n))).encode())
    return b"".join(lines + [b"FETCH r%d\n" % n for n in range(11)])


def scripts_by_several_workers(program):
    """A crew of any size writes over tiles of any side what the reference model writes."""
    for seed in (1, 2, 3):
        session = without_a_pattern(seed)
        output, status, _ = reference_model.served(session)
        must_be((status, len(output) > 10000), (0, True), "a session without a pattern")
        for workers, side in ((1, 1024), (1, 64), (2, 64), (4, 64), (7, 64), (7, 128)):
            left = ends.whole(program, session, ("--workers", str(workers), "--tile", str(side)))
            must_be(left, Left(0, output, b""), "session %d by %d workers over tiles of %d" % (seed, workers, side))


def gaps(side):
    """An element of which some pixels are missing, with its origin in the middle."""
    bitmap = b"P1\n%d %d\n" % (side, side) + b"".join(b"0" if n % 7 == 3 else b"1" for n in range(side * side))
    return b"ELEMENT d %d %d %d\n%s" % (side // 2, side // 2, len(bitmap), bitmap)


def ranks(side, times, element=33):
    """A picture of this side, and so many ranks of it, which take each worker some time, with the replies."""
    picture = b"P5\n%d %d\n255\n" % (side, side) + bytes(n % 251 for n in range(side * side))
    asked = "".join("RUN e%d RANK f d %d\nWAIT e%d\n" % (n, 300 + 10 * n, n) for n in range(times))
    session = b"LOAD f %d\n%s%s%sQUIT\n" % (len(picture), picture, gaps(element), asked.encode())
    replies = "".join("OK %d\nDONE %d GREY %d %d 255\n" % (n, n, side, side) for n in range(2, 2 + times))
    return session, b"OK 0\nOK 1\n" + replies.encode()


def threads_of_batch(program, words):
    """The most threads that a batch has until it ends."""
    session, wanted = ranks(256, 3)
    most, begun = 0, time.monotonic()
    with Talk(program, words) as talk:
        talk.send(session)
        while talk.run.poll() is None:
            most = max(most, len(os.listdir("/proc/%d/task" % talk.run.pid)))
            if time.monotonic() > begun + PATIENCE:
                raise Wrong("ranks were not made in %.0f s" % PATIENCE)
        must_be((talk.rest(), talk.end()), (wanted, (0, b"")), "ranks by %s" % " ".join(words))
    return most


BATCHES = ((("--workers", "4", "--tile", "64"), 4), (("--workers", "2", "--tile", "64"), 2), (("--workers", "4", "--tile", "256"), 1),
           (("--workers", "1", "--tile", "64"), 1))


def batch_has_its_workers_and_tiles(program):
    """It has so many threads. Of one tile workers make one task, which takes none beside them."""
    for words, wanted in BATCHES:
        must_be(threads_of_batch(program, words), wanted, "the threads of a batch %s" % " ".join(words))


def shared(picture, described, element, *works):
    """A session in which workers share these works, and its replies."""
    session = refused_memory.loaded(b"f", picture) + element + b"".join(b"RUN w%d %s\n" % (n, work) for n, work in enumerate(works))
    session += b"".join(b"STATUS w%d\n" % n for n in range(len(works))) + b"QUIT\n"
    replies = [b"OK %d\n" % n for n in range(2 + len(works))] + [b"DONE %d %s\n" % (2 + n, described) for n in range(len(works))]
    return session, b"".join(replies)


def samples(width, height, maxval):
    """Levels of one or of two bytes."""
    size = 1 if maxval < 256 else 2
    return b"P5\n%d %d\n%d\n" % (width, height, maxval) + bytes(range(250)) * (size * width * height // 250)


# What workers share, each with the side of its tiles, how many they are, and the fewest starts of threads. The last one has more tasks
# than two workers take at once, so the others are shared in a second wave.
SHARED = (
    (shared(samples(250, 250, 65535), b"GREY 250 250 65535", refused_memory.CROSS, b"ERODE f b"), 64, 4, 1),
    (shared(samples(250, 250, 255), b"GREY 250 250 255", refused_memory.square(b"b", 3), b"RANK f b 9"), 64, 4, 3),
    (shared(refused_memory.SET, b"BIT 260 200 1", refused_memory.sieve(b"b", 51), b"DILATE f b"), 64, 4, 1),
    (shared(samples(2000, 1000, 255), b"BIT 2000 1000 1", refused_memory.CROSS, b"THRESHOLD f 100"), 1024, 2, 1),
    (shared(samples(2000, 2000, 255), b"GREY 2000 2000 255", refused_memory.square(b"b", 3), b"RANK f b 1", b"RANK f b 5"), 64, 2, 2),
)


def work_of_each_kind_is_shared(program):
    """Threads are started for work that is worth it, and nothing is made twice: then more would be asked for. The starts are counted by a
    library that a C compiler makes; where there is none, nothing is looked at."""
    if not shutil.which("cc"):
        return
    refused_memory.built_refuser()
    with tempfile.TemporaryDirectory() as folder:
        for (session, replies), side, workers, least in SHARED:
            made, alone = (refused_memory.run(program, ["--tile", str(side), "--workers", str(it)], session, os.path.join(folder, "count"))
                           for it in (workers, 1))
            what = "work by %d workers in tiles of %d" % (workers, side)
            must_be((made.status, made.written, made.told), (0, replies, b""), what)
            must_be((alone.status, alone.written, alone.starts), (0, replies, 0), what + ", by one worker")
            if made.starts < least or made.calls > 1.2 * alone.calls + 200:
                raise Wrong("%s starts %d threads in the place of %d, and asks for memory %d times beside %d by one worker"
                            % (what, made.starts, least, made.calls, alone.calls))


def strict_sessions(program):
    """With `--strict` a refused request makes the status 3 in the place of 0."""
    for session, output, status in ((ERODE, OUTPUT, 0), (b"STATUS x\nload\n", b"ERR 41 UNKNOWN\nERR 10 LINE\n", 1),
                                    (ERODE + b"STATUS x\nSTATUS e\n", OUTPUT + b"ERR 41 UNKNOWN\nDONE 2 GREY 5 1 9\n", 3)):
        left = ends.whole(program, session, ("--strict", *ALONE))
        must_leave(left, output, status, "a strict batch of %r" % session[-30:])


CASES = (worked_sessions_are_the_models, worked_sessions_in_pieces, lines_that_are_none, lines_that_end_a_session, a_bad_line_stays_bad,
         every_prefix_of_a_session, a_reader_that_fails_anywhere, a_reader_that_cannot_be_read, a_reader_that_is_interrupted,
         a_writer_that_fails_anywhere, a_writer_that_takes_nothing, a_writer_that_takes_parts, as_many_entries_as_there_may_be,
         quit_stops_reading, each_answer_comes_before_the_next_read, a_thousand_lines_at_once, scripts_by_several_workers,
         batch_has_its_workers_and_tiles, work_of_each_kind_is_shared, strict_sessions)
