"""The greatest resident size of a session of `morphd batch`, for the checks that measure memory."""
import argparse
import os
import shutil
import subprocess
import time

# A request whose refusal ends the replies: its name is one that no session here has.
LAST, REFUSED = b"STATUS no-such-name\n", b"ERR 41 UNKNOWN\n"


def asked_for(what):
    """The program and the sides of tiles that the command line names."""
    words = argparse.ArgumentParser(description=what)
    words.add_argument("program")
    words.add_argument("--tile", type=int, nargs="+", default=[64, 128, 1024])
    given = words.parse_args()
    return os.path.abspath(given.program), given.tile


def ended(made):
    """Whether the last refusal has been written; the program must not have ended before."""
    if made.poll() is not None:
        raise SystemExit("%s ended with status %d" % (" ".join(made.args), made.returncode))
    with open("replies", "rb") as replies:
        size = replies.seek(0, 2)
        replies.seek(max(0, size - len(REFUSED)))
        return replies.read() == REFUSED


def greatest(process):
    """In MiB, of the program alone: what the system counts for a child begins with the size of this script."""
    with open("/proc/%d/status" % process) as status:
        line = next(it for it in status if it.startswith("VmHWM:"))
    return int(line.split()[1]) / 1024


def resident(program, tile):
    """The greatest resident size, in MiB, of the session in the file `session` by one worker; replies go to `replies`."""
    words = [program, "batch", "--tile", str(tile), "--workers", "1"]
    with open("replies", "wb") as replies, open("session", "rb") as asked:
        made = subprocess.Popen(words, stdin=subprocess.PIPE, stdout=replies)
        shutil.copyfileobj(asked, made.stdin, 1 << 20)
    made.stdin.write(LAST)
    made.stdin.flush()
    while not ended(made):
        time.sleep(0.01)
    size = greatest(made.pid)
    made.stdin.close()
    if made.wait():
        raise SystemExit("%s ended with status %d" % (" ".join(words), made.returncode))
    return size
