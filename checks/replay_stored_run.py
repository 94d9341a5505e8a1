#!/usr/bin/env python3
"""Replays the run that the crate of morphd stores, which `rt ci` replays on what it proved, on any programs.

    python3 checks/replay_stored_run.py PROGRAM..
    python3 checks/replay_stored_run.py --test     replays it on stand-ins of which all but one go wrong, and sees that each is told
"""
import os
import subprocess
import sys
import tempfile

ROOT = os.path.dirname(os.path.dirname(os.path.realpath(__file__)))
STORED = f"{ROOT}/crates/morphd"
LONGEST = 120


def stored(name):
    if not os.path.isfile(f"{STORED}/{name}"):
        return b""
    with open(f"{STORED}/{name}", "rb") as file:
        return file.read()


def fault_of(program):
    """What a program does otherwise than it is stored, or None."""
    words = [program, *stored("args").decode().splitlines()]
    try:
        ran = subprocess.run(words, input=stored("stdin"), capture_output=True, timeout=LONGEST, check=False)
    except subprocess.TimeoutExpired:
        return f"it had not ended after {LONGEST} seconds"
    wanted, status = stored("stdout"), int(stored("status").strip() or 0)
    at = next((at for at, (a, b) in enumerate(zip(ran.stdout, wanted)) if a != b), min(len(ran.stdout), len(wanted)))
    if ran.stdout != wanted:
        return f"what it writes differs first at byte {at + 1}"
    return None if ran.returncode == status else f"it ends with status {ran.returncode}, and not {status}"


STAND_IN = """#!{python}
import sys
with open({wanted!r}, "rb") as file:
    wanted = file.read()
middle, kind = len(wanted) // 2, {kind!r}
made = {{"turned": wanted[:middle] + bytes([wanted[middle] ^ 1]) + wanted[middle + 1:], "short": wanted[:-1], "long": wanted + b"x"}}
sys.stdout.buffer.write(made.get(kind, wanted))
sys.exit({status} ^ (kind == "status"))
"""


def test():
    """Of a program that does what is stored, and of others."""
    status = int(stored("status").strip() or 0)
    with tempfile.TemporaryDirectory() as room:
        for kind in ("right", "turned", "short", "long", "status"):
            program = f"{room}/{kind}"
            with open(program, "w", encoding="utf-8") as file:
                file.write(STAND_IN.format(python=sys.executable, wanted=f"{STORED}/stdout", kind=kind, status=status))
            os.chmod(program, 0o755)
            if bool(fault_of(program)) == (kind == "right"):
                sys.exit(f"replay_stored_run.py: of a program that is {kind} it tells {fault_of(program)}")
    print("replay_stored_run.py: four programs that go wrong are told")


def main():
    programs = sys.argv[1:]
    if programs == ["--test"]:
        return test()
    if not programs:
        sys.exit(__doc__)
    faults = [f"{it}: {fault}" for it in programs if (fault := fault_of(it))]
    if faults:
        sys.exit("\n".join(faults))
    print(f"replay_stored_run.py: 1 stored session on {len(programs)} programs")


if __name__ == "__main__":
    main()
