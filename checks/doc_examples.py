"""Replays the examples of the documents, for checks/docs.py: the requests and replies of docs/PROTOCOL.md, and the scripts of
README.md and docs/COOKBOOK.md with what they print.

They go to the built program where it is there, and else to the model of checks/reference_model.py.
"""
import collections
import os
import re
import stat
import subprocess
import sys
import tempfile

import reference_model

ROOT = os.path.dirname(os.path.dirname(os.path.realpath(__file__)))
PROGRAM = f"{ROOT}/crates/morphd/out/morphd"
PROTOCOL, SCRIPTED = "docs/PROTOCOL.md", ("README.md", "docs/COOKBOOK.md")
# What the examples of docs/PROTOCOL.md stand behind.
F, B, G, X = b"P2\n5 1\n9\n3 1 4 1 5\n", b"P1\n3 1\n111\n", b"P1\n3 1\n100\n", b"P1\n2 1\n10"
STAND_IN = """#!{python}
import sys
sys.path.insert(0, {folder!r})
sys.dont_write_bytecode = True
import reference_model
import quick_sets
quick_sets.install()
if sys.argv[1:] != ["batch"]:
    sys.exit("the model serves `morphd batch` alone")
output, status, _ = reference_model.served(sys.stdin.buffer.read())
sys.stdout.buffer.write(output)
sys.exit(status)
"""
# Such a line needs ImageMagick, and a picture that the user has.
CONVERT = "convert mine.png "
# A block between fences: its language, its text, and the line of its first fence.
Block = collections.namedtuple("Block", "language text line end")
# Of each kind of example at least so many have to be found, so that none gets lost unseen.
LEAST = {"requests": 13, "replies": 11, "refusals": 24, "limits": 9, "files": 4, "sessions": 1, "scripts": 8}


def line_at(text, at):
    return text.count("\n", 0, at) + 1


def fenced(text):
    for found in re.finditer(r"^```(\w*)\n(.*?)^```$", text, re.MULTILINE | re.DOTALL):
        yield Block(found[1], found[2], line_at(text, found.start()), found.end())


def unescaped(text):
    """The bytes that a text stands for, in which \\n is an LF and \\7 the byte of value 7."""
    parts = re.split(r"\\(n|\d{1,3})", text.replace("\\|", "|"))
    out = b""
    for at, part in enumerate(parts):
        out += part.encode() if at % 2 == 0 else b"\n" if part == "n" else bytes([int(part)])
    return out


def payload(line, data):
    return line + b" %d\n" % len(data) + data


PRELUDE = payload(b"LOAD f", F) + payload(b"ELEMENT b 1 0", B)


def served(session):
    """What the program writes, or the model where no program is built."""
    if os.path.exists(PROGRAM):
        return subprocess.run([PROGRAM, "batch"], input=session, stdout=subprocess.PIPE, stderr=subprocess.DEVNULL).stdout
    return reference_model.served(session)[0]


def rows(text, heading, width):
    """The cells of the rows of the table below a heading, each with its line."""
    start = text.find(f"\n## {heading}\n") + 1
    for number, line in enumerate(text[start:].split("\n")[1:], line_at(text, start) + 1):
        if line.startswith("## "):
            return
        cells = [it.strip() for it in re.split(r"(?<!\\)\|", line)[1:-1]]
        if len(cells) == width and not set(cells[0]) <= set("- :"):
            yield number, cells


def requests_in(example):
    """The bytes of requests that stand one after another between backticks, and of a reply behind a colon, if there is one."""
    codes = re.findall(r"`([^`]*)`", example)
    told = re.fullmatch(r"(.*): `([^`]*)`", example.strip(), re.DOTALL)
    codes, reply = (codes[:-1], unescaped(codes[-1])) if told else (codes, None)
    session, wanted = b"", 0
    for code in codes:
        part = unescaped(code)
        if wanted:
            part = (part + b"\n")[:wanted] if len(part) < wanted else part
            session, wanted = session + part, 0
        else:
            session += part + b"\n"
            words = part.split()
            wanted = int(words[-1]) if words[:1] in ([b"LOAD"], [b"ELEMENT"]) and words[-1].isdigit() else 0
    return session, reply


def is_plain(example):
    """Whether an example is requests between backticks and nothing else."""
    return bool(re.fullmatch(r"(`[^`]*`)(, `[^`]*`)*(: `[^`]*`)?", example.strip()))


def last_reply(session):
    """What the last request of a session is answered, behind the prelude."""
    before, written = served(PRELUDE + session[:cut_last(session)]), served(PRELUDE + session)
    return written[len(before):] if written.startswith(before) else written


def cut_last(session):
    """Where the last request of a session begins."""
    at = last = 0
    while at < len(session):
        last, end = at, session.find(b"\n", at) + 1 or len(session)
        words = session[at:end].split()
        size = int(words[-1]) if words[:1] in ([b"LOAD"], [b"ELEMENT"]) and words[-1].isdigit() else 0
        at = end + size
    return last


# ---- the tables of docs/PROTOCOL.md


def of_requests(text):
    """Each line of the table is one: it is not answered by ERR 10."""
    prelude = PRELUDE + payload(b"ELEMENT g 0 0", G) + payload(b"LOAD x", X)
    for line, (_, _, example) in rows(text, "Lines", 3):
        session, _ = requests_in(example)
        if not session:
            continue
        yield line, None
        if b"ERR 10" in served(prelude + session):
            yield line, f"{example} is refused as no line"
    operations = {cells[0].split()[2] for _, cells in rows(text, "Lines", 3) if cells[0].startswith("`RUN ")}
    if operations != set(reference_model.OPERATIONS):
        yield 1, f"the table of lines has the operations {sorted(operations)}"


def of_replies(text):
    for line, (_, _, cell) in rows(text, "Replies", 3):
        for example in cell.split("; "):
            if not is_plain(example):
                continue
            session, reply = requests_in(example)
            # A script works before it answers.
            if reply is None or reply.startswith(b"PENDING"):
                continue
            yield line, None
            if last_reply(session).rstrip(b"\n") != reply.rstrip(b"\n"):
                yield line, f"{example} is answered {last_reply(session)!r}"


def of_refusals(text):
    for line, (number, word, _, cell) in rows(text, "Refusals", 4):
        wanted = f"ERR {number} {word.strip('`')}\n".encode()
        for example in cell.split("; "):
            session, _ = requests_in(example)
            if number == "12":
                session = session.rstrip(b"\n")
            if number in ("48", "50", "52") or not session:
                continue
            yield line, None
            if last_reply(session) != wanted:
                yield line, f"{example} is answered {last_reply(session)!r}, and not {wanted!r}"


def of_limits(text):
    for line, (_, _, cell) in rows(text, "Limits", 3):
        for example in cell.split("; "):
            if not is_plain(example):
                continue
            session, reply = requests_in(example)
            if reply is None:
                continue
            yield line, None
            if last_reply(session).rstrip(b"\n") != reply:
                yield line, f"{example} is answered {last_reply(session)!r}"


def of_files(text):
    """Each example of a file is read, and a raw one is what FETCH hands out again."""
    for line, (magic, _, example) in rows(text, "Files", 3):
        if not example.startswith("`P"):
            continue
        file = unescaped(example.strip("`"))
        yield line, None
        written = served(payload(b"LOAD x", file) + b"FETCH x\n")
        raw = magic in ("`P4`", "`P5`")
        if not written.startswith(b"OK 0\nIMAGE 0 ") or raw and not written.endswith(b" %d\n" % len(file) + file):
            yield line, f"{example} is answered {written!r}"


def of_sessions(text):
    """A block of requests, behind which a block of what is written stands."""
    blocks = list(fenced(text))
    for first, second in zip(blocks, blocks[1:]):
        if not first.language and first.text.startswith("LOAD "):
            yield first.line, None
            written = served(first.text.encode())
            if written != unescaped(second.text.rstrip("\n")):
                yield second.line, f"the session of line {first.line} is answered {written!r}"
    for block in blocks:
        if block.text.startswith("RUN "):
            yield from of_client(block)


def of_client(block):
    """What a client sends stands on the left, and what it reads on the right."""
    pairs = [re.split(r" {2,}", line, maxsplit=1) for line in block.text.splitlines()]
    session = b"".join(it[0].encode() + b"\n" for it in pairs)
    lines = re.findall(rb"^(?:OK|DONE|IMAGE) .*$", served(PRELUDE + session)[len(b"OK 0\nOK 1\n"):], re.MULTILINE)
    told = [it[1] for it in pairs if it[1:]]
    for number, (line, reply) in enumerate(zip(told, lines), block.line + 1):
        if reply.decode() not in line:
            yield number, f"a client reads {reply.decode()!r} there"


def of_statuses(text):
    """Commands that end by a fault, where the program is built: their status and what they tell."""
    where = {**os.environ, "PATH": f"{os.path.dirname(PROGRAM)}:{os.environ['PATH']}"}
    for line, (status, _, told, example) in rows(text, "Faults and exit statuses", 4):
        command = re.fullmatch(r"`([^`]*morphd[^`]*)`", example)
        if not os.path.exists(PROGRAM) or not command:
            continue
        words = command[1].replace("\\|", "|")
        if "ulimit" in words or words.startswith("(") or "session" in words.split():
            continue
        yield line, None
        how = {"stdin": subprocess.DEVNULL, "capture_output": True, "timeout": 20, "check": False}
        ran = subprocess.run(["bash", "-c", words], env=where, **how)
        told = re.fullmatch(r"`([^`]*)`", told)
        if ran.returncode != int(status) or told and ran.stderr.decode().strip() != told[1]:
            yield line, f"{words} ends with {ran.returncode} and tells {ran.stderr.decode().strip()!r}"


# ---- scripts


def laid_out(room):
    """Makes a folder in which a script finds the examples and the program, or the model in its place."""
    os.makedirs(f"{room}/crates/morphd/out")
    os.symlink(f"{ROOT}/examples", f"{room}/examples")
    program = f"{room}/crates/morphd/out/morphd"
    if os.path.exists(PROGRAM):
        os.symlink(PROGRAM, program)
        return
    with open(program, "w", encoding="utf-8") as file:
        file.write(STAND_IN.format(python=sys.executable, folder=f"{ROOT}/checks"))
    os.chmod(program, os.stat(program).st_mode | stat.S_IXUSR)


def printed(words, text, room):
    """What a script prints, and what is wrong with its run, if anything is."""
    there = {**os.environ, "PYTHONDONTWRITEBYTECODE": "1"}
    ran = subprocess.run([*words, text], cwd=room, env=there, capture_output=True, timeout=120, check=False)
    fault = ran.stderr.decode(errors="replace").strip() or (f"status {ran.returncode}" if ran.returncode else "")
    return ran.stdout.decode(errors="replace"), fault


def of_scripts(text):
    """Each script of shell or Python runs; where a block without a language follows, that is what it prints."""
    with tempfile.TemporaryDirectory() as room:
        laid_out(room)
        for block in fenced(text):
            # What takes the Python package is run by its own tests.
            if (block.language in ("sh", "python") or block.text.startswith(CONVERT)) and "import morphd" not in block.text:
                yield block.line, None
                how = [sys.executable, "-c"] if block.language == "python" else ["bash", "-euo", "pipefail", "-c"]
                output, fault = printed(how, given_picture(block.text, room), room)
                is_followed = text[block.end:].lstrip().startswith("```")
                behind = next((it for it in fenced(text) if is_followed and it.line > block.line), None)
                wanted = behind.text if behind and not behind.language else None
                if fault:
                    yield block.line, f"the script ends with: {fault}"
                elif wanted is not None and wanted != output:
                    yield behind.line, f"the script prints:\n{output}"
        yield from made(text, room)


def given_picture(text, room):
    """A script without its first line, where that converts a picture of the user's; that of discs takes its place."""
    if not text.startswith(CONVERT):
        return text
    with open(f"{ROOT}/examples/discs.pgm", "rb") as discs, open(f"{room}/mine.pgm", "wb") as mine:
        mine.write(discs.read())
    return text.partition("\n")[2]


def made(text, room):
    """What the scripts of README.md leave behind: an erosion by 3 x 3."""
    if "eroded.pgm" not in text or not os.path.exists(f"{room}/eroded.pgm"):
        return
    with open(f"{ROOT}/examples/grains.pgm", "rb") as file:
        image = reference_model.image_in(file.read())
    eroded = reference_model.erosion(image, [(dx, dy) for dy in (-1, 0, 1) for dx in (-1, 0, 1)])
    with open(f"{room}/eroded.pgm", "rb") as file:
        if file.read() != reference_model.image_text(eroded):
            yield line_at(text, text.index("eroded.pgm")), "eroded.pgm is not the erosion of the picture"


KINDS = {"requests": of_requests, "replies": of_replies, "refusals": of_refusals, "limits": of_limits, "files": of_files,
         "sessions": of_sessions, "statuses": of_statuses}


def faults(texts, _tree):
    """The faults of all examples of these documents; a kind of which too few are found is one, too."""
    counts, found = collections.Counter(), []
    if PROTOCOL in texts:
        found += [(PROTOCOL, kind, it) for kind, check in KINDS.items() for it in check(texts[PROTOCOL])]
    for name in SCRIPTED:
        if name in texts:
            found += [(name, "scripts", it) for it in of_scripts(texts[name])]
    for name, kind, (line, what) in found:
        counts[kind] += what is None
        if what:
            yield name, line, what
    if {PROTOCOL, *SCRIPTED} <= set(texts):
        for kind, least in LEAST.items():
            if counts[kind] < least:
                yield PROTOCOL if kind != "scripts" else SCRIPTED[1], 1, f"only {counts[kind]} examples of {kind} were found"
