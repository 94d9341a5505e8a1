"""A mutator of sessions for AFL++ (AFL_PYTHON_MODULE=corpus_mutator, PYTHONPATH=checks). A session stays one behind most of its changes:
requests are put in, left out, moved, doubled and taken from another session, payloads are changed under a length that is told anew, and
words are changed for others of the protocol or of the session. AFL++ flips bits and splices beside it, which makes what is no session.
"""
import random
import re

import random_session

WORD_AND_LENGTH = re.compile(rb"(LOAD|ELEMENT) (?:[^\n]* )?([0-9]{1,9})\Z")
OPERATIONS = (b"ERODE", b"DILATE", b"OPEN", b"CLOSE", b"GRADIENT", b"WTOPHAT", b"BTOPHAT", b"RANK", b"THRESHOLD", b"HITMISS", b"SKELETON",
              b"RESTORE", b"SPECTRUM")
REQUESTS = (b"LOAD", b"ELEMENT", b"RUN", b"CANCEL", b"RELEASE", b"STATUS", b"WAIT", b"FETCH", b"QUIT")
NUMBERS = (b"0", b"1", b"2", b"3", b"7", b"8", b"15", b"16", b"31", b"32", b"33", b"63", b"64", b"65", b"127", b"128", b"129", b"254", b"255", b"256",
           b"65535", b"65536", b"8192", b"8193", b"134217729", b"999999999", b"1000000000", b"00", b"01")
BYTES = b"0123456789 \n\t\r#Px\xff\x00\x80\x01a-_"
# How many requests a session may have, which the plain model has to follow.
MOST = 40
chance = random.Random()


class Small(random_session.Writer):
    """Small pictures, of which some lie over a seam of tiles."""

    def frame(self):
        return self.chance.choice(((66, 2), (2, 66))) if self.chance.randrange(12) == 0 else (self.chance.randint(1, 9), self.chance.randint(1, 9))


def init(seed):
    chance.seed(seed)


def deinit():
    """Nothing is held."""


def parted(data):
    """The requests of a session: each its line, and its payload or None. What is no request any more is a line of its own."""
    parts, at = [], 0
    while at < len(data):
        end = data.find(b"\n", at)
        end = len(data) if end < 0 else end
        line, payload = bytes(data[at:end]), None
        at = end + 1
        found = WORD_AND_LENGTH.match(line)
        if found:
            size = int(found[2])
            payload = bytes(data[at:at + size])
            at += size
        parts.append([line, payload])
    return parts


def joined(parts):
    """The session of such requests, each with the length that its payload has."""
    written = []
    for line, payload in parts:
        if payload is not None:
            # One in so many keeps the length that is wrong.
            line = line if chance.randrange(40) == 0 else b"%s%d" % (line[:line.rfind(b" ") + 1], len(payload))
        written += [line, b"\n", payload or b""]
    return b"".join(written)


def changed(payload):
    """A few bytes of it otherwise."""
    payload = bytearray(payload)
    for _ in range(chance.choice((1, 1, 1, 2, 4))):
        at, kind = chance.randrange(len(payload) + 1), chance.randrange(7)
        if kind == 0:
            payload[at:at + 1] = bytes([chance.choice(BYTES)])
        elif kind == 1:
            payload[at:at] = bytes([chance.choice(BYTES)])
        elif kind == 2:
            del payload[at:at + chance.choice((1, 1, 2, 9))]
        elif kind == 3:
            numbers = list(re.finditer(rb"[0-9]+", bytes(payload[:80])))
            if numbers:
                one = chance.choice(numbers)
                payload[one.start():one.end()] = chance.choice(NUMBERS)
        elif kind == 4:
            payload[1:2] = chance.choice((b"1", b"2", b"4", b"5"))
        elif kind == 5 and payload:
            first = chance.randrange(len(payload))
            payload[at:at] = payload[first:first + chance.choice((1, 3, 16, 60))]
        elif at < len(payload):
            payload[at] ^= 1 << chance.randrange(8)
    return bytes(payload)


def names_of(parts):
    return [words[1] for words in (line.split(b" ") for line, _ in parts) if len(words) > 1 and words[0] in (b"LOAD", b"ELEMENT", b"RUN")] or [b"f"]


def another_word(line, parts):
    """One of its words for another one."""
    words = line.split(b" ")
    at = chance.randrange(len(words))
    if words[at].isdigit():
        words[at] = chance.choice(NUMBERS)
    elif words[at] in OPERATIONS:
        words[at] = chance.choice(OPERATIONS)
    elif words[at] in REQUESTS:
        words[at] = chance.choice(REQUESTS)
    else:
        words[at] = chance.choice([*names_of(parts), b"n%d" % chance.randrange(20)])
    return b" ".join(words)


def new_request(parts):
    """A request that the protocol has, about names of the session."""
    names, name = names_of(parts), b"n%d" % chance.randrange(100)
    kind = chance.randrange(8)
    if kind < 2:
        return [chance.choice((b"FETCH ", b"STATUS ", b"WAIT ", b"CANCEL ", b"RELEASE ")) + chance.choice(names), None]
    writer = Small(chance)
    if kind == 2:
        return [b"LOAD %s 0" % name, writer.file()]
    if kind == 3:
        payload, x, y = writer.bitmap()
        return [b"ELEMENT %s %d %d 0" % (name, x, y), payload]
    operation = chance.choice(list(random_session.reference_model.OPERATIONS.items()))
    elements, numbers, _ = operation[1]
    words = [b"RUN", name, operation[0].encode(), *(chance.choice(names) for _ in range(1 + elements))]
    return [b" ".join([*words, *(b"%d" % writer.number(operation[0]) for _ in range(numbers))]), None]


def change(parts, others):
    at, kind = chance.randrange(len(parts) + 1), chance.randrange(9)
    one = parts[at] if at < len(parts) else None
    if kind < 2:
        parts.insert(at, new_request(parts))
    elif kind == 2 and one:
        del parts[at]
    elif kind == 3 and one:
        parts.insert(chance.randrange(len(parts)), parts.pop(at))
    elif kind == 4 and others:
        first = chance.randrange(len(others))
        parts[at:at] = others[first:first + chance.choice((1, 1, 2, 5))]
    elif kind == 5 and one:
        parts[at] = [another_word(one[0], parts), one[1]]
    else:
        loads = [k for k, it in enumerate(parts) if it[1] is not None]
        if loads:
            k = chance.choice(loads)
            parts[k] = [parts[k][0], changed(parts[k][1])]


def fuzz(data, other, most):
    parts, others = parted(data), parted(other) if other else []
    for _ in range(chance.choice((1, 1, 2, 3, 6))):
        change(parts, others)
    # AFL++ takes no empty session.
    return bytearray(joined(parts[:MOST])[:most] or b"\n")
