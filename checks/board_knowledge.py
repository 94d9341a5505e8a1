"""What a client of a server knows of the entries there, and which replies may come to what it asks for, when others work
on the same board. The values are those of checks/reference_model.py.

A name that no other client uses has one history, but for when its work is done. A name that others use too may at any time
be accepted, cancelled or released by them. So of each entry a set is kept of how it may stand; a reply that fits none of
these is refused, and each reply narrows it.
"""
import threading

import reference_model

ABSENT, PENDING, DONE, CANCELLED, FAILED, RELEASED = "ABSENT", "PENDING", "DONE", "CANCELLED", "FAILED", "RELEASED"
DEAD = {CANCELLED, FAILED}
REFUSALS = {code: ("ERR %d %s\n" % (code, word)).encode() for code, word in reference_model.WORDS.items()}


class Differs(Exception):
    """A reply that no server gives which does what the documents say."""


def unless(holds, request, reply, why):
    if not holds:
        raise Differs("%s: to %r came %r" % (why, request[:80], tuple(part[:80] for part in reply)))


class Definition:
    """What a name stands for: how it is asked for, its shape, the definitions that it reads, and its value, made when it is
    first looked at."""

    def __init__(self, name, request, shape, reads, make):
        self.name, self.request, self.shape, self.reads, self.make = name, request, shape, reads, make
        self.made, self.lock = None, threading.Lock()

    def value(self):
        with self.lock:
            if self.made is None:
                self.made = self.make()
            return self.made

    def text(self):
        """The bytes that a FETCH hands out."""
        is_curve = self.shape[0] == "CURVE"
        return reference_model.curve_text(self.value()) if is_curve else reference_model.image_text(self.value())


def image(name, payload):
    """The definition that a LOAD makes, or the code that refuses its payload."""
    f = reference_model.image_in(payload)
    return Definition(name, b"LOAD %s %d\n" % (name.encode(), len(payload)) + payload, tuple(f[:4]), (), lambda: f)


def element(name, payload, ox, oy):
    b = reference_model.element_in(payload, ox, oy)
    line = b"ELEMENT %s %d %d %d\n" % (name.encode(), ox, oy, len(payload))
    return Definition(name, line + payload, ("ELEMENT", b.width, b.height), (), lambda: b)


def command(name, operation, reads, numbers):
    """The definition that a RUN makes of the definitions that it reads. Its shape and value mean something only where the
    command is accepted."""
    words = ["RUN", name, operation, *(it.name for it in reads), *map(str, numbers)]
    shape = reference_model.shape_after(operation, reads[0].shape, numbers[0] if numbers else None) if len(reads[0].shape) == 4 else None

    def make():
        elements = [it.value().offsets for it in reads[1:]]
        return reference_model.OPERATIONS[operation][2](reads[0].value(), *elements, *numbers)
    made = Definition(name, " ".join(words).encode() + b"\n", shape, tuple(reads), make)
    made.operation, made.numbers = operation, numbers
    return made


class Tickets:
    """Which ticket each name has, as any client has seen it: one a name, and no two names have the same."""

    def __init__(self):
        self.by_name, self.by_ticket, self.lock = {}, {}, threading.Lock()

    def agree(self, name, ticket):
        with self.lock:
            return self.by_name.setdefault(name, ticket) == ticket and self.by_ticket.setdefault(ticket, name) == name


class Entry:
    """How the entry of a definition may stand, as far as one client knows."""

    def __init__(self, what, reads, is_shared):
        self.what, self.reads, self.is_shared, self.may = what, reads, is_shared, {ABSENT}

    def is_given(self):
        """It was loaded, and so is done at once."""
        return not self.reads

    def may_be(self):
        """How it may stand by now, when others and the workers have gone on."""
        may = set(self.may)
        if self.is_shared and ABSENT in may:
            may |= {DONE, RELEASED} if self.is_given() else {PENDING, RELEASED}
        if PENDING in may:
            inputs = [it.may_be() for it in self.reads]
            if any(it <= DEAD for it in inputs):
                may -= {PENDING, DONE}
                may |= {FAILED}
            else:
                may |= {DONE} | ({FAILED} if any(it & DEAD for it in inputs) else set())
            may |= {CANCELLED} if self.is_shared else set()
        if self.is_shared and DONE in may:
            may.add(RELEASED)
        return may

    def narrow(self, may):
        """It stands, or stood at that time, in one of these ways."""
        self.may = self.may_be() & may

    def must_have_been(self, may):
        self.narrow(may)
        if self.may <= {DONE, RELEASED}:
            # What is done was made of what was done.
            for it in self.reads:
                if it.may_be() & {DONE, RELEASED}:
                    it.narrow({DONE, RELEASED})


class Judge:
    """Holds the replies to one client against what it knows."""

    def __init__(self, tickets):
        self.tickets, self.images, self.curves, self.accepted = tickets, 0, 0, 0

    def has_ticket(self, entry, ticket):
        return ticket.isdigit() and self.tickets.agree(entry.what.name, int(ticket))

    def is_ok(self, entry, request, reply):
        """Whether the reply is OK with the entry's ticket; any other OK is none."""
        words = reply[0].split()
        if words[:1] != [b"OK"]:
            return False
        ticket = b"".join(words[1:2])
        unless(reply == (b"OK %s\n" % ticket, b"") and self.has_ticket(entry, ticket), request, reply, "another ticket")
        return True

    def refused(self, codes, request, reply):
        """The code that the reply refuses the request by, which is one of these."""
        code = next((code for code in codes if reply == (REFUSALS[code], b"")), None)
        unless(code is not None, request, reply, "not one of %s" % sorted(codes))
        return code

    def made(self, entry, reply):
        """What comes to a request that makes this entry."""
        request, may = entry.what.request, entry.may_be()
        is_taken = may - {ABSENT}
        codes, is_accepted = ({40} if is_taken else set()), ABSENT in may
        if is_accepted and entry.reads:
            more, is_accepted = refusals_of(entry)
            codes |= more
        if self.is_ok(entry, request, reply):
            unless(is_accepted, request, reply, "accepted")
            self.accepted += 1
            entry.may = {DONE} if entry.is_given() else {PENDING}
            for it in entry.reads:
                it.narrow({PENDING, DONE})
        elif self.refused(codes, request, reply) == 40:
            entry.narrow(may - {ABSENT})

    def looked_at(self, entry, word, reply):
        """What comes to a STATUS, WAIT or FETCH."""
        request, may = b"%s %s\n" % (word, entry.what.name.encode()), entry.may_be()
        if reply[0].startswith(b"ERR"):
            is_element = entry.what.shape[:1] == ("ELEMENT",)
            codes = ({41} if ABSENT in may else set()) | ({42} if word == b"FETCH" and is_element else set())
            entry.narrow({ABSENT} if self.refused(codes, request, reply) == 41 else may - {ABSENT})
            return
        seen, words = self.outcome(entry, word, request, reply), reply[0].split()
        unless(seen in may, request, reply, "it may be %s" % sorted(may))
        unless(seen != PENDING or word != b"WAIT", request, reply, "waited for")
        unless(self.has_ticket(entry, words[1]), request, reply, "another ticket")
        entry.must_have_been({seen})

    def outcome(self, entry, word, request, reply):
        """How the entry stands by this reply, all of which is looked at but the ticket."""
        words, what = reply[0].split(), entry.what
        if len(words) > 1 and words[0] in (b"IMAGE", b"CURVE"):
            self.is_value(entry, word, request, reply)
            return DONE
        lines = {PENDING: b"PENDING %s\n", CANCELLED: b"CANCELLED %s\n", RELEASED: b"RELEASED %s\n"}
        if word != b"FETCH":
            lines[DONE] = b"DONE %s " + " ".join(map(str, what.shape)).encode() + b"\n"
        if entry.reads and words[:1] == [b"FAILED"]:
            # Images alone die, and a command reads one.
            unless(self.has_ticket(entry.reads[0], words[-1]), request, reply, "another cause")
            entry.reads[0].narrow(DEAD)
            lines[FAILED] = b"FAILED %s INPUT " + words[-1] + b"\n"
        seen = next((it for it, line in lines.items() if len(words) > 1 and reply == (line % words[1], b"")), None)
        unless(seen is not None, request, reply, "no reply")
        return seen

    def is_value(self, entry, word, request, reply):
        """A value that is handed out is that of the definition."""
        is_curve, text = entry.what.shape[0] == "CURVE", entry.what.text()
        unless(word == b"FETCH" and DONE in entry.may_be(), request, reply, "handed out")
        line = b"%s %s %d\n" % (b"CURVE" if is_curve else b"IMAGE", reply[0].split()[1], len(text))
        unless(reply == (line, text), request, reply, "another value than %r" % text[:80])
        if is_curve:
            self.curves += 1
        else:
            self.images += 1

    def cancelled(self, entry, reply):
        request, may = b"CANCEL %s\n" % entry.what.name.encode(), entry.may_be()
        if self.is_ok(entry, request, reply):
            unless(PENDING in may, request, reply, "it may be %s" % sorted(may))
            entry.may = {CANCELLED}
            return
        codes = ({41} if ABSENT in may else set()) | ({49} if may - {ABSENT, PENDING} else set())
        entry.narrow({ABSENT} if self.refused(codes, request, reply) == 41 else may - {ABSENT, PENDING})

    def released(self, entry, reply):
        request, may = b"RELEASE %s\n" % entry.what.name.encode(), entry.may_be()
        if self.is_ok(entry, request, reply):
            unless(DONE in may, request, reply, "it may be %s" % sorted(may))
            entry.must_have_been({DONE})
            entry.may = {RELEASED}
            return
        cases = {41: {ABSENT}, 52: {PENDING}, 43: DEAD, 51: {RELEASED}}
        code = self.refused([code for code, those in cases.items() if may & those], request, reply)
        entry.narrow(cases[code])


def refusals_of(entry):
    """The codes that may refuse a command whose name is free, and whether it may be accepted."""
    codes, what = set(), entry.what
    for k, it in enumerate(entry.reads):
        may = it.may_be()
        codes |= {41} if ABSENT in may else set()
        if not may - {ABSENT}:
            return codes, False
        if (it.what.shape[0] == "ELEMENT") != (k > 0) or it.what.shape[0] == "CURVE":
            return codes | {42}, False
        codes |= ({43} if may & DEAD else set()) | ({51} if RELEASED in may else set())
        if not may & {PENDING, DONE}:
            return codes, False
    try:
        elements = [it.what.value() for it in entry.reads[1:]]
        reference_model.check_arguments(what.operation, entry.reads[0].what.shape, elements, what.numbers[0] if what.numbers else None)
    except reference_model.Refused as refused:
        return codes | {refused.code}, False
    return codes, True
