"""Where the arrays stand that checks lend to libmorphd: in Python's memory, or against a page that nobody may touch, so that a read
or a write past an end stops the process at once.
"""
import ctypes
import mmap
import os
import signal

# What stands in an array for results before a call, and how many such samples stand on both sides of one in Python's memory.
UNTOUCHED, MARGIN = 0xA5, 3
PAGE = mmap.PAGESIZE
NO_ACCESS, READ_AND_WRITE = 0, mmap.PROT_READ | mmap.PROT_WRITE
LIBC = ctypes.CDLL(None, use_errno=True)
LIBC.mprotect.argtypes = ctypes.c_void_p, ctypes.c_size_t, ctypes.c_int


def untouched(kind, count):
    """So many places of a type with what stands there before a call."""
    return (kind * count).from_buffer_copy(bytes(kind(UNTOUCHED)) * count)


class Results:
    """An array for results: what a call is given, and all that can be looked at afterwards."""

    def __init__(self, lent, whole, has_margins):
        self.lent, self.whole, self.has_margins = lent, whole, has_margins

    def seen(self):
        """The places, with what stands on both sides of them. Where nobody can write there, they are as they were."""
        margin = [] if self.has_margins else [UNTOUCHED] * MARGIN
        return [*margin, *self.whole, *margin]


class Memory:
    """Arrays in Python's memory."""

    def array(self, kind, samples):
        """An array of samples; it has one place more, so that it is never empty."""
        return (kind * (len(samples) + 1))(*samples)

    def results(self, kind, count):
        whole = untouched(kind, count + 2 * MARGIN)
        inner = ctypes.cast(ctypes.byref(whole, MARGIN * ctypes.sizeof(kind)), ctypes.POINTER(kind))
        return Results(inner, whole, True)


class Fenced:
    """Arrays in pages of their own, between two pages that may be neither read nor written: each ends before the second of
    them, or begins behind the first."""

    def __init__(self, at_end):
        self.at_end = at_end

    def places(self, kind, count):
        size = count * ctypes.sizeof(kind)
        inside = -(-size // PAGE) * PAGE
        pages = mmap.mmap(-1, inside + 2 * PAGE, mmap.MAP_PRIVATE | mmap.MAP_ANONYMOUS, READ_AND_WRITE)
        begin = ctypes.addressof(ctypes.c_char.from_buffer(pages))
        for fence in (begin, begin + PAGE + inside):
            if LIBC.mprotect(fence, PAGE, NO_ACCESS):
                raise OSError(ctypes.get_errno(), "mprotect")
        return (kind * count).from_buffer(pages, PAGE + (inside - size if self.at_end else 0))

    def array(self, kind, samples):
        lent = self.places(kind, len(samples))
        lent[:] = samples
        return lent

    def results(self, kind, count):
        lent = self.places(kind, count)
        ctypes.memmove(lent, untouched(kind, count), count * ctypes.sizeof(kind))
        return Results(lent, lent, False)


MEMORY, BEFORE_A_FENCE, BEHIND_A_FENCE = Memory(), Fenced(True), Fenced(False)
ALL = MEMORY, BEFORE_A_FENCE, BEHIND_A_FENCE


def stops(address):
    """Whether a process that reads a byte there is stopped."""
    child = os.fork()
    if not child:
        ctypes.string_at(address, 1)
        os._exit(0)
    _, status = os.waitpid(child, 0)
    return os.WIFSIGNALED(status) and os.WTERMSIG(status) == signal.SIGSEGV


def fences_stop():
    """Whether a read of one byte past the fenced end of an array is stopped, and a read of the byte there is not."""
    for count in (0, 1, 5, PAGE, PAGE + 1):
        end = BEFORE_A_FENCE.array(ctypes.c_uint8, [7] * count)
        begin = BEHIND_A_FENCE.array(ctypes.c_uint8, [7] * count)
        behind, before = ctypes.addressof(end) + count, ctypes.addressof(begin) - 1
        if not (stops(behind) and stops(before)) or count and (stops(behind - 1) or stops(before + 1)):
            return False
    return True
