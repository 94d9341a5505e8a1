"""Sessions at full size, each with what `morphd batch` has to write. Nothing here is made by the program: what comes out is known
in closed form, or by checks/reference_model.py. The samples of the largest frames rise with each column and each row, so an erosion
by a full square shows at each place the sample of its upper left corner.
"""
import reference_model

SQUARE = b"P1\n3 3\n111\n111\n111\n"
BAR = b"ELEMENT b 1 0 11\nP1\n3 1\n111\n"
# Columns, rows and maxval.
BYTES, WORDS = (4096, 4096, 255), (8192, 2048, 65535)
MOST = reference_model.MOST_ENTRIES


def with_bytes(line, payload):
    """A line that ends with the length of what follows it."""
    return b"%s %d\n" % (line, len(payload)) + payload


# ---- the largest frames


def frame_file(frame, back):
    """The raw file of a frame, or of what it shows so many columns to the left and rows above."""
    width, height, maxval = frame
    if maxval > 255:
        levels = [k.to_bytes(2, "big") for k in range(width + height)]
    else:
        levels = [bytes([min(k // 32, maxval)]) for k in range(width + height)]
    size, ramp = len(levels[0]), b"".join(levels)
    rows = []
    for y in range(height):
        begin = max(y - back, 0)
        rows += [levels[begin] * back, ramp[size * begin:size * (begin + width - back)]]
    return b"P5\n%d %d\n%d\n" % frame + b"".join(rows)


def eroded_frame(frame):
    """A frame is loaded, eroded and handed out."""
    data = with_bytes(b"LOAD f", frame_file(frame, 0)) + with_bytes(b"ELEMENT b 1 1", SQUARE) + b"RUN e ERODE f b\nFETCH e\n"
    return data, b"OK 0\nOK 1\nOK 2\n" + with_bytes(b"IMAGE 2", frame_file(frame, 1))


def volume(n):
    """That of a row of 4,096 rising samples behind n erosions and dilations: its last 127 n samples are those of the place before
    them."""
    last = 4095 - 127 * n
    return sum(min(x, last) for x in range(4096))


def wide_spectrum():
    """The last erosions see so far that the window of a tile is the frame."""
    row = b"P5\n4096 1\n65535\n" + b"".join(x.to_bytes(2, "big") for x in range(4096))
    data = with_bytes(b"LOAD f", row) + with_bytes(b"ELEMENT b 127 0", b"P1\n255 1\n" + b"1" * 255)
    curve = reference_model.curve_text([volume(n) for n in range(33)])
    return data + b"RUN q SPECTRUM f b 32\nFETCH q\n", b"OK 0\nOK 1\nOK 2\n" + with_bytes(b"CURVE 2", curve)


# ---- tiles of each side


def by_the_model(*lines):
    """A row of 2,000 samples with a dark one in the middle, a bar, and these lines. The reference model tells what comes."""
    samples = bytearray(b"\x09" * 2000)
    samples[1000] = 0
    data = with_bytes(b"LOAD f", b"P5\n2000 1\n9\n" + bytes(samples)) + BAR + b"".join(lines)
    return data, reference_model.served(data)[0]


def one_erosion():
    return by_the_model(b"RUN e ERODE f b\nFETCH e\nQUIT\n")


def rows():
    """Every flat operation on the row."""
    words = (b"ERODE f b", b"DILATE f b", b"OPEN f b", b"CLOSE f b", b"GRADIENT f b", b"WTOPHAT f b", b"BTOPHAT f b", b"RANK f b 2")
    return by_the_model(*[b"RUN r%d %s\nFETCH r%d\n" % (k, word, k) for k, word in enumerate(words)])


def sets():
    return by_the_model(b"RUN x THRESHOLD f 5\nRUN e ERODE x b\nRUN o DILATE e b\nFETCH x\nFETCH e\nFETCH o\n")


def skeletons():
    """What one erosion leaves, the set that it gives back, and the pixels without one at their left."""
    return by_the_model(b"RUN x THRESHOLD f 4\nRUN s SKELETON x b 1\nRUN r RESTORE s b 1\nELEMENT c 0 0 8\nP1\n1 1\n1ELEMENT g 1 0 9\n"
                        b"P1\n2 1\n10RUN h HITMISS x c g\nRUN q SPECTRUM x b 2\nFETCH s\nFETCH r\nFETCH h\nFETCH q\n")


# ---- many requests, entries and bytes


def many_requests():
    """More items than 1,000,000 in the log."""
    return b"STATUS x\n" * 1000001, b"ERR 41 UNKNOWN\n" * 1000001


def full_table(more, told):
    """As many entries as there may be, all of them pending at once, one that finds no place, and these lines more."""
    data = b"LOAD f 11\nP2\n1 1\n9\n5\nELEMENT b 0 0 8\nP1\n1 1\n1"
    data += b"".join(b"RUN n%d ERODE f b\n" % n for n in range(2, MOST)) + b"RUN more ERODE f b\n" + more
    return data, b"".join(b"OK %d\n" % n for n in range(MOST)) + b"ERR 48 FULL\n" + told


def all_done():
    some = (2, 8191, 32768, MOST - 1)
    more = b"LOAD f 0\nLOAD more 0\nELEMENT more 0 0 0\n" + b"".join(b"STATUS n%d\n" % n for n in some)
    told = b"ERR 40 NAME_TAKEN\n" + b"ERR 48 FULL\n" * 2
    return full_table(more, told + b"".join(b"DONE %d GREY 1 1 9\n" % n for n in some))


def all_cancelled():
    """Each of them alone. With a pass over all entries in each CANCEL that would take minutes in a build without optimisation."""
    cancels, some = range(2, MOST), (2, 8191, 32768, MOST - 1)
    return full_table(b"".join(b"CANCEL n%d\n" % n for n in cancels) + b"".join(b"STATUS n%d\n" % n for n in some),
                      b"".join(b"OK %d\n" % n for n in cancels) + b"".join(b"CANCELLED %d\n" % n for n in some))


def longest_payload(line, front, told):
    """A payload as long as may be is refused for what is in it, and the session goes on."""
    size = reference_model.LONGEST_PAYLOAD
    data = b"%s %d\n" % (line, size) + front + bytes(size - len(front)) + b"LOAD f 11\nP2\n1 1\n9\n5\nSTATUS x\nSTATUS f\n"
    return data, told + b"OK 0\nERR 41 UNKNOWN\nDONE 0 GREY 1 1 9\n"


def longest_image():
    return longest_payload(b"LOAD x", b"P5\n4096 4096\n255\n", b"ERR 26 TRAILING\n")


def longest_element():
    return longest_payload(b"ELEMENT x 0 0", b"P1\n2 2\n11", b"ERR 25 SAMPLE\n")


def erosion_of(frame):
    return lambda: eroded_frame(frame)


# The name of a case, what makes its session and output, and the sides of tiles by which it is run.
CASES = (
    ("bytes_of_the_largest_square", erosion_of(BYTES), (64, 512, 1024)),
    ("words_of_the_longest_rows", erosion_of(WORDS), (128, 256, 1024)),
    ("a_window_is_a_frame_of_4096_columns", wide_spectrum, (1024,)),
    ("tiles_of_each_side", one_erosion, tuple(64 * k for k in range(1, 17))),
    ("rows_by_the_greatest_tiles", rows, (1024,)),
    ("sets_by_the_greatest_tiles", sets, (1024,)),
    ("skeletons_by_the_greatest_tiles", skeletons, (1024,)),
    ("a_session_of_1_000_001_requests", many_requests, (128,)),
    ("all_entries_are_pending_at_once", all_done, (128,)),
    ("all_of_a_full_table_are_cancelled", all_cancelled, (128,)),
    ("the_longest_image_is_read", longest_image, (128,)),
    ("the_longest_element_is_read", longest_element, (128,)),
)
