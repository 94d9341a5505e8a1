"""Erosions and dilations of sets for checks/reference_model.py, a row of pixels as one number, so that examples take seconds.

`install` puts them in the place of the plain ones; python/tests/test_examples.py holds both beside one another.
"""
import reference_model

plain_erosion, plain_dilation = reference_model.erosion, reference_model.dilation


def rows_of(samples, width):
    """A number for each row, in which the leftmost pixel is the lowest bit."""
    return [int("".join(map(str, reversed(samples[at:at + width]))), 2) for at in range(0, len(samples), width)]


def dilated(rows, width, b):
    """The rows of a dilation; nothing stands outside the frame."""
    made, all_of_row = [0] * len(rows), (1 << width) - 1
    for dx, dy in b:
        for y in range(max(0, -dy), min(len(rows), len(rows) - dy)):
            made[y] |= rows[y + dy] >> dx if dx >= 0 else rows[y + dy] << -dx & all_of_row
    return made


def samples_of(rows, width):
    return [row >> x & 1 for row in rows for x in range(width)]


def dilation(f, b):
    if f.kind != "BIT":
        return plain_dilation(f, b)
    return f._replace(samples=samples_of(dilated(rows_of(f.samples, f.width), f.width, b), f.width))


def erosion(f, b):
    """What no pixel beside the set meets."""
    if f.kind != "BIT":
        return plain_erosion(f, b)
    beside = rows_of([1 - sample for sample in f.samples], f.width)
    return f._replace(samples=[1 - sample for sample in samples_of(dilated(beside, f.width, b), f.width)])


def install():
    reference_model.erosion, reference_model.dilation = erosion, dilation
