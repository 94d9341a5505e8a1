"""What is doubtful about a curve, without NumPy."""
import random

import pytest
import windings

from morphd import doubts as module
from morphd.doubts import cut_area, doubts


def area(rows):
    return cut_area(bytes(sum(rows, [])), len(rows[0]))


def test_the_area_that_the_frame_cuts():
    rng = random.Random(1)
    for _ in range(600):
        width, height, many = rng.randrange(1, 12), rng.randrange(1, 12), rng.choice((0.1, 0.3, 0.5, 0.8, 1))
        rows = [[int(rng.random() < many) for _ in range(width)] for _ in range(height)]
        assert area(rows) == windings.cut_by_flooding(rows), rows


@pytest.mark.parametrize("side", [9, 20, 33])
def test_grains_that_wind_are_followed_to_their_ends(side):
    for rows in windings.all_of(side, random.Random(side)):
        assert area(rows) == windings.cut_by_flooding(rows) > side, rows


def runs_of(rows):
    return sum(sample and not before for row in rows for before, sample in zip([0, *row], row))


@pytest.mark.parametrize("side", [40, 81])
def test_each_run_is_met_once(side, monkeypatch):
    painted, paint = [], module._paint
    monkeypatch.setattr(module, "_paint", lambda *place: painted.append(place) or paint(*place))
    for rows in windings.all_of(side, random.Random(side)):
        painted.clear()
        is_whole = area(rows) == sum(map(sum, rows))
        assert len(painted) == runs_of(rows) if is_whole else len(painted) < runs_of(rows)


def test_nothing_is_met_of_grains_within(monkeypatch):
    rows = [[int(0 < x < 30 and 0 < y < 20 and x % 2) for x in range(32)] for y in range(22)]
    monkeypatch.setattr(module, "_paint", None)
    assert area(rows) == 0


@pytest.mark.parametrize("arguments, lines", [
    (([0, 0], 9, 0), ["the set is empty"]), (([0, 0], 9, 0, False), ["all samples are 0"]), (([0, 0],), ["the set is empty"]),
    (([5, 0], 10, 0), []), (([6, 0], 10, 6), ["the set covers 60% of the frame"]), (([5, 0], 10, 1), ["grains that the frame cuts, and what touches them, have 20.0%"]),
    (([60, 6], 200, 0), []), (([60, 7], 200, 0), ["12% is left over: grains wider"]),
    (([60, 7], 200, 5), ["grains that the frame cuts", "12% is left over"]), (([60, 7],), ["12% is left over"]),
    (([999, 99], 2, 0, False), []), (([999, 100], 2, 9, False), ["10% is left over: a ground"])])
def test_lines(arguments, lines):
    found = doubts(*arguments)
    assert len(found) == len(lines)
    assert all(line.startswith(wanted) and "\n" not in line for line, wanted in zip(found, lines))
