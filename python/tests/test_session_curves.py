"""Curves of sessions: by lists of footprints, and what is doubtful about them."""
import numpy as np
import pytest

import morphd
from morphd.curves import measured

GRAINS = np.zeros((12, 22), bool)
GRAINS[2:5, 2:5] = GRAINS[2:9, 8:15] = GRAINS[4, 16:20] = True


def test_lists_of_footprints(program):
    family = [morphd.square(2), morphd.disk(2), morphd.square(7)]
    with morphd.Session(program=program) as session:
        handle = session.spectrum(GRAINS, family)
        assert handle.result() == measured(GRAINS, family).volumes.tolist()
        curve = handle.spectrum("0.65um", 60)
        assert curve == measured(GRAINS, family, pixel="0.65um") and curve.gains is None and (curve.frame, curve.cut) == (264, 0)
        levels = GRAINS.astype(np.uint8) * 7
        assert session.spectrum(levels, family, 3).spectrum() == measured(levels, family)
        with pytest.raises(ValueError, match="leave it out"):
            session.spectrum(GRAINS, family, 2)
        with pytest.raises(ValueError, match="footprints of a list grow"):
            session.spectrum(GRAINS, family[::-1])
        with pytest.raises(TypeError, match="sizes"):
            session.spectrum(GRAINS, family[0])


@pytest.mark.parametrize("image, line", [
    (np.zeros((4, 4), bool), "the set is empty"), (~GRAINS, "the set covers 7.% of the frame"), (GRAINS[4:], "grains that the frame cuts"),
    (GRAINS | np.pad(np.ones((7, 7), bool), ((3, 2), (13, 2))), "9.% is left over")])
def test_what_is_doubtful(program, image, line):
    with morphd.Session(program=program) as session, pytest.warns(UserWarning, match=line) as met:
        curve = session.spectrum(image, morphd.square(3), 3).spectrum()
    assert met[0].filename == __file__ and curve.doubts == measured(image, morphd.square(3), 3).doubts


def test_a_curve_without_a_doubt(program, recwarn):
    with morphd.Session(program=program) as session:
        curve = session.spectrum(GRAINS, morphd.square(3), 5).spectrum()
    assert curve == measured(GRAINS, morphd.square(3), 5) and not recwarn.list
