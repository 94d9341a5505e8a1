"""What the tests of the command line share: pictures, and how a line is run."""
import numpy as np
import pytest

import morphd
from morphd.__main__ import main


@pytest.fixture
def grains(tmp_path):
    rng = np.random.default_rng(1)
    image = rng.integers(0, 256, (9, 12)).astype(np.uint8)
    morphd.write(tmp_path / "grains.pgm", image)
    morphd.write(tmp_path / "mask.pbm", image > 100)
    morphd.write(tmp_path / "camera.pgm", image.astype(np.uint16) * 16, 4095)
    return image


def run(folder, line):
    """Runs a command line in this process, with paths in a folder."""
    words = [f"{folder}/{word[1:]}" if word.startswith("@") else word for word in line.split()]
    return main(words)
