#!/usr/bin/env python3
"""Times the Python package beside OpenCV, SciPy and scikit-image, on one thread and on four, and what it adds to the library.

    python3 bench/python.py [SIDE..]        sides of the pictures; 1024 and 4096 if left out
    python3 bench/python.py opencv [SIDE..] the same beside OpenCV alone, in a few minutes
    python3 bench/python.py floods [SIDE..] watersheds and touching grains alone

Each time is the best of five runs or more in milliseconds, taken by turns in one process; gains of four workers are told beside what
four threads are worth at that moment. The pictures are of real shape: soft discs of many sizes on a slanted ground with noise. A
peer whose first run takes longer than 10 s is run once. It needs a built library; peers that are missing are left out, and so are
those that have no such operation.
"""
import os
import statistics
import sys
import time

ROOT = os.path.dirname(os.path.dirname(os.path.realpath(__file__)))
sys.path.insert(0, f"{ROOT}/python")
try:
    import numpy as np
except ImportError as missing:
    sys.exit(f"no times of the Python package: {missing} (Debian: apt install python3-numpy)")

import morphd  # noqa: E402
from morphd import _arrays, _calls, _library, _threads, geodesics  # noqa: E402

# Rounds at least, and for how many seconds short runs go on: a machine that others share is slow for some of them.
ROUNDS, SECONDS, LONGEST = 5, 0.5, 10.0
# Where four threads gain so much, they have four cores, or nearly.
CORES, GAIN_ROUNDS = 3.0, 10


def optional(name):
    try:
        return __import__(name, fromlist=["x"])
    except ImportError:
        print(f"{name} is missing, and left out", file=sys.stderr)
        return None


WORDS = ("opencv", "floods")
cv2, ndimage, skimage, segmentation = optional("cv2"), None, None, None
if "opencv" not in sys.argv:
    ndimage, skimage, segmentation = optional("scipy.ndimage"), optional("skimage.morphology"), optional("skimage.segmentation")


def picture(side):
    """Soft discs on a slanted ground with a few hundredths of noise, in 16 bits."""
    rng = np.random.default_rng(1)
    y, x = np.mgrid[:side, :side].astype(np.float32)
    held = 0.2 + 0.2 * x / side + 0.02 * rng.standard_normal((side, side), np.float32)
    for cy, cx, r in zip(*rng.integers(0, side, (2, side // 4)), rng.integers(3, 40, side // 4)):
        rows, columns = slice(max(cy - r, 0), cy + r + 1), slice(max(cx - r, 0), cx + r + 1)
        inside = (y[rows, columns] - cy) ** 2 + (x[rows, columns] - cx) ** 2 <= r * r
        held[rows, columns] = np.where(inside, held[rows, columns] + 0.4, held[rows, columns])
    return (held.clip(0, 1) * 65535).astype(np.uint16)


def jobs(image):
    """A name, what the package does with so many workers, and what the peers do where they have it."""
    kernels = {"disc of 5": morphd.disk(2), "disc of 15": morphd.disk(7), "disc of 31": morphd.disk(15), "3 x 3": morphd.square(3),
               "15 x 15": morphd.square(15), "line of 41": morphd.line(41, 45)}
    asked = [("erosion", "3 x 3"), ("erosion", "15 x 15"), ("erosion", "disc of 5"), ("erosion", "disc of 15"), ("erosion", "disc of 31"),
             ("opening", "disc of 15"), ("opening", "line of 41"), ("white_tophat", "disc of 31"), ("gradient", "3 x 3")]
    for name, kernel in asked:
        yield f"{name}, {kernel}", *flat(name, image, kernels[kernel])
    if image.dtype != bool:
        for side in (3, 5, 15):
            yield f"median, {side} x {side}", *median(image, side)
        return
    cross = morphd.diamond(1)
    yield "skeleton of 50 levels by a cross", (lambda workers: morphd.skeleton(image, cross, 50, workers=workers)), {}
    yield "spectrum of 16 sizes, disc of 5", (lambda workers: morphd.spectrum(image, kernels["disc of 5"], 16, workers=workers)), {}
    corner = [[0, 0, 0], [0, 1, 1], [0, 1, 0]]
    yield "hit-or-miss of a corner", (lambda workers: morphd.hit_or_miss(image, corner, workers=workers)), \
        {} if ndimage is None else {"SciPy": lambda: ndimage.binary_hit_or_miss(image, np.array(corner))}
    noise = np.random.default_rng(2).integers(0, 2, image.shape, np.uint8).astype(bool)
    yield "labels, areas and boxes, discs", *components(image)
    yield "labels, areas and boxes, noise of 50 %", *components(noise)


def components(mask):
    """What the library tells of a set's components, on which a table's other columns stand, and what the peers tell."""
    peers, held, field = {}, mask.astype(np.uint8), geodesics.as_set(mask, "components")
    if cv2 is not None:
        peers["OpenCV"] = lambda: cv2.connectedComponentsWithStats(held, connectivity=8)
    if ndimage is not None:
        peers["SciPy"] = lambda: ndimage.label(mask, np.ones((3, 3)))
    return (lambda workers: geodesics.regioned(field, morphd.square(3), workers)), peers


CV2 = {"erosion": "MORPH_ERODE", "opening": "MORPH_OPEN", "white_tophat": "MORPH_TOPHAT", "gradient": "MORPH_GRADIENT"}
SCIPY = {"erosion": "grey_erosion", "opening": "grey_opening", "white_tophat": "white_tophat", "gradient": "morphological_gradient"}


def flat(name, image, b):
    """An operator, and the same of the peers."""
    bits, peers = b.bitmap, {}
    if cv2 is not None:
        held = image.astype(np.uint8) if image.dtype == bool else image
        peers["OpenCV"] = lambda: cv2.morphologyEx(held, getattr(cv2, CV2[name]), bits.astype(np.uint8))
    if ndimage is not None:
        if image.dtype != bool:
            peers["SciPy"] = lambda: getattr(ndimage, SCIPY[name])(image, footprint=bits)
        elif name in ("erosion", "opening"):
            peers["SciPy"] = lambda: getattr(ndimage, f"binary_{name}")(image, bits)
    if skimage is not None and hasattr(skimage, name):
        peers["scikit-image"] = lambda: getattr(skimage, name)(image, bits)
    return (lambda workers: getattr(morphd, name)(image, b, workers=workers)), peers


def median(image, side):
    b, peers = morphd.square(side), {}
    if cv2 is not None and (image.dtype == np.uint8 or side < 7):
        peers["OpenCV"] = lambda: cv2.medianBlur(image, side)
    if ndimage is not None:
        peers["SciPy"] = lambda: ndimage.median_filter(image, side)
    return (lambda workers: morphd.median(image, b, workers=workers)), peers


def timed(run, clock=time.perf_counter):
    begun = clock()
    run()
    return 1000 * (clock() - begun)


def best(runs, clock=time.perf_counter):
    """The best of each of several runs, taken by turns; one that takes too long is run once."""
    times = [timed(run, clock) for run in runs]
    begun, rounds = time.perf_counter(), 1
    while rounds < ROUNDS or time.perf_counter() - begun < SECONDS:
        times = [was if was > 1000 * LONGEST else min(was, timed(run, clock)) for was, run in zip(times, runs)]
        rounds += 1
    return times


def tell_jobs(side):
    print(f"\n{side} x {side}, milliseconds, best of {ROUNDS} or more\n")
    print("| job | samples | morphd, 1 | 4 | gain | OpenCV, 1 | 4 | SciPy | scikit-image |\n|---|---|---:|---:|---:|---:|---:|---:|---:|")
    levels = picture(side)
    for image in ((levels >> 8).astype(np.uint8), levels, levels > 30000):
        for name, ours, peers in jobs(image):
            found = dict(zip(("one", "four"), best([lambda: ours(1), lambda: ours(4)])))
            for threads, word in ((1, "OpenCV, 1"), (4, "OpenCV, 4")):
                if "OpenCV" in peers:
                    cv2.setNumThreads(threads)
                    found[word] = best([peers["OpenCV"]])[0]
            for word in ("SciPy", "scikit-image"):
                if word in peers:
                    found[word] = best([peers[word]])[0]
            cells = [f"{found[word]:.1f}" if word in found else "-" for word in ("OpenCV, 1", "OpenCV, 4", "SciPy", "scikit-image")]
            gain = found["one"] / found["four"]
            print(f"| {name} | {image.dtype} | {found['one']:.1f} | {found['four']:.1f} | {gain:.2f} | {' | '.join(cells)} |", flush=True)


def floods(side):
    """A name, its samples, what the package does in one thread, and the same of scikit-image: by the same markers, or by its own steps."""
    levels = picture(side)
    for image in ((levels >> 8).astype(np.uint8), levels):
        calm = morphd.median(image, morphd.square(5))
        edges = morphd.gradient(calm, morphd.square(3))
        h = 8 if image.dtype == np.uint8 else 2048
        markers = morphd.label(morphd.local_minima(morphd.hmin(edges, h)))
        yield "watershed of a gradient", image.dtype, lambda: morphd.watershed(edges, markers), lambda: segmentation.watershed(edges, markers)
        dots = np.zeros(image.shape, np.int32)
        dots[::64, ::64] = np.arange(1, dots[::64, ::64].size + 1).reshape(dots[::64, ::64].shape)
        yield "watershed of noise, a marker each 64", image.dtype, lambda: morphd.watershed(image, dots), \
            lambda: segmentation.watershed(image, dots)
    grains = levels > 30000
    far = morphd.distance(grains)
    middles = morphd.label(morphd.local_maxima(morphd.hmax((16 * far).astype(np.uint16), 16)))
    yield "watershed of distances in a set", far.dtype, lambda: morphd.watershed((-16 * far).astype(np.int32), middles, mask=grains), \
        lambda: segmentation.watershed(-far, middles, mask=grains)

    def split():
        own = ndimage.distance_transform_edt(grains)
        return segmentation.watershed(-own, ndimage.label(skimage.h_maxima(own, 1))[0], mask=grains)

    yield "split_grains, h = 1", grains.dtype, lambda: morphd.split_grains(grains), split


def tell_floods(side):
    print(f"\nWatersheds, {side} x {side}, one thread, milliseconds of the processor, best of {ROUNDS} or more\n")
    print("| job | samples | morphd | scikit-image |\n|---|---|---:|---:|")
    for name, dtype, ours, theirs in floods(side):
        runs = [ours] if segmentation is None or ndimage is None else [ours, theirs]
        print(f"| {name} | {dtype} | {' | '.join(f'{each:.0f}' for each in best(runs, time.process_time))} |", flush=True)


def tell_added(side):
    """What a call of the package takes beside the library's own call on the same samples."""
    image, b = (picture(max(side, 16))[:side, :side] >> 8).astype(np.uint8), morphd.square(3)
    field, out = _arrays.read(image, "erosion", None).field, np.empty_like(image)
    call, often = _calls.Flat(_library.ERODE, b), 200 if side < 1024 else 1

    def alone():
        for _ in range(often):
            call.ready(field, out)()

    def packed():
        for _ in range(often):
            morphd.erosion(image, b, out=out)

    own, whole, copy = best([alone, packed, lambda: np.copyto(out, image)])
    print(f"| {side} x {side} | {own / often:.4f} | {whole / often:.4f} | {(whole - own) / often:.4f} | {copy:.4f} |")


def small_medians():
    """Eight medians of small pictures by the library alone, by so many threads: each is in its core's own cache."""
    image = (picture(256) >> 8).astype(np.uint8)
    field, call = _arrays.read(image, "median", None).field, _calls.Flat(_library.RANK, morphd.square(15), 113)
    rooms = [np.empty_like(image) for _ in range(8)]
    return lambda threads: _threads.each(lambda out: call.ready(field, out)(), rooms, threads)


def least(run, rounds):
    return min(timed(run) for _ in range(rounds))


def gains(job, control):
    """A round: what four workers gain over one, and the least that four threads gained around it."""
    one, alone = least(lambda: job(1), 2), least(lambda: control(1), 2)
    before, four, behind = least(lambda: control(4), 3), least(lambda: job(4), 5), least(lambda: control(4), 3)
    return one / four, alone / max(before, behind)


def tell_gains(side):
    """What four workers gain, beside what four threads are worth in the same second: the host may run two of them on one core."""
    print(f"\nGains of four workers, {side} x {side}, 8 bits, by what four threads gained around them: medians of so many rounds\n")
    print(f"| job | {CORES} or more | rounds | less | rounds |\n|---|---:|---:|---:|---:|")
    image, control = (picture(side) >> 8).astype(np.uint8), small_medians()
    for name, ours, _ in jobs(image):
        if not name.startswith(("erosion, disc", "median")):
            continue
        found = [gains(ours, control) for _ in range(GAIN_ROUNDS)]
        cells = []
        for part in ([gain for gain, worth in found if worth >= CORES], [gain for gain, worth in found if worth < CORES]):
            cells += [f"{statistics.median(part):.2f}" if part else "-", str(len(part))]
        print(f"| {name} | {' | '.join(cells)} |", flush=True)


def main():
    try:
        _library.loaded()
    except morphd.LibraryMissing as missing:
        sys.exit(f"no times of the Python package: {missing}")
    words = sys.argv[1:]
    sides = [int(word) for word in words if word not in WORDS] or [1024, 4096]
    if "floods" in words:
        for side in sides:
            tell_floods(side)
        return
    print(f"The library runs for {morphd.library_build()}.\n")
    print("What the package adds to an erosion by 3 x 3, 8 bits, milliseconds\n")
    print("| picture | the library's call | morphd.erosion | more | one copy of the picture |\n|---|---:|---:|---:|---:|")
    for side in (16, 256, 1024, 4096):
        tell_added(side)
    tell_gains(4096)
    for side in sides:
        tell_jobs(side)
        if "opencv" not in words:
            tell_floods(side)


if __name__ == "__main__":
    main()
