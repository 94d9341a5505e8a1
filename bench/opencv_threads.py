#!/usr/bin/env python3
"""Prints OpenCV's times of one command of `bench/workers.py` by 1 and by 4 of its own threads, as a row of that table.

    python3 bench/opencv_threads.py PICTURE NAME

The picture is a raw PGM in a file. Run it with a Python that has cv2 (Debian: python3-opencv). Each time is the best of
five runs on an image in memory. Of a command that OpenCV does not have, nothing is printed.
"""
import sys
import time

import cv2
import numpy

ROUNDS = 5
THREADS = (1, 4)


def disc(across):
    radius = across // 2
    y, x = numpy.mgrid[-radius : radius + 1, -radius : radius + 1]
    return (x * x + y * y <= radius * radius).astype(numpy.uint8)


def erosion(image):
    return cv2.erode(image, numpy.ones((15, 15), numpy.uint8))


def opening(image):
    return cv2.morphologyEx(image, cv2.MORPH_OPEN, disc(15))


def median(image):
    return cv2.medianBlur(image, 15)


CALLS = {
    "erosion by 15 x 15": erosion,
    "opening by a disc of 15": opening,
    "rank of 15 x 15, the median": median,
}


def best(call, image):
    """The least of several times, in milliseconds."""
    times = []
    for _ in range(ROUNDS):
        begun = time.perf_counter()
        call(image)
        times.append(time.perf_counter() - begun)
    return 1000 * min(times)


def main():
    picture, name = sys.argv[1:]
    if name not in CALLS:
        return
    image = cv2.imread(picture, cv2.IMREAD_UNCHANGED)
    times = []
    for threads in THREADS:
        cv2.setNumThreads(threads)
        times.append(best(CALLS[name], image))
    print("| %s, OpenCV %s | whole | %.1f | | %.2f | | | | |"
          % (name, cv2.__version__, times[0], times[1] / times[0]))


if __name__ == "__main__":
    main()
