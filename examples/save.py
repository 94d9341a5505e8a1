#!/usr/bin/env python3
"""Saves the images and curves of a session's replies, in order, under the names that are given.

    morphd batch < SESSION | python3 examples/save.py opened.pgm sizes.curve

Where a reply is a refusal, or there are fewer images and curves than names, it says so, with status 1.
"""
import argparse
import sys

from curve import replies


def main():
    parser = argparse.ArgumentParser(description="Saves the images and curves of a session's replies, which are the standard input.")
    parser.add_argument("names", metavar="FILE", nargs="*", help="where each is saved, in order")
    names = parser.parse_args().names
    found = []
    for words, data in replies(sys.stdin.buffer.read()):
        if words[0] == "ERR":
            sys.exit("the session was refused: " + " ".join(words))
        if words[0] in ("IMAGE", "CURVE"):
            found.append(data)
    if len(found) != len(names):
        sys.exit(f"the replies hold {len(found)} images and curves, and not {len(names)}")
    for name, data in zip(names, found):
        with open(name, "wb") as file:
            file.write(data)


if __name__ == "__main__":
    main()
