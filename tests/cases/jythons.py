"""The stored pickles that Jython 2.7 wrote: jython.txt, made by jython_make.py."""

import os

PATH = os.path.join(os.path.dirname(os.path.abspath(__file__)), "jython.txt")


def stored():
    """(name, pickle) a line; none where the file isn't there."""
    if not os.path.exists(PATH):
        return []
    with open(PATH) as file:
        lines = [line.rstrip("\n").split("\t") for line in file if not line.startswith("#")]
    return [(name, bytes.fromhex(data)) for name, data in lines]


LIST = stored()


def jython_case(d, n):
    return LIST[n % len(LIST)][1] if LIST else b"N."
