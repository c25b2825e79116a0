"""The file stored.txt: kind, pickle in hex, expected answer, and the Rust's or = where it is the same."""

import os

import ask

PATH = os.path.join(os.path.dirname(os.path.abspath(__file__)), "stored.txt")


def answered(cases):
    """(kind, pickle, expected, rust) of (kind, pickle), from the two programs."""
    pickles = [data for _, data in cases]
    rows = zip(cases, ask.expected(pickles), ask.rust(pickles))
    return [(kind, data, expect, rust) for (kind, data), expect, rust in rows]


def line(row):
    kind, data, expect, rust = row
    return "\t".join([kind, ask.hexed(data), expect, "=" if rust == expect else rust]) + "\n"


def read():
    """The rows of stored.txt; ValueError if a line has another form."""
    rows = []
    with open(PATH) as file:
        for text in file:
            kind, data, expect, rust = text.rstrip("\n").split("\t")
            data = b"" if data == "-" else bytes.fromhex(data)
            rows.append((kind, data, expect, expect if rust == "=" else rust))
    return rows
