"""Chooses the cases of stored.txt: short ones of every kind, those of the open points and the bench lines."""

import jythons
import kinds
import limits
import points

SEED = 2026
LONGEST, LONGEST_SHEET = 80, 200
# How many of each kind; of limit, batch and jython the fixed lists are gone through first.
QUOTAS = [("program", 80), ("literal", 60), ("utf8", 30), ("mutated", 40), ("sheet", 4),
          ("python", 30), ("short", 20)]


def some(name, quota):
    """The first short ones of a kind."""
    longest = LONGEST_SHEET if name == "sheet" else LONGEST
    found, n = [], len(points.LITERALS) if name == "literal" else 0
    while len(found) < quota:
        data = kinds.case(SEED, name, n)
        n += 1
        if len(data) <= longest and data not in found:
            found.append(data)
    return [(name, data) for data in found]


def short_limits():
    """Without the values' families, whose answers are long however short the pickle."""
    found = [maker(n) for name, maker, n in limits.FIXED if not name.startswith("values")]
    return [("limit", data) for data in found if len(data) <= LONGEST]


def short_batches():
    """Those of 0 to 4 items; the large ones are never short."""
    found = [kinds.case(SEED, "batch", n) for n in range(200)]
    return [("batch", data) for data in found if len(data) <= 20]


def short_jythons():
    """Every eighth, which mixes modules, protocols and values."""
    found = [data for _, data in jythons.LIST if len(data) <= LONGEST]
    return [("jython", data) for data in found[::8]]


def chosen():
    """(kind, pickle) in the order of stored.txt, each pickle once."""
    cases = [("bench", data) for data in points.BENCH]
    cases += [("point", data) for _, data in points.POINTS if len(data) <= LONGEST]
    for name, quota in QUOTAS:
        cases += some(name, quota)
    cases += short_limits() + short_batches() + short_jythons()
    seen, once = set(), []
    for kind, data in cases:
        if data not in seen:
            seen.add(data)
            once.append((kind, data))
    return once
