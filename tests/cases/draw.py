"""Random draws that are the same on every Python: only Random.random() is used.

A case has a stream of its own, made from the seed, the number of its kind and its number within the kind.
"""

import random


class Draw:
    """A stream of draws for one case."""

    def __init__(self, seed, kind, number):
        self.seed = seed
        self.random = random.Random((seed << 64) + (kind << 48) + number).random

    def below(self, n):
        return int(self.random() * n)

    def between(self, low, high):
        return low + int(self.random() * (high - low + 1))

    def chance(self, p):
        return self.random() < p

    def pick(self, items):
        return items[int(self.random() * len(items))]

    def bytes(self, n):
        r = self.random
        return bytes([int(r() * 256) for _ in range(n)])

    def small(self, high):
        """0 to high, small numbers far more often."""
        return int(self.random() * self.random() * (high + 1))

    def shuffled(self, items):
        items = list(items)
        for i in range(len(items) - 1, 0, -1):
            j = self.below(i + 1)
            items[i], items[j] = items[j], items[i]
        return items
