"""What Python would lose of a value, told from the records alone and by rules written out, without Python's hashing."""

NUMBERS = ("bool", "int", "float")
SETS = ("set", "frozenset")


def first_lost(table):
    """The number of the first key or item that Python cannot hash or that it takes as equal to an earlier one, or None. Of one
    that is itself a container, what is in it comes first."""
    return Node(enumerate(table.records())).first_lost()


class Node:
    """A record with those that are directly in it."""

    def __init__(self, records):
        self.number, (_, self.kind, self.content) = next(records)
        self.parts = [Node(records) for _ in range(self.held())]

    def held(self):
        if self.kind in ("list", "tuple") + SETS:
            return self.content
        if self.kind == "dict":
            return 2 * self.content
        if self.kind == "object":
            return 1 + self.content[3]
        return 0

    def first_lost(self):
        for at, part in enumerate(self.parts):
            lost = part.first_lost()
            if lost is not None:
                return lost
            earlier = self.parts[:at] if self.kind in SETS else self.parts[:at:2]
            is_key = self.kind in SETS or (self.kind == "dict" and at % 2 == 0)
            if is_key and not (part.hashable() and not any(map(part.alike, earlier))):
                return part.number
        return None

    def hashable(self):
        return self.kind not in ("list", "dict", "set") and all(part.hashable() for part in self.parts)

    def alike(self, other):
        """Whether Python takes them as equal: numbers by their value, a NaN never, all else by kind and contents."""
        if self.kind in NUMBERS and other.kind in NUMBERS:
            return self.content == other.content
        if self.kind != other.kind or self.content != other.content:
            return False
        if self.kind == "frozenset":
            return all(any(map(part.alike, other.parts)) for part in self.parts)
        return len(self.parts) == len(other.parts) and all(map(Node.alike, self.parts, other.parts))
