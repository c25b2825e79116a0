"""From the records of a table to Python's own values. Nothing is imported, and no class is called."""

from dataclasses import dataclass
from typing import Any


@dataclass(frozen=True)
class Global:
    """A class or function that a pickle names. It is only the name."""

    module: str
    name: str


@dataclass(frozen=True)
class Object:
    """An object that a pickle describes: its class by name, the arguments of its making, whether that was by `__new__`, and its
    state. Where `has_state` is false there was none, and `state` is None. It can be hashed if what it holds can."""

    module: str
    name: str
    args: tuple
    new: bool
    state: Any
    has_state: bool


class Unholdable(Exception):
    """Python cannot hold the value without loss: a key or item that it cannot hash, or that it takes as equal to an earlier one.
    `record` is the key's or item's number in the table, from 0, and so its line in the listing."""

    def __init__(self, record, why):
        super().__init__(record, why)
        self.record = record
        self.why = why

    def __str__(self):
        return "record %d %s" % (self.record, self.why)


def build(records):
    """The value of a table's records."""
    return Builder(records).value()


class Builder:
    def __init__(self, records):
        self.records = iter(records)
        self.taken = 0

    def value(self):
        """The value of the next record and all that it holds."""
        _, kind, content = next(self.records)
        self.taken += 1
        if kind == "list":
            return self.values(content)
        if kind == "tuple":
            return tuple(self.values(content))
        if kind == "set":
            return self.items(content)
        if kind == "frozenset":
            return frozenset(self.items(content))
        if kind == "dict":
            return self.entries(content)
        if kind == "global":
            return Global(*content)
        if kind == "object":
            return self.object(*content)
        return content

    def values(self, count):
        return [self.value() for _ in range(count)]

    def items(self, count):
        items = set()
        for _ in range(count):
            items.add(self.key(items))
        return items

    def entries(self, count):
        entries = {}
        for _ in range(count):
            key = self.key(entries)
            entries[key] = self.value()
        return entries

    def key(self, earlier):
        """The next value, as a key or item beside these earlier ones."""
        number = self.taken
        key = self.value()
        try:
            hash(key)
        except TypeError:
            raise Unholdable(number, "is a key or item that Python cannot hash") from None
        if key in earlier:
            raise Unholdable(number, "is a key or item that Python takes as equal to an earlier one")
        return key

    def object(self, module, name, new, has_state):
        args = self.value()
        return Object(module, name, args, new, self.value() if has_state else None, has_state)
