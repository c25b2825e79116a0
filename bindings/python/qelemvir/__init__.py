"""Reads pickles of Python 2 (protocols 0 to 2) as plain data, by code that is proved to meet its contract: it ends on every input,
refuses with exact numbers, and never lets sharing show. Nothing is imported, and no class is called.

    value = qelemvir.loads(data)        # or Refused, or Unholdable
    table = qelemvir.read(data)         # the same as a table of records: table.list(), table.to_bytes(), table < other
    sheets, last = qelemvir.read_many(night)    # many at once: what was made of each, and the table of the last that was read
"""

from .refused import Refused
from .table import Record, Sheet, Table, read, read_many, read_prefix
from .values import Global, Object, Unholdable

__all__ = ["Global", "Object", "Record", "Refused", "Sheet", "Table", "Unholdable", "loads", "loads_prefix", "read", "read_many",
           "read_prefix"]


def loads(data, plain=False):
    """The value that the bytes are, with none left over. `plain`: of plain data only; an opcode that names, calls or fills a class,
    and the text PUT and GET, are Refused with OutsideProfile."""
    return read(data, plain).value()


def loads_prefix(data, plain=False):
    """The value at the start of the bytes, and how many of them it took. `plain` as for loads."""
    table, length = read_prefix(data, plain)
    return table.value(), length
