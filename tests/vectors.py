"""Reads the fixed list of the oracle's answers (vectors/README.md has its form)."""
import collections
import pathlib

MAGIC = b"KRCVEC02"

# of each export, by its number: its name, and how many slices it reads, numbers it takes, slices it writes, numbers it leaves behind its answer
Shape = collections.namedtuple("Shape", "name reads takes writes leaves")
EXPORTS = [
    Shape("pack_sheet", 1, 1, 0, 3),
    Shape("pack_lower", 2, 1, 1, 1),
    Shape("pack_totals", 2, 0, 0, 3),
    Shape("to_edition2", 1, 0, 1, 1),
    Shape("to_edition1", 1, 0, 1, 1),
]


class Reader:
    def __init__(self, data):
        self.data, self.at = data, 0

    def byte(self):
        self.at += 1
        return self.data[self.at - 1]

    def take(self, n):
        self.at += n
        return self.data[self.at - n:self.at]

    def varint(self):
        value, shift = 0, 0
        while True:
            b = self.byte()
            value |= (b & 127) << shift
            shift += 7
            if b < 128:
                return value

    def cell(self):
        z = self.varint()
        return (z >> 1) ^ -(z & 1)

    def slice(self):
        """Cells, and a torn cell's bytes, as bytes."""
        cells = [self.cell() for _ in range(self.varint())]
        whole = b"".join((c % (1 << 64)).to_bytes(8, "little") for c in cells)
        return whole + self.take(self.byte())


class Case:
    def __init__(self, r, index):
        self.index = index
        self.tables, self.sheet = r.slice(), r.slice()
        self.out_len = r.varint()
        self.number, self.place = r.varint(), r.varint()
        count = self.place if self.number == 0 else 0
        self.records = [[r.cell() for _ in range(8)] for _ in range(count)]
        self.faults = [r.varint() for _ in range(r.varint())]


class Call:
    """A call of another export. `writes` has the bytes lent, their first bytes before, and their first bytes afterwards."""

    def __init__(self, r, index):
        self.index = index
        shape = EXPORTS[r.varint()]
        self.name = shape.name
        self.reads = [r.slice() for _ in range(shape.reads)]
        self.takes = [r.varint() for _ in range(shape.takes)]
        lent = [(r.varint(), r.slice()) for _ in range(shape.writes)]
        self.answers = [r.varint() for _ in range(1 + shape.leaves)]
        self.writes = [(length, before, r.slice()) for length, before in lent]


def load_all(path):
    """The cases and the calls of a file."""
    r = Reader(pathlib.Path(path).read_bytes())
    if r.take(8) != MAGIC:
        raise SystemExit(f"{path}: not a list of answers")
    cases = [Case(r, k) for k in range(r.varint())]
    calls = [Call(r, k) for k in range(r.varint())]
    if r.at != len(r.data):
        raise SystemExit(f"{path}: bytes are left over")
    return cases, calls


def load(path):
    return load_all(path)[0]


def calls(path):
    return load_all(path)[1]
