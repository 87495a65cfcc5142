"""Writes the fuzzer's finds as cases without answers, for the oracle's fixed list: collect.py FOLDER OUT.

FOLDER has what `target/fuzz/lower -merge=1 -use_counters=0 COPY target/fuzz/corpus/lower` adds to a copy of target/fuzz/seeds/lower. OUT is oracle/src/cases/fuzzed.bin:
a count, then tables, sheet and the number of record bytes of each, in the compact form of vectors/README.md; the cases that it has are kept. Cut-off inputs are
read as the driver reads them.
"""
import pathlib
import sys

from seeds import slice_of, varint

MOST_BYTES = 1 << 16
MOST_ROOM = 1 << 14


class Input:
    def __init__(self, data):
        self.data, self.at = data, 0

    def byte(self):
        self.at += 1
        return self.data[self.at - 1] if self.at <= len(self.data) else None

    def number(self):
        value = 0
        for shift in range(0, 64, 7):
            byte = self.byte()
            if byte is None:
                break
            value |= (byte & 127) << shift
            if byte < 128:
                break
        return value % (1 << 64)

    def slice(self):
        count = min(self.number(), max(len(self.data) - self.at, 0), MOST_BYTES // 8 - 1)
        zigzag = [self.number() for _ in range(count)]
        cells = b"".join(((z >> 1) ^ (-(z & 1) % (1 << 64))).to_bytes(8, "little") for z in zigzag)
        torn = (self.byte() or 0) % 8
        return cells + bytes((self.byte() or 0) for _ in range(torn))


def case(data):
    return data.slice(), data.slice(), data.number() % MOST_ROOM


def main(folder, out):
    old = Input(pathlib.Path(out).read_bytes())
    cases = {case(old) for _ in range(old.number())}
    before = len(cases)
    for file in sorted(pathlib.Path(folder).iterdir()):
        cases.add(case(Input(file.read_bytes())))
    body = b"".join(slice_of(t) + slice_of(s) + varint(room) for t, s, room in sorted(cases))
    pathlib.Path(out).write_bytes(varint(len(cases)) + body)
    print(f"fuzzed: {len(cases)} cases written, {len(cases) - before} of them new")


if __name__ == "__main__":
    main(*sys.argv[1:])
