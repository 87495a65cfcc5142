"""Writes the fixed list's inputs as the fuzzers' seeds, a folder for each driver and a file for each input: seeds.py FOLDER [MOST_BYTES]."""
import collections
import hashlib
import pathlib
import sys

ROOT = pathlib.Path(__file__).resolve().parents[2]
sys.path.insert(0, str(ROOT / "tests"))
import vectors  # noqa: E402


def varint(n):
    out = bytearray()
    while n >= 128:
        out.append(n & 127 | 128)
        n >>= 7
    out.append(n)
    return bytes(out)


def cell(value):
    return varint((value << 1 ^ value >> 63) % (1 << 64))


def slice_of(data):
    count = len(data) // 8
    cells = [int.from_bytes(data[8 * k:8 * k + 8], "little", signed=True) for k in range(count)]
    torn = data[8 * count:]
    return varint(count) + b"".join(cell(value) for value in cells) + bytes([len(torn)]) + torn


def of_case(case):
    return "lower", slice_of(case.tables) + slice_of(case.sheet) + varint(case.out_len)


def of_call(call):
    """A driver's name, and what it reads."""
    if call.name == "pack_sheet":
        return "pack", slice_of(call.reads[0]) + varint(call.takes[0])
    if call.name == "pack_lower":
        return "pack", slice_of(call.reads[1]) + varint(call.takes[0]) + slice_of(call.reads[0]) + varint(call.writes[0][0])
    if call.name == "pack_totals":
        return "pack", slice_of(call.reads[1]) + varint(0) + slice_of(call.reads[0])
    if call.name in ("to_edition2", "to_edition1"):
        return "edition", slice_of(call.reads[0]) + varint(call.writes[0][0])
    raise SystemExit(f"seeds: {call.name} has no driver")


def main(folder, most=4096):
    count = collections.Counter()
    cases, calls = vectors.load_all(ROOT / "crates/replay/stdin")
    for driver, data in [of_case(case) for case in cases] + [of_call(call) for call in calls]:
        if len(data) <= int(most):
            to = pathlib.Path(folder) / driver
            to.mkdir(parents=True, exist_ok=True)
            (to / hashlib.sha256(data).hexdigest()[:16]).write_bytes(data)
            count[driver] += 1
    print("seeds: " + ", ".join(f"{n} for {driver}" for driver, n in count.items()))


if __name__ == "__main__":
    main(*sys.argv[1:])
