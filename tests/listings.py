#!/usr/bin/env python3
"""The listing program's inputs and the texts that the specification gives for them. The first of them is the stored run of crates/listing.

usage: listings.py [--check] [PROGRAM WORDS..]

Writes the stored run. With --check it compares the files that are there. A program, as `crates/listing/out/listing` or `oracle/target/release/oracle answer`, is run
on every input and its text compared.
"""
import pathlib, subprocess, sys

ROOT = pathlib.Path(__file__).resolve().parent.parent

SHEET = [1, 1, 0, 3, -1, 1, 3, -1, 0, 3, -1, 9, 0, 0, 0, 0, 0, 0, 3, -1, 0, 0, 0, 0]
LISTING = """ok 8
14 0 1 5 0 0 0 0
0 0 1 5 1 4 0 0
0 3 1 4 2 16 0 0
0 0 5 -4 1 7 4 0
0 0 1 0 5 -4 4 0
0 0 1 4 1 5 0 0
14 1 1 5 0 0 0 0
6 2 0 0 0 0 0 0
"""
# a function that returns variable 0, so many times: four records each behind the prologue's three
RETURN = [9, 0, 0, 0, 0, 0, 0, 3, -1, 0, 0, 0, 0]


def returns(count):
    return [1, 0, 0, 3, -1, count, 3, -1] + RETURN * count


def cells(numbers):
    return b"".join((n % (1 << 64)).to_bytes(8, "little") for n in numbers)


def changed(at, number):
    return SHEET[:at] + [number] + SHEET[at + 1:]


# name, input, text
RUNS = [
    ("listing", cells([1, 0] + SHEET), LISTING),
    ("bad_table", cells([2, 0, 2] + SHEET), "refused 1 1\n"),
    ("torn_sheet", cells([1, 0] + SHEET[:-1]) + b"\0\0\0", "refused 2 23\n"),
    ("cell_left_over", cells([1, 0] + SHEET + [0]), "refused 2 24\n"),
    ("oversize", cells([1, 0] + changed(0, 257)), "refused 3 0\n"),
    ("no_entry", cells([1, 0] + changed(17, 7)), "refused 5 1\n"),
    ("room_for_all", cells([1, 0] + returns(255)), None),
    ("page_full", cells([1, 0] + returns(256)), "refused 9 1027\n"),
    ("no_first_cell", b"\1\0\0\0\0\0\0", "refused 1 0\n"),
    ("negative_count", cells([-1, 0] + SHEET), "refused 1 0\n"),
    ("count_beyond", cells([26, 0] + SHEET), "refused 1 0\n"),
    ("longest", cells([1, 0]) + bytes(65520), "refused 2 4\n"),
    ("too_long", cells([1, 0]) + bytes(65521), "too long\n"),
]


def room_for_all():
    """The prologue's records and 255 times the four of a return."""
    lines = LISTING.splitlines(keepends=True)
    one = lines[5:]
    return "ok 1023\n" + "".join(lines[1:4]) + "".join(one) * 255


def files():
    """Path and content of each stored file."""
    _, data, text = RUNS[0]
    yield "crates/listing/stdin", data
    yield "crates/listing/stdout", text.encode()


def compare(program):
    for name, data, text in RUNS:
        want = text if text is not None else room_for_all()
        got = subprocess.run(program, input=data, capture_output=True, check=True).stdout.decode()
        if got != want:
            raise SystemExit(f"listings: {name}: {' '.join(program)} writes another text:\n{got[:400]}")
    print(f"listings: {program[0]} writes the texts of all {len(RUNS)} inputs")


def main():
    words = sys.argv[1:]
    check = words[:1] == ["--check"]
    for path, content in files():
        file = ROOT / path
        if not check:
            file.parent.mkdir(parents=True, exist_ok=True)
            file.write_bytes(content)
        elif file.read_bytes() != content:
            raise SystemExit(f"listings: {path} is not as tests/listings.py makes it")
    if check:
        print("listings: the stored run of crates/listing is as it should be")
    if words[check:]:
        compare(words[check:])


if __name__ == "__main__":
    main()
