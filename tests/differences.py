#!/usr/bin/env python3
"""Holds docs/DIFFERENCES.md to the lowering: the records that it shows stand in this order, one behind the other, in the list of its input.

usage: differences.py COMMAND...    the command reads what the listing program reads and writes what it writes
"""
import pathlib, re, subprocess, sys

ROOT = pathlib.Path(__file__).resolve().parent.parent
NUMBERS = re.compile(r"^\s+(-?\d+(?: -?\d+)*)$")
INPUT = re.compile(r"^\s+(-?\d+(?: -?\d+)*) \| (-?\d+(?: -?\d+)*)$")


def shown():
    """Input and records of each difference."""
    found = []
    for line in (ROOT / "docs/DIFFERENCES.md").read_text(encoding="utf-8").splitlines():
        if match := INPUT.match(line):
            tables, sheet = ([int(word) for word in part.split()] for part in match.groups())
            found.append(([len(tables)] + tables + sheet, []))
        elif match := NUMBERS.match(line):
            found[-1][1].append(match.group(1))
    return found


def main():
    count = 0
    for cells, records in shown():
        data = b"".join((cell % (1 << 64)).to_bytes(8, "little") for cell in cells)
        answer = subprocess.run(sys.argv[1:], input=data, stdout=subprocess.PIPE, check=True).stdout.decode()
        if not records or "\n" + "\n".join(records) + "\n" not in answer:
            raise SystemExit(f"differences: {cells} does not give {records} but\n{answer}")
        count += 1
    print(f"differences: {count} inputs of docs/DIFFERENCES.md give the records shown")


if __name__ == "__main__":
    main()
