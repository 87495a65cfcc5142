"""Writes sheets whose body is a loop, as cells in the listing program's form: loops.py FOLDER.

A loop of LENGTH instructions on longs, sums, products, shifts and bit operations in turn, goes round as often as the first parameter says. Its list is that many times
three records long, so that a run can be made as long as one likes.
"""
import pathlib
import struct
import sys

LENGTHS = [10, 100, 1000, 4000]
LONG, BOOL = (1, -1), (7, -1)
VARIABLES = [LONG, LONG, LONG, LONG, BOOL]
ADD, SUB, MUL, XOR, AND, SHL, GT = 13, 14, 15, 3, 4, 11, 9


def var(k):
    return (0, k, *VARIABLES[k])


def number(n):
    return (1, n, 0, 0)


def instr(kind, operation=0, dest=None, left=(0,) * 4, right=(0,) * 4):
    return (kind, operation, *((dest, *VARIABLES[dest]) if dest is not None else (0, 0, 0)), *left, *right)


def body(length):
    turn = [(ADD, 1, var(1), var(2)), (XOR, 2, var(2), var(3)), (MUL, 3, var(3), number(5)), (SHL, 1, var(1), number(1)), (AND, 2, var(2), number(255)), (SUB, 3, var(3), var(1))]
    work = [instr(2, op, dest, left, right) for op, dest, left, right in (turn[k % len(turn)] for k in range(length - 5))]
    count = [instr(2, SUB, 0, var(0), number(1)), instr(2, GT, 4, var(0), number(0)), instr(8, 1, None, var(4)), instr(7, 0)]
    return [instr(6, 0), *work, *count, instr(6, 1), instr(9, 0, None, var(1))]


def sheet(length):
    lines = body(length)
    head = [len(VARIABLES), 3, 2, *LONG, len(lines)]
    params = [cell for k in range(3) for cell in (k, *VARIABLES[k])]
    return head + [cell for ty in VARIABLES for cell in ty] + params + [cell for line in lines for cell in line]


def main(folder):
    folder = pathlib.Path(folder)
    folder.mkdir(parents=True, exist_ok=True)
    for length in LENGTHS:
        cells = [1, 0, *sheet(length)]
        (folder / f"{length}.cells").write_bytes(struct.pack(f"<{len(cells)}q", *cells))


if __name__ == "__main__":
    main(sys.argv[1])
