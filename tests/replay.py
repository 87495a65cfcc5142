#!/usr/bin/env python3
"""What the program `replay` must write, from the fixed list itself.

usage: replay.py [--check]

Writes crates/replay/stdout: how many cases are accepted, with how many records; each refusal and how often it stands in the list; how many functions are
plain; how many calls there are, and no difference. With --check it compares the file that is there.
"""
import collections, pathlib, sys
import vectors

ROOT = pathlib.Path(__file__).resolve().parent.parent
STDOUT = ROOT / "crates/replay/stdout"


def text(cases, calls):
    counts = collections.Counter(c.number for c in cases)
    lines = [f"{len(cases)} cases, accepted {counts.pop(0, 0)}, records {sum(len(c.records) for c in cases)}"]
    lines += [f"refused {number} {counts[number]}" for number in sorted(counts)]
    lines.append(f"plain {sum(1 for c in cases if not c.faults)}")
    lines.append(f"{len(calls)} calls, differences 0")
    return "".join(line + "\n" for line in lines)


def main():
    cases, calls = vectors.load_all(ROOT / "crates/replay/stdin")
    want = text(cases, calls)
    if sys.argv[1:] == ["--check"]:
        if STDOUT.read_text() != want:
            raise SystemExit("replay: crates/replay/stdout is not what the fixed list says")
        print(f"replay: crates/replay/stdout is what the fixed list says of its {len(cases)} cases and {len(calls)} calls")
    elif not sys.argv[1:]:
        STDOUT.write_text(want)
    else:
        raise SystemExit(__doc__)


if __name__ == "__main__":
    main()
