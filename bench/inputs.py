"""Writes the fixed list's inputs in the listing program's form, a file each: inputs.py FOLDER."""
import pathlib
import sys

ROOT = pathlib.Path(__file__).resolve().parents[1]
sys.path.insert(0, str(ROOT / "tests"))
import vectors  # noqa: E402

folder = pathlib.Path(sys.argv[1])
for case in vectors.load(ROOT / "crates/replay/stdin"):
    if len(case.tables) % 8 == 0:
        (folder / str(case.index)).write_bytes((len(case.tables) // 8).to_bytes(8, "little") + case.tables + case.sheet)
