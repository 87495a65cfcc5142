"""Equations that the definitions answer as the oracle does, on cases of the fixed list."""
import collections

import vectors
from scratch import ROOT, numbers, unfolding

HEADER = """use Rattle.std.specs.Prelude.{ℕ, suc, ◌≡◌, Bool, true, false, List, [], ◌∷◌, ◌++◌, length}
use Rattle.std.proofs.Common.{refl}
use Rattle.std.proofs.Math.Option.{Option, none, some}
use mathlib.Core.List.{map}
use Rattle.x86.specs.declared.enums.Instruction.{Instruction}
use Rattle.x86.specs.Records.{Record}
use Rattle.codegen.specs.Generation.{Outcome, accepted, refused}
%s

abbrev cells_of : Record → List ℕ
cells_of r = r.form ∷ r.operation ∷ r.dst_tag ∷ r.dst ∷ r.src_tag ∷ r.src ∷ r.size ∷ r.src_size ∷ []

abbrev all_cells : List Instruction → List ℕ
all_cells [] = []
all_cells (i ∷ is) = cells_of (record_of i) ++ all_cells is

-- 0, the record count and the cells, or number and place
abbrev shown : Outcome (List Instruction) → List ℕ
shown (accepted is) = 0 ∷ length is ∷ all_cells is
shown (refused n p) = n ∷ p ∷ []

"""


def equations(case, line):
    """What the lowering answers, which numbers are at fault, and which of them the plain test names."""
    args = f"({numbers(case.tables)}) ({numbers(case.sheet)})"
    cells = [c for r in case.records for c in r]
    yield f"answer{case.index} : ◌≡◌ {{A = List ℕ}} (shown (lowered {args} {case.out_len})) ({numbers([case.number, case.place] + cells)})"
    yield line
    yield f"answer{case.index} = refl\n"
    asked = asked_faults(case)
    flags = " ∷ ".join("true" if k in case.faults else "false" for k in asked) + " ∷ []"
    yield f"faults{case.index} : ◌≡◌ {{A = List Bool}} (map (is_fault {args}) ({numbers(asked)})) ({flags})"
    yield line
    yield f"faults{case.index} = refl\n"
    first = f"some {case.faults[0]}" if case.faults else "none"
    yield f"first{case.index} : ◌≡◌ {{A = Option ℕ}} (first_fault {args}) ({first})"
    yield line
    yield f"first{case.index} = refl\n"


def asked_faults(case):
    """0, the first instructions, and a number behind the last of a short body; of a sheet that is refused 4 to 7 none behind the refusal's place."""
    if case.number in (1, 2, 3):
        return [0, 1]
    instructions = int.from_bytes(case.sheet[40:48], "little")
    last = case.place if case.number in (4, 5, 6, 7) else instructions + 1
    return list(range(min(last, 7) + 1))


def widens_with_zeros(case):
    """Whether an unsigned short is cast to eight bytes (M-105): four bytes are loaded into RAX, and eight are stored."""
    loads = [r[:4] == [0, 0, 1, 0] and r[6] == 4 for r in case.records]
    stores = [r[:3] == [0, 0, 5] and r[4:] == [1, 0, 8, 0] for r in case.records]
    return any(load and store for load, store in zip(loads, stores[1:]))


def choose(cases, count, most):
    """The first and last of each refusal, or its two smallest where all are larger than `most`; the smallest with several instructions at fault, and with
    an unsigned short that is widened; then an even spread."""

    def size(c):
        return len(c.tables) + len(c.sheet)

    small = [c for c in cases if size(c) <= most]
    chosen = {}
    for number in sorted({c.number for c in cases}):
        of = [c for c in small if c.number == number] or sorted((c for c in cases if c.number == number), key=size)[:2]
        for c in of[:12] + of[-12:]:
            chosen[c.index] = c
    several = sorted((c for c in cases if len(c.faults) > 1 and c.faults[0] > 0), key=size)
    widened = sorted((c for c in cases if widens_with_zeros(c)), key=size)
    chosen.update({c.index: c for c in several[:24] + widened[:9]})
    step = max(1, len(small) // max(1, count - len(chosen)))
    for c in small[::step]:
        if len(chosen) < count:
            chosen[c.index] = c
    return [chosen[k] for k in sorted(chosen)]


def modules(count, most, jobs):
    """The equations of `count` cases of at most `most` bytes of tables and sheet, as `jobs` modules, and what they are about."""
    uses, line = unfolding(["steps"])
    cases = choose(vectors.load(ROOT / "crates/replay/stdin"), count, most) if count else []
    texts = {f"answers{k}": HEADER % uses + "\n".join(l for c in cases[k::jobs] for l in equations(c, line)) for k in range(jobs) if cases}
    counts = collections.Counter(c.number for c in cases)
    refused = "".join(f", {counts[number]} refused {number}" for number in sorted(counts) if number > 0)
    return texts, f"{len(cases)} answers are the oracle's ({counts[0]} accepted{refused})"
