"""Equations that the definitions of the other exports answer as the oracle does, on calls of the fixed list."""
import collections

import vectors
from answers import HEADER
from scratch import ROOT, numbers, unfolding

# the crates whose definitions an export is by, beside those that all equations have; what they bring in; and what is shown of an answer
CRATES = ["edition", "pack", "totals"]
USES = """use Rattle.cells.specs.Outcomes.{number_of, place_of}
use Rattle.layout.specs.declared.Edition.{Edition}
use Rattle.pack.specs.declared.Pair.{Pair}
use Rattle.pack.specs.Pack.{start_of, size_of}
use Rattle.totals.specs.declared.Totals.{Totals}
use Rattle.totals.specs.Totals.{records_of, refused_of}
"""
SHOWN = """
-- number, place, first byte and bytes
abbrev shown_pair : Outcome Pair → List ℕ
shown_pair o = number_of o ∷ place_of (λ p. 0) o ∷ start_of o ∷ size_of o ∷ []

-- 0, how many cells and the cells, or number and place
abbrev shown_cells : Outcome (List ℕ) → List ℕ
shown_cells (accepted cells) = 0 ∷ length cells ∷ cells
shown_cells (refused n p) = n ∷ p ∷ []

-- number, place, records and refused sheets
abbrev shown_totals : Outcome Totals → List ℕ
shown_totals o = number_of o ∷ place_of (λ t. 0) o ∷ records_of o ∷ refused_of o ∷ []

"""


def cells(data):
    """The cells of record bytes, as numbers from 0."""
    return [int.from_bytes(data[k:k + 8], "little") for k in range(0, len(data), 8)]


def sides(call):
    """What a definition gives for a call, and what is stored."""
    reads = [f"({numbers(data)})" for data in call.reads]
    if call.name == "pack_sheet":
        return f"shown_pair (find_pair {reads[0]} {call.takes[0]})", call.answers
    if call.name == "pack_lower":
        return f"shown (lowered_in {reads[0]} {reads[1]} {call.takes[0]} {call.writes[0][0]})", call.answers + cells(call.writes[0][2])
    if call.name == "pack_totals":
        return f"shown_totals (pack_totals {reads[0]} {reads[1]})", call.answers
    if call.name in ("to_edition2", "to_edition1"):
        edition = "First" if call.name == "to_edition2" else "Second"
        return f"shown_cells (converted Edition.{edition} {reads[0]} {call.writes[0][0]})", call.answers + cells(call.writes[0][2])
    raise SystemExit(f"evaluate: {call.name} has no definition here")


def equations(call, line):
    given, stored = sides(call)
    yield f"call{call.index} : ◌≡◌ {{A = List ℕ}} ({given}) ({numbers(stored)})"
    yield line
    yield f"call{call.index} = refl\n"


def choose(calls, count):
    """The smallest of each answer of each export, then an even spread of the small ones."""

    def size(c):
        return sum(map(len, c.reads))

    kinds = collections.defaultdict(list)
    for c in calls:
        kinds[c.name, c.answers[0]].append(c)
    chosen = {c.index: c for of in kinds.values() for c in sorted(of, key=size)[:2]}
    small = [c for c in calls if size(c) <= 480]
    for c in small[::max(1, len(small) // max(1, count - len(chosen)))]:
        if len(chosen) < count:
            chosen[c.index] = c
    return [chosen[k] for k in sorted(chosen)]


def modules(count, jobs):
    """The equations of `count` calls as `jobs` modules, and what they are about."""
    uses, line = unfolding(["steps"], CRATES)
    calls = choose(vectors.calls(ROOT / "crates/replay/stdin"), count) if count else []
    texts = {f"calls{k}": HEADER % (uses + "\n" + USES) + SHOWN + "\n".join(l for c in calls[k::jobs] for l in equations(c, line)) for k in range(jobs) if calls}
    names = collections.Counter(c.name for c in calls)
    return texts, f"{len(calls)} calls are the oracle's ({', '.join(f'{n} of {name}' for name, n in names.items())})"
