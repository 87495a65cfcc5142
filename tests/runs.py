"""Equations that the definitions run plain functions on concrete bytes as vectors/runs.txt says (vectors/README.md has its form).

Each run gives two: after its steps F has its end and its variables' bytes; after 12 + 5 times as many records of the list that the definitions lower
F to, and two more for each parameter on the stack, the machine has the end that belongs to it, the value, the slots, RSP, the kept registers, the saved RBP
and, around the frame and where the parameters are, the bytes that were there.
"""
from scratch import ROOT, numbers, unfolding

WORD = 1 << 64
RSP = 65544
BASE = RSP - 8
STACKED = BASE + 16
AROUND = 7
TABLES = [0] * 8

HEADER = """use Rattle.std.specs.Prelude.{ℕ, zero, suc, ◌+◌, ◌*◌, ◌-◌, ◌%%◌, ◌≡◌, Bool, true, false, cond, ◌&&◌, List, [], ◌∷◌, ◌++◌, ltb, leb, get_or}
use Rattle.std.proofs.Common.{refl}
use mathlib.Core.List.{map}
use Rattle.x86.specs.declared.enums.Instruction.{Instruction}
use Rattle.x86.specs.declared.mem_address.Base.{Base}
use Rattle.codegen.specs.Generation.{Outcome, accepted, refused}
use Rattle.machine.specs.Simulation.{start}
use Rattle.machine.specs.Word.{bound}
%s

abbrev list_of : Outcome (List Instruction) → List Instruction
list_of (accepted is) = is
list_of (refused n p) = []

-- the frame's bytes below the base, those of the parameters on the stack above it, and the same byte around them
abbrev memory : ℕ → List ℕ → List ℕ → ℕ → ℕ
memory frame bytes stacked a =
    cond (leb (BASE - frame) a && ltb a BASE) (get_or bytes (a - (BASE - frame)) AROUND) (cond (leb STACKED a) (get_or stacked (a - STACKED) AROUND) AROUND)

abbrev entry : List ℕ → ℕ → List ℕ → List ℕ → x86.State
entry regs frame bytes stacked =
    record {
      regs = λ r. get_or regs r 0;
      mem = memory frame bytes stacked;
      flags = record { zf = true; sf = false; cf = true; pf = false; ov = true; df = false };
      links = λ b k. 0;
      pos = 0;
      status = x86.running;
    }

-- what the manual leaves open
abbrev choice : ℕ → x86.Choice
choice m =
    record {
      flags = record { zf = false; sf = true; cf = false; pf = true; ov = false; df = true };
      result = 0;
      regs = λ r. 1;
      mem = λ a. 1;
    }

abbrev steps_end : steps.Status → List ℕ
steps_end steps.running = 3 ∷ []
steps_end steps.faulted = 2 ∷ 0 ∷ 0 ∷ []
steps_end steps.stuck = 4 ∷ []
steps_end (steps.returned n v) = 1 ∷ n ∷ v ∷ []

-- a return goes to the address that lay at RSP
abbrev records_end : x86.Status → List ℕ
records_end x86.running = 3 ∷ []
records_end x86.faulted = 2 ∷ []
records_end x86.undefined = 4 ∷ []
records_end (x86.returned a) = 1 ∷ a ∷ []

abbrev from : ℕ → ℕ → List ℕ
from a zero = []
from a (suc n) = a ∷ from (suc a) n

-- F after n steps: its end, and the bytes of its variables, each given by its number and its count of bytes
abbrev stepped : List ℕ → x86.State → ℕ → List (List ℕ) → List ℕ
stepped sheet s n asked =
    let t : steps.State = steps.run (function_of sheet) n (start (function_of sheet) s) in
    steps_end (t.status) ++ map (λ (p : List ℕ). t.vals (get_or p 0 0) (get_or p 1 0)) asked

-- the records after m: their end, the registers that a callee keeps, RBP and RSP, the w low bytes of RAX, n bytes of memory from a on
abbrev ran : List ℕ → x86.State → ℕ → ℕ → ℕ → ℕ → List ℕ
ran sheet s m w a n =
    let t : x86.State = x86.run (list_of (lowered (TABLES) sheet 1048576)) choice m s in
    records_end (t.status)
    ++ map (t.regs) (3 ∷ 12 ∷ 13 ∷ 14 ∷ 15 ∷ 5 ∷ 4 ∷ []) ++ t.regs 0 %% bound w ∷ map (t.mem) (from a n)

"""


class Run:
    def __init__(self, line):
        numbers = [int(word) for word in line.split()]

        def counted():
            n = numbers.pop(0)
            taken = numbers[:n]
            del numbers[:n]
            return taken

        self.cells, self.registers, self.frame, self.stacked = counted(), counted(), counted(), counted()
        self.end, self.steps, self.width, self.value = [numbers.pop(0) for _ in range(4)]
        self.variables = counted()
        if numbers:
            raise SystemExit("evaluate_runs: a line of runs.txt has numbers left over")
        self.registers[4] = RSP


    def widths(self):
        """The variables' widths, an element's of an array, from the sheet's own cells; Custom and Null have none."""
        widths = {1: 8, 2: 8, 3: 4, 4: 4, 7: 1, 8: 1, 9: 1, 10: 8}
        return [widths[code] for code in self.cells[6:6 + 2 * self.cells[0]:2]]

    def sizes(self):
        counts = self.cells[7:7 + 2 * self.cells[0]:2]
        return [width * (1 if count == -1 else count) for width, count in zip(self.widths(), counts)]

    def memory_after(self):
        """From eight bytes below the frame to eight above the parameters on the stack: the slots, the saved RBP, everything else as it was."""
        bytes_, at, offset = bytearray(self.frame), 0, 0
        for width, size in zip(self.widths(), self.sizes()):
            offset = -(-(offset + size) // width) * width
            start = len(bytes_) - offset
            bytes_[start:start + size] = self.variables[at:at + size]
            at += size
        saved = self.registers[5].to_bytes(8, "little")
        return [AROUND] * 8 + list(bytes_) + list(saved) + [AROUND] * 8 + self.stacked + [AROUND] * 8


def equations(k, run, line):
    sheet = numbers(b"".join((c % WORD).to_bytes(8, "little") for c in run.cells))
    frame = len(run.frame)
    state = f"(entry ({numbers(run.registers)}) {frame} ({numbers(run.frame)}) ({numbers(run.stacked)}))"
    records = 12 + 2 * (len(run.stacked) // 8) + 5 * run.steps
    span = frame + 32 + len(run.stacked)
    asked = [(x, i) for x, size in enumerate(run.sizes()) for i in range(size)]
    pairs = "".join(f"({x} ∷ {i} ∷ []) ∷ " for x, i in asked) + "[]"
    end = [2, 0, 0] if run.end == 2 else [1, run.width, run.value]
    yield f"stepped{k} : ◌≡◌ {{A = List ℕ}} (stepped ({sheet}) {state} {run.steps} ({pairs})) ({numbers(end + run.variables)})"
    yield line
    yield f"stepped{k} = refl\n"
    kept = [3, 12, 13, 14, 15]
    bp, sp = (BASE, BASE - frame) if run.end == 2 else (run.registers[5], RSP + 8)
    end = [2] if run.end == 2 else [1, int.from_bytes([AROUND] * 8, "little")]
    after = end + [run.registers[r] for r in kept] + [bp, sp, run.value] + run.memory_after()
    yield f"ran{k} : ◌≡◌ {{A = List ℕ}} (ran ({sheet}) {state} {records} {run.width} {BASE - frame - 8} {span}) ({numbers(after)})"
    yield line
    yield f"ran{k} = refl\n"


def modules(count, jobs):
    """The equations of the first `count` runs, as `jobs` modules, and what they are about."""
    runs = [Run(l) for l in (ROOT / "vectors/runs.txt").read_text().splitlines()][:count]
    uses, line = unfolding(["x86", "steps"])
    header = HEADER.replace("STACKED", str(STACKED)).replace("BASE", str(BASE)).replace("AROUND", str(AROUND)).replace("TABLES", numbers(TABLES)) % uses
    some = list(enumerate(runs))
    texts = {f"runs{k}": header + "\n".join(l for n, run in some[k::jobs] for l in equations(n, run, line)) for k in range(jobs) if runs}
    ends = [sum(1 for run in runs if run.end == e) for e in (0, 1, 2)]
    return texts, (f"{len(runs)} runs ({ends[0]} with no instruction left, {ends[1]} by a Return, {ends[2]} by a fault; "
                   f"{sum(run.steps for run in runs)} steps) are F's and the records'")
