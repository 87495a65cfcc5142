#!/usr/bin/env python3
"""Holds the numbers of include/gilthoren.h to the definitions in crates/*/specs, to the code in crates/*/src, and to docs/FORMAT.md.

usage: header.py

Every enum of the header has the names and numbers of its source, none more and none fewer, and so has its part of the page. The page's forms of records are
those of the fixed list, with their operations, tags and sizes; its widths of types are the definitions'; tools/refusals.c has the page's words.
"""
import pathlib, re
import vectors

ROOT = pathlib.Path(__file__).resolve().parent.parent
HEADER = "include/gilthoren.h"
PAGE = "docs/FORMAT.md"
# operations of Krc's BinOp that the definitions have and no list holds
IN_NO_LIST = {"XCHG", "ADC", "SBB", "TEST", "COMI_F"}


def fail(message):
    raise SystemExit(f"header: {message}")


def text(path):
    file = ROOT / path
    if not file.is_file():
        fail(f"{path} is not there")
    return file.read_text(encoding="utf-8")


def upper(name):
    """A name as the header has it: JumpIfNot, jump if not and jumpIfNot are JUMP_IF_NOT."""
    return re.sub(r"(?<=[a-z])(?=[A-Z])|(?<=[A-Z])(?=[A-Z][a-z])", "_", name.strip()).replace(" ", "_").upper()


def numbered(pairs):
    """Names with their numbers, from pairs of both; a name stands once."""
    found = {}
    for name, number in pairs:
        if upper(name) in found:
            fail(f"{name} stands twice in one enum")
        found[upper(name)] = int(number)
    return found


def positions(names):
    return numbered((name, k) for k, name in enumerate(names))


def block(source, pattern, what):
    """What the pattern's group holds; it has to stand once."""
    found = re.findall(pattern, source, re.S | re.M)
    if len(found) != 1:
        fail(f"{what} stands {len(found)} times where it is looked for")
    return found[0]


# -- the header

def header_enum(tag, prefix):
    body = block(text(HEADER), rf"^enum gilthoren_{tag} \{{(.*?)\}};", f"enum gilthoren_{tag}")
    members = re.findall(r"(\w+) = (\d+)", re.sub(r"/\*.*?\*/", "", body, flags=re.S))
    for name, _ in members:
        if not name.startswith(prefix):
            fail(f"{name} of enum gilthoren_{tag} does not start with {prefix}")
    return numbered((name.removeprefix(prefix), number) for name, number in members)


# -- the definitions and the code

def constants(path):
    """`name = number` of a file of definitions that has nothing else."""
    return numbered(re.findall(r"^(\w+) = (\d+)$", text(path), re.M))


def codes(function, path="crates/x86/specs/Records.antt"):
    """The clauses `function Type.Case = number`."""
    return numbered(re.findall(rf"^{function} \(?\w+\.(\w+)[^=]*= (\d+)$", text(path), re.M))


def control_codes():
    outer = block(text("crates/x86/specs/Records.antt"), r"^ctrl_code \(CtrlOp\.JmpCC cc\) = 16 \* (\d+) \+ condition_code cc$", "JmpCC's code")
    return codes("ctrl_code") | {"JMP_CC": 16 * int(outer)}


def prefix_codes():
    source = text("crates/x86/specs/Records.antt")
    block(source, r"(16 \* prefix_code prefix \+ string_code op)", "the code of a prefix")
    return {f"{p}_{s}": 16 * n + m for p, n in codes("prefix_code").items() for s, m in codes("string_code").items()}


def forms():
    return numbered(re.findall(r"^record_of \(Instruction\.(\w+)[^=]*=\s+record_with (\d+)", text("crates/x86/specs/Records.antt"), re.M))


def registers():
    """Associated constants of Register; the definitions name the general ones."""
    found = numbered(re.findall(r"pub const (\w+): Register = Register \{ number: (\d+) \};", text("crates/x86/src/register.rt")))
    defined = numbered(re.findall(r"^(\w+) = gpr (\d+)$", text("crates/x86/specs/Registers.antt"), re.M))
    if {name: n for name, n in found.items() if n < 16} != defined:
        fail("registers of crates/x86/src are not those of its definitions")
    return found


def rust_enum(name):
    """The cases of an enum of crates/ir, in order."""
    body = block(text("crates/ir/src/lib.rt"), rf"^pub enum {name} \{{\n(.*?)^\}}", f"enum {name}")
    return positions(re.findall(r"^    (\w+)", body, re.M))


def operand_kinds():
    """The definition's look-up has them in the same order; its last is the default."""
    order = block(text("crates/ir/specs/Function.antt"), r"get_or \(([\w ∷]+?) ∷ \[\]\) \(cell_at s k\) \(λ s k\. Operand\.Null\)", "operand_at")
    return same_order("Operand", order, "_operand", {"data": "DataAddress"})


def instruction_kinds():
    order = block(text("crates/ir/specs/Function.antt"), r"get_or \(([\w ∷]+?) ∷ \[\]\) \(cell_at s k\) \(λ s k\. Instr\.Comment\)", "instr_at")
    return same_order("Instr", order, "_at", {})


def same_order(enum, order, ending, longer):
    found = rust_enum(enum)
    names = [name.strip().removesuffix(ending) for name in order.split("∷")]
    if [upper(longer.get(name, name)) for name in names] != list(found)[:-1]:
        fail(f"enum {enum} of crates/ir/src is not in the definitions' order")
    return found


def binary_operations():
    """The definition's look-up has them in the same order, the last too."""
    order = block(text("crates/ir/specs/Function.antt"), r"^binary_op k =\s+get_or \(([\w.∷\s]+?) ∷ \[\]\) k BinaryOp\.Rem", "binary_op")
    found = rust_enum("BinaryOp")
    if [upper(name.strip().removeprefix("BinaryOp.")) for name in order.split("∷")] != list(found):
        fail("enum BinaryOp of crates/ir/src is not in the definition's order")
    return found


def type_codes():
    """The comment above element_width names the codes; code 0 is none."""
    said = block(text("crates/ir/specs/Types.antt"), r"by its code: (1 long.*?12 Null)", "the comment on type codes").replace("\n--", "")
    return {"NONE": 0} | numbered((name, n) for n, name in re.findall(r"(\d+) ([A-Za-z ]+)", said))


def widths():
    return [int(n) for n in block(text("crates/ir/specs/Types.antt"), r"^element_width code = get_or \(([\d ∷]+) ∷ \[\]\)", "element_width").split("∷")]


def cells():
    source = text("crates/ir/specs/Function.antt")
    head, entry = block(source, r"^params_from s = (\d+) \+ (\d+) \* cell_at s 0$", "params_from")
    variable = block(source, r"^body_from s = params_from s \+ (\d+) \* cell_at s 1$", "body_from")
    instr, operand = block(source, r"^behind s k = k \+ (\d+) \+ (\d+) \* arguments_at s k$", "behind")
    return numbered([("head", head), ("type", entry), ("variable", variable), ("operand", operand), ("instr", instr)])


def refusals():
    """The definitions' names, and the code's, which has none for what is never answered."""
    found = constants("crates/cells/specs/Refusals.antt")
    coded = numbered(re.findall(r"^    (\w+) = (\d+),$", text("crates/cells/src/refusals.rt"), re.M))
    if coded != {name: n for name, n in found.items() if name != "REGISTERS_SPENT"}:
        fail("refusals of crates/cells/src are not those of its definitions")
    return {"ACCEPTED": 0} | found


# -- the page

def section(name):
    return block(text(PAGE) + "\n## ", rf"^## {name}\n(.*?)(?=^## )", f"'## {name}' of {PAGE}")


def rows(name, first):
    """The rows of a section's table whose head starts with the given words."""
    lines = section(name).splitlines()
    heads = [k for k, line in enumerate(lines) if line.startswith(f"| {first} |")]
    if len(heads) != 1:
        fail(f"{PAGE}, {name}: {len(heads)} tables start with '{first}'")
    for line in lines[heads[0] + 2:]:
        if not line.startswith("|"):
            return
        yield [cell.strip() for cell in line.strip("|").split("|")]


def pairs(words):
    """`3 Div, 4 Imul` as names with numbers."""
    return [(name, n) for n, name in re.findall(r"(\d+) ([A-Za-z][A-Za-z0-9 ]*)", words)]


def tabled(name, first):
    return numbered(pair for row in rows(name, first) for pair in pairs(row[0]))


def listed(name, start):
    """What stands behind a word, up to the first full stop."""
    return numbered(pairs(block(section(name), rf"^{start}: (.*?)\.", start).replace("\n", " ")))


def page_operations(form):
    return numbered(pair for row in rows("Records", "form") if row[0].split()[1] == form for pair in pairs(row[1]))


def page_registers():
    return numbered(pairs(section("Registers").split(".")[0].replace("\n", " ").replace(";", ",")))


def page_limits():
    """`256 strings`, and `1048576 for the count`."""
    said = section("Limits").replace("\n", " ")
    found = [(f"most {name}", n) for n, name in re.findall(r"(\d+) (strings|floats|variables|parameters|labels|instructions|arguments|sheets)\b", said)]
    return numbered(found + [("most count", n) for n in re.findall(r"(\d+) for the count", said)])


def page_types():
    """Codes, and the widths that the page gives them."""
    found = tabled("Types", "codes")
    said = {upper(name): int(row[1]) for row in rows("Types", "codes") for name, _ in pairs(row[0])}
    if [said[name] for name in sorted(found, key=found.get)] != widths():
        fail(f"{PAGE} gives types other widths than crates/ir/specs/Types.antt")
    return found


def page_refusals():
    found = tabled("Refusals", "number")
    words = dict(re.findall(r'^    \[GILTHOREN_(\w+)\] = \{"([^"]+)"', text("tools/refusals.c"), re.M))
    wanted = {name: name.lower().replace("_", " ") for name in found if name != "REGISTERS_SPENT"}
    if words != wanted:
        fail(f"tools/refusals.c has other words than {PAGE}")
    return {"ACCEPTED": 0} | found


def page_records():
    """Rows of the table of records: form and operations, then the sets of tags and sizes."""
    for row in rows("Records", "form"):
        form = int(row[0].split()[0])
        operations = [int(n) for n in re.findall(r"\d+(?= [A-Z]|$)", row[1])]
        yield form, operations, [{int(n) for n in cell.split(",")} for cell in row[2:]]


def check_records():
    """Each row's operations, tags and sizes are exactly those that the fixed list's records have."""
    records = [record for case in vectors.load(ROOT / "crates/replay/stdin") for record in case.records]
    seen = {}
    for form, operation, dst_tag, _, src_tag, _, size, source_size in records:
        for values, value in zip(seen.setdefault((form, operation), [set(), set(), set(), set()]), (dst_tag, src_tag, size, source_size)):
            values.add(value)
    for form, operations, wanted in page_records():
        found = [set().union(*(seen.get((form, o), [set()] * 4)[k] for o in operations)) for k in range(4)]
        missing = [o for o in operations if (form, o) not in seen]
        if missing or found != wanted:
            fail(f"{PAGE}, form {form}: the fixed list has tags and sizes {found}, not {wanted}; operations it has not: {missing}")
        for operation in operations:
            del seen[form, operation]
    if seen:
        fail(f"{PAGE} has no row for {sorted(seen)}")
    return len(records)


def check_record_bytes():
    """A record's bytes in the header are those of the cells that the definition counts."""
    fields = re.findall(r"^  pub (\w+) : ℕ$", block(text("crates/x86/specs/Records.antt"), r"^pub record Record : Type 0 where\n(.*?)^$", "Record"), re.M)
    said = int(block(text(HEADER), r"^enum \{ GILTHOREN_RECORD_BYTES = (\d+) \};", "GILTHOREN_RECORD_BYTES"))
    if said != 8 * len(fields):
        fail(f"a record has {len(fields)} cells, and not {said} bytes")


# -- the comparison

def listed_operations():
    return {name: n for name, n in codes("bin_code").items() if name not in IN_NO_LIST}


# enum, prefix, definitions, page
ENUMS = [
    ("answer", "", refusals, page_refusals),
    ("limit", "", lambda: constants("crates/layout/specs/Limits.antt"), page_limits),
    ("cells", "CELLS_", cells, None),
    ("type", "TYPE_", type_codes, page_types),
    ("operand", "OPERAND_", operand_kinds, lambda: tabled("Operands", "kind")),
    ("instr", "INSTR_", instruction_kinds, lambda: tabled("Instructions", "kind")),
    ("unary", "UNARY_", lambda: rust_enum("UnaryOp"), lambda: listed("Instructions", "UnaryOp")),
    ("binary", "BINARY_", binary_operations, lambda: listed("Instructions", "BinaryOp")),
    ("form", "FORM_", forms, lambda: {upper(row[0].split()[1]): int(row[0].split()[0]) for row in rows("Records", "form")}),
    ("bin_op", "OP_", listed_operations, lambda: page_operations("Binary")),
    ("complex_bin_op", "OP_", lambda: codes("complex_code"), lambda: page_operations("ComplexBinary")),
    ("conv_op", "OP_", lambda: codes("conv_code"), lambda: page_operations("Convert")),
    ("ctrl_op", "OP_", control_codes, lambda: page_operations("Ctrl")),
    ("extend_op", "OP_", lambda: codes("extend_code"), lambda: page_operations("Extend")),
    ("prefix_op", "OP_", prefix_codes, lambda: page_operations("Prefix")),
    ("shift_op", "OP_", lambda: codes("shift_code"), lambda: page_operations("Shift")),
    ("stack_op", "OP_", lambda: codes("stack_code"), lambda: page_operations("Stack")),
    ("unary_op", "OP_", lambda: codes("unary_code"), lambda: page_operations("Unary")),
    ("condition_code", "CC_", lambda: codes("condition_code"), lambda: page_operations("SetCC")),
    ("tag", "TAG_", lambda: codes("tag_of") | codes("base_tag"), lambda: tabled("Records", "tag")),
    ("register", "", registers, page_registers),
]


def check(what, found, wanted):
    if found != wanted:
        apart = sorted(found.items() ^ wanted.items(), key=str)
        fail(f"{what}: {', '.join(f'{name} {number}' for name, number in apart)} stand on one side alone")


def main():
    tags = re.findall(r"^enum gilthoren_(\w+)", text(HEADER), re.M)
    if sorted(tags) != sorted(tag for tag, *_ in ENUMS):
        fail(f"enums of {HEADER} that nothing is held to, or that are missing: {sorted(set(tags) ^ {tag for tag, *_ in ENUMS})}")
    numbers = 0
    for tag, prefix, defined, page in ENUMS:
        found = header_enum(tag, f"GILTHOREN_{prefix}")
        check(f"enum gilthoren_{tag} and the definitions", found, defined())
        if page:
            check(f"enum gilthoren_{tag} and {PAGE}", found, page())
        numbers += len(found)
    check_record_bytes()
    print(f"header: {numbers} numbers of {len(ENUMS)} enums are those of the definitions and of {PAGE}, which has the forms of {check_records()} records")


if __name__ == "__main__":
    main()
