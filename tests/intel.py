#!/usr/bin/env python3
"""The Intel text of records, held to stored text, to GNU as and to the oracle's own text.

usage: intel.py GILTHOREN-INTEL [--store]

1. tests/intel.txt has one record of each shape (form, operation, tags, sizes) in the fixed list, with its text; --store writes it anew, to be read.
2. Every record of the fixed list that differs from the others goes through as: it takes all that are not marked 'no encoding', and none that is.
3. In every tenth list the variable beside a memory operand is the one whose slot it lies in.
4. The lists of the fixed list's plain functions, assembled from this text and from that of oracle/src/processor/asm.rs, are the same bytes.
"""
import pathlib, re, shutil, subprocess, sys, tempfile

import vectors

ROOT = pathlib.Path(__file__).resolve().parent.parent
STORED = ROOT / "tests/intel.txt"
HEAD = ".intel_syntax noprefix\n.text\n"


def stop(message):
    raise SystemExit(f"intel: {message}")


def listing(records):
    return f"ok {len(records)}\n" + "".join(" ".join(map(str, r)) + "\n" for r in records)


def shown(tool, records):
    """The tool's whole text for a list."""
    done = subprocess.run([tool], input=listing(records), capture_output=True, text=True)
    if done.returncode != 0:
        stop(f"{tool} ends with {done.returncode}: {done.stderr.strip()}")
    return done.stdout


def instructions(tool, records):
    """Instruction and mark of each record."""
    lines = shown(tool, records).splitlines()[1:]
    if len(lines) != len(records):
        stop(f"{len(records)} records, {len(lines)} lines")
    pairs = []
    for record, line in zip(records, lines):
        numbers = " ".join(map(str, record))
        if not line.startswith(numbers + " "):
            stop(f"the numbers {numbers} are not at the start of '{line}'")
        text, _, comment = line[len(numbers):].partition(";")
        pairs.append((text.strip(), "no encoding" in comment))
    return pairs


def shape(record):
    form, operation, dst_tag, dst, src_tag, src, size, source_size = record
    return form, operation, dst_tag, dst_tag == 1 and dst >= 16, src_tag, src_tag == 1 and src >= 16, size, source_size


def check_shapes(tool, cases, store):
    shapes = {}
    for case in cases:
        for record in case.records:
            shapes.setdefault(shape(record), record)
    text = shown(tool, [shapes[key] for key in sorted(shapes)])
    if store:
        STORED.write_text(text)
    if text != STORED.read_text():
        found, wanted = text.splitlines(), STORED.read_text().splitlines()
        pair = next((p for p in zip(found, wanted) if p[0] != p[1]), (len(found), len(wanted)))
        stop(f"not the stored text:\nfound  {pair[0]}\nstored {pair[1]}")
    return len(shapes)


def assemble(folder, name, text):
    """Lines that as refuses, and the object."""
    source, made = folder / f"{name}.s", folder / f"{name}.o"
    source.write_text(text)
    done = subprocess.run(["as", "--64", "--fatal-warnings", "-o", made, source], capture_output=True, text=True)
    refused = {int(n) for n in re.findall(r"\.s:(\d+): (?:Error|Warning)", done.stderr)}
    if done.returncode != 0 and not refused:
        stop(f"as: {done.stderr.strip()}")
    return refused, made


def is_shortened(record):
    """True for a constant that no immediate of its width holds, neither signed nor unsigned: as shortens some of them without a word."""
    bits, value = 8 * record[6], record[5]
    return record[4] == 2 and record[6] in (1, 2, 4) and not -(1 << (bits - 1)) <= value < 1 << bits


def check_encodings(tool, cases, folder):
    """as takes a record if and only if it is not marked."""
    records = sorted({tuple(r) for case in cases for r in case.records})
    pairs = instructions(tool, records)
    refused, _ = assemble(folder, "records", HEAD + "".join(text + "\n" for text, _ in pairs))
    for line, (record, (text, marked)) in enumerate(zip(records, pairs), HEAD.count("\n") + 1):
        if marked != (line in refused or is_shortened(record)):
            stop(f"{record} '{text}' is {'' if marked else 'not '}marked, and as {'refuses' if line in refused else 'takes'} it")
    return len(records), sum(marked for _, marked in pairs)


# bytes of a type, by its code
SIZES = {1: 8, 2: 8, 3: 4, 4: 4, 5: 8, 6: 4, 7: 1, 8: 1, 9: 1, 10: 8}


def variable_types(case):
    """Code and count of each variable."""
    cells = [int.from_bytes(case.sheet[k:k + 8], "little", signed=True) for k in range(0, len(case.sheet), 8)]
    return [(cells[6 + 2 * v], cells[7 + 2 * v]) for v in range(cells[0])]


def owners(types):
    """For each byte of the slots, as RBP plus a value, the variable that has it."""
    owner, offset = {}, 0
    for variable, (kind, count) in enumerate(types):
        size = SIZES[kind] * (1 if count == -1 else count)
        offset = -(-(offset + size) // SIZES[kind]) * SIZES[kind]
        owner.update({at - offset: variable for at in range(size)})
    return owner


def check_slots(tool, cases, folder):
    """The variable behind ';' is the owner of the byte that a memory operand starts at; all types come up."""
    sheet, count, kinds = folder / "sheet", 0, set()
    for case in [c for c in cases if c.number == 0][::10]:
        sheet.write_bytes((len(case.tables) // 8).to_bytes(8, "little") + case.tables + case.sheet)
        owner = owners(variable_types(case))
        done = subprocess.run([tool, sheet], input=listing(case.records), capture_output=True, text=True)
        for record, line in zip(case.records, done.stdout.splitlines()[1:], strict=True):
            value = next((record[k + 1] for k in (2, 4) if record[k] == 5), None)
            shown_as = re.search(r"; (v\d+)", line)
            if (shown_as and shown_as[1]) != (f"v{owner[value]}" if value in owner else None):
                stop(f"case {case.index}: not the variable at {value}: {line}")
            if shown_as:
                kinds |= {kind for kind, _ in variable_types(case)[:owner[value] + 1]}
                count += 1
    if kinds != set(SIZES):
        stop(f"no variable of types {set(SIZES) - kinds} comes up")
    return count


def code(folder, name, text):
    refused, made = assemble(folder, name, text)
    if refused:
        stop(f"{name}: as refuses lines {sorted(refused)[:5]}")
    out = folder / f"{name}.bin"
    subprocess.run(["objcopy", "-O", "binary", "-j", ".text", made, out], check=True)
    return out.read_bytes()


def own_batch(tool, lists):
    """The lists with the oracle's frame around them: each function aligned, its labels its own."""
    pairs = iter(instructions(tool, [r for one in lists for r in one]))
    text = HEAD
    for number, one in enumerate(lists):
        lines = [next(pairs)[0] for _ in one]
        text += f".p2align 4\nfunction_{number}:\n" + re.sub(r"\.L(\d+)", rf".L{number}_\1", "\n".join(lines)) + "\n"
    return text


def check_oracle(tool, cases, folder):
    """The same bytes from this text and from the oracle's."""
    lists = [case.records for case in cases if not case.faults and case.records]
    program = folder / "oracle_text"
    subprocess.run(["rustc", "--edition", "2024", "-A", "dead_code", "-o", program, ROOT / "tests/oracle_text.rs"], check=True)
    numbers = "".join(" ".join(str(cell) for r in one for cell in r) + "\n" for one in lists)
    theirs = subprocess.run([program], input=numbers, capture_output=True, text=True, check=True).stdout
    if code(folder, "own", own_batch(tool, lists)) != code(folder, "oracle", theirs):
        stop("the oracle's text of the plain lists assembles to other bytes")
    return sum(map(len, lists))


def main():
    tool, store = sys.argv[1], "--store" in sys.argv
    cases = vectors.load(ROOT / "crates/replay/stdin")
    shapes = check_shapes(tool, cases, store)
    with tempfile.TemporaryDirectory() as name:
        folder = pathlib.Path(name)
        slots = check_slots(tool, cases, folder)
        print(f"intel: {shapes} shapes, {slots} operands with their variables")
        missing = [name for name in ("as", "objcopy") if not shutil.which(name)]
        if missing:
            print(f"intel: skipped: no {missing[0]}: what is assembled")
            return
        records, refused = check_encodings(tool, cases, folder)
        print(f"intel: {records} records through as, {refused} without an encoding")
        if not shutil.which("rustc"):
            print("intel: skipped: no rustc: the oracle's text")
            return
        print(f"intel: {check_oracle(tool, cases, folder)} records held to the oracle's text")


if __name__ == "__main__":
    main()
