#!/usr/bin/env python3
"""Holds the table of public operations in docs/CONTRACTS.md to the code: each `pub fn` of crates/*/src stands in a row of its crate, a method as
`Type::name`, and so does each conversion of a library crate, as `From<A> for B`; and no row names what is not there. The files that the page names are there.

usage: contracts.py
"""
import pathlib, re

ROOT = pathlib.Path(__file__).resolve().parent.parent
PAGE = "docs/CONTRACTS.md"


def operations(crate):
    """The names of a crate's public functions."""
    found = set()
    for file in sorted((crate / "src").rglob("*.rt")):
        owner = ""
        for line in file.read_text(encoding="utf-8").splitlines():
            if block := re.match(r"impl(?:<'a>)? (\w+)(?:<'a>)? \{", line):
                owner = block[1] + "::"
            elif line == "}":
                owner = ""
            elif function := re.match(r'\s*pub (?:extern "C" )?fn (\w+)', line):
                found.add(owner + function[1])
    return found


def conversions(crate):
    """The `impl From`s of a crate, each as its head. A program's are its own."""
    if (crate / "src/main.rt").exists():
        return set()
    files = sorted((crate / "src").rglob("*.rt"))
    return {head for file in files for head in re.findall(r"^impl (From<\w+> for \w+) \{", file.read_text(encoding="utf-8"), re.M)}


def rows():
    """Crate and names of each row under `Public operations`."""
    part = (ROOT / PAGE).read_text(encoding="utf-8").partition("\n## Public operations\n")[2].partition("\n## ")[0]
    for line in part.splitlines():
        if row := re.match(r"\| (\w+) (`[^|]*)\|", line):
            yield row[1], re.findall(r"`([\w:]+|From<\w+> for \w+)`", row[2])


def lost_files():
    """Files below crates/ that the page names and that are not there."""
    paths = re.findall(r"\b\w+/(?:specs|src|proofs)/[\w/]+\.(?:antt|rt)\b", (ROOT / PAGE).read_text(encoding="utf-8"))
    return sorted({path for path in paths if not (ROOT / "crates" / path).is_file()})


def main():
    named = {}
    for crate, names in rows():
        for name in names:
            if name in named.setdefault(crate, set()):
                raise SystemExit(f"contracts: {PAGE} names {name} of {crate} twice")
            named[crate].add(name)
    crates = [crate for crate in sorted((ROOT / "crates").iterdir()) if (crate / "src").is_dir()]
    public = {crate.name: operations(crate) | conversions(crate) for crate in crates}
    wrong = [f"{PAGE} names no {crate} `{name}`" for crate in public for name in sorted(public[crate] - named.get(crate, set()))]
    wrong += [f"{PAGE} names {crate} `{name}`, which is not there" for crate in named for name in sorted(named[crate] - public.get(crate, set()))]
    wrong += [f"{PAGE} names crates/{path}, which is not there" for path in lost_files()]
    if wrong or not named:
        raise SystemExit("contracts: " + "\ncontracts: ".join(wrong or [f"{PAGE} has no rows"]))
    print(f"contracts: {PAGE} names all {sum(map(len, public.values()))} public operations of {len(named)} crates")


if __name__ == "__main__":
    main()
