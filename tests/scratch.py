"""A scratch crate of equations over the definitions, proved by the checker in a copy of the repository's crates, outside the repository."""
import pathlib, re, shutil, subprocess, tempfile
import behind

ROOT = pathlib.Path(__file__).resolve().parent.parent
DEFINITIONS = ["cells", "x86", "ir", "layout", "codegen", "machine"]


def unfoldable(crates):
    """Every definition that unfolds only where it is named, by module."""
    found = {}
    for crate in DEFINITIONS + crates:
        for path in sorted((ROOT / "crates" / crate / "specs").glob("*.antt")):
            names = re.findall(r"^unfoldable pub (\S+) :", path.read_text(encoding="utf-8"), re.M)
            if names:
                found[f"Rattle.{crate}.specs.{path.stem}"] = names
    return found


def unfolding(modules, crates=[]):
    """The lines that bring the definitions in and unfold them; Machine, as x86, and Steps, as steps, only where asked for, by their names there.
    A name that another module before it has too is brought in with its module's."""
    named = {"x86": "Rattle.machine.specs.Machine", "steps": "Rattle.machine.specs.Steps"}
    uses, names = [], []
    for module, found in unfoldable(crates).items():
        if module not in named.values():
            own = {n: f"{module.split('.')[-1].lower()}_{n}" if n in names else n for n in found}
            uses.append(f"use {module}.{{{', '.join(n if n == o else f'{n} as {o}' for n, o in own.items())}}}")
            names += own.values()
    for name in modules:
        uses.append(f"use {named[name]} as {name}")
        names += [f"{name}.{n}" for n in unfoldable(crates)[named[name]]]
    return "\n".join(uses), "unfolding " + " ".join(names)


def numbers(values):
    return " ∷ ".join(str(v % (1 << 64)) for v in values) + " ∷ []" if values else "[]"


def crates_and_needs(crates):
    """The crates that equations stand on, and what each needs, by crates.txt."""
    lines = [l.split(":") for l in (ROOT / "crates.txt").read_text().splitlines() if ":" in l]
    needs = {name.split()[0]: of.split() for name, of in lines}
    below = DEFINITIONS + crates
    return below + sorted({need for crate in crates for need in needs[crate]} - set(below)), needs


def copied(name, to):
    """A crate with all that a check reads; what `rt` keeps is found by its text."""
    shutil.copytree(ROOT / "crates" / name, to / "crates" / name, ignore=shutil.ignore_patterns("must-fail", "out"))


def linked(name, to):
    """A crate's sources, and the library that `rt ci` has left of it."""
    shutil.copytree(ROOT / "crates" / name / "src", to / "crates" / name / "src")
    (to / "crates" / name / "out").mkdir()
    (to / "crates" / name / "out/rlib").symlink_to(ROOT / "crates" / name / "out/rlib")


def check(modules, crates=[], behind_ci=False):
    """Proves the modules, each a crate of its own over the definitions and `crates`; fails with the checker's first errors. They stand on the libraries that `rt ci`
    has left, if `behind_ci`, and else on copies, for which `rt` takes what it has proved of the same text on this machine."""
    with tempfile.TemporaryDirectory() as folder:
        repo = pathlib.Path(folder)
        (repo / "crates").mkdir()
        below, needs = crates_and_needs(crates)
        for crate in below:
            (linked if behind_ci else copied)(crate, repo)
        lines = [f"{crate}: {' '.join(needs[crate])}" for crate in below]
        for name, text in modules.items():
            crate = repo / "crates" / name
            for part in ("src", "proofs"):
                (crate / part).mkdir(parents=True)
            (crate / "src/lib.rt").write_text("// Equations over the definitions.\n")
            (crate / "proofs/Lib.antt").write_text("pub mod Equations\n")
            (crate / "proofs/Equations.antt").write_text(text, encoding="utf-8")
            lines.append(f"{name}: {' '.join(below)}")
        (repo / "crates.txt").write_text("\n".join(lines) + "\n")
        for name in modules:
            how = {"stdout": subprocess.PIPE, "stderr": subprocess.STDOUT, "text": True}
            crate = repo / "crates" / name
            done = behind.run(behind.kit(), crate, "check", [], **how) if behind_ci else subprocess.run(["rt", "check"], cwd=crate, **how)
            if done.returncode != 0 or not re.search(r"^logic=proved", done.stdout, re.M):
                for l in [l for l in done.stdout.splitlines() if "error" in l or l.startswith("rt:")][:20]:
                    print(l[:400])
                raise SystemExit("evaluate: the definitions do not give what is stored")
