#!/usr/bin/env python3
"""What `rt` has no command for: one of rattle's commands for a crate, over the libraries that `rt ci` has just left in crates/*/out, which `rt check` and `rt lib`
would prove once more. The crate itself is proved as ever.

usage: behind.py KIT CRATE COMMAND WORDS..

KIT is the kit's folder, CRATE that of the crate, and COMMAND and WORDS are rattle's, as `check` or `build -o FILE`.
"""
import importlib.machinery, importlib.util, os, subprocess, sys

sys.dont_write_bytecode = True


def kit():
    """The folder of the kit that the command `rt` lies in."""
    for folder in os.environ.get("PATH", "").split(os.pathsep):
        file = os.path.join(folder, "rt")
        if os.access(file, os.X_OK) and os.path.isfile(file):
            return os.path.dirname(os.path.dirname(os.path.realpath(file)))
    raise SystemExit("behind: there is no rt on the path")


def library(kit):
    """The part of rt that knows which words rattle is given for a crate."""
    loader = importlib.machinery.SourceFileLoader("rtlib", os.path.join(kit, "bin", "rtlib.py"))
    made = importlib.util.module_from_spec(importlib.util.spec_from_loader("rtlib", loader))
    loader.exec_module(made)
    return made


def run(kit, folder, command, words, **how):
    folder = os.path.abspath(folder)
    rtlib = library(kit)
    crate = rtlib.Crate(folder, rtlib.root_above(folder), {}, name=None)
    lacking = [it.name for it in crate.below() if not os.path.isfile(f"{it.rlib}/format")]
    if lacking:
        raise SystemExit(f"behind: rt ci has left no library of {' '.join(lacking)}")
    os.makedirs(f"{folder}/out", exist_ok=True)
    given = crate.words(["--jobs", "1"], keeps=False)
    return subprocess.run([f"{kit}/bin/rattle", command, *given, *words], cwd=folder, **how)


if __name__ == "__main__":
    if len(sys.argv) < 4:
        raise SystemExit(__doc__)
    sys.exit(run(sys.argv[1], sys.argv[2], sys.argv[3], sys.argv[4:]).returncode)
