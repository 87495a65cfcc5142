#!/usr/bin/env python3
"""Files as editors and other programs leave them, and places that cannot be written: what the tools make of them.

usage: files.py FOLDER      the folder has gilthoren-sheet, gilthoren-intel, lower and listing
"""
import os, pathlib, random, subprocess, sys, tempfile, unicodedata

ROOT = pathlib.Path(__file__).resolve().parent.parent
EXAMPLES = sorted((ROOT / "examples").glob("*.sheet"))
MARK = b"\xef\xbb\xbf"
# whole characters of each length, for names and for what is no name
CHARACTERS = ["a", "é", "順", "𝛼", "\x1b", "\x07", "\u009b", "\u202e", "\u00a0", "\u200b"]


class Tools:
    def __init__(self, folder, scratch):
        self.folder, self.scratch = pathlib.Path(folder), pathlib.Path(scratch)
        self.runs = 0

    def run(self, program, *words, data=b"", **streams):
        """Runs a program; whatever it says on standard error may be shown on a terminal."""
        self.runs += 1
        done = subprocess.run([self.folder / program, *words], input=data, stdout=streams.get("stdout", subprocess.PIPE), stderr=subprocess.PIPE)
        check_shown(program, done.stderr)
        return done

    def file(self, data, name=b"file.sheet"):
        path = os.path.join(os.fsencode(self.scratch), name)
        with open(path, "wb") as file:
            file.write(data)
        return path

    def lower(self, data):
        done = self.run("lower", self.file(data))
        return done.returncode, done.stdout, done.stderr

    def cells(self, data):
        done = self.run("gilthoren-sheet", "cells", data=data)
        return done.returncode, done.stdout, done.stderr


def fail(message):
    raise SystemExit(f"files: {message}")


def hidden(character):
    """Control codes, what has no width, what turns a line's direction, line ends."""
    return unicodedata.category(character) in ("Cc", "Cf", "Zl", "Zp")


def check_shown(program, said):
    try:
        shown = said.decode("utf-8")
    except UnicodeDecodeError:
        fail(f"{program} cuts or says what is no UTF-8: {said!r}")
    for line in shown.split("\n"):
        if any(hidden(c) for c in line):
            fail(f"{program} says what may not be shown: {said!r}")


def needs(what, done, status, word=""):
    if done.returncode != status or word not in done.stderr.decode():
        fail(f"{what}: status {done.returncode}, not {status} with '{word}': {done.stderr.decode()}")


# -- line ends and marks

def check_line_ends(tools):
    """The same cells, listing and words, with the same line numbers, for every kind of line end and behind a mark of UTF-8."""
    for path in EXAMPLES:
        text = path.read_bytes()
        wanted = tools.lower(text), tools.cells(text)
        for kind in (text.replace(b"\n", b"\r"), text.replace(b"\n", b"\r\n"), MARK + text, MARK + text.replace(b"\n", b"\r")):
            if (tools.lower(kind), tools.cells(kind)) != wanted:
                fail(f"{path.name} is read otherwise with other line ends: {kind[:40]!r}")
    wrong = b"variable page long\n\n# a comment\npage = 5 extra\n"
    for end in (b"\n", b"\r", b"\r\n"):
        needs("an error's line", tools.run("gilthoren-sheet", "cells", data=wrong.replace(b"\n", end)), 1, "line 4: ")


def check_listing_ends(tools):
    for path in EXAMPLES:
        listing = tools.lower(path.read_bytes())[1]
        wanted = tools.run("gilthoren-intel", path, data=listing).stdout
        for kind in (listing.replace(b"\n", b"\r"), listing.replace(b"\n", b"\r\n"), MARK + listing):
            if tools.run("gilthoren-intel", path, data=kind).stdout != wanted:
                fail(f"the listing of {path.name} is read otherwise: {kind[:40]!r}")


def check_wide(tools):
    """UTF-16 and UTF-32 are called so, with a mark and without, and nothing is made of them. A number that starts as a mark does is one."""
    for text in ("# a sheet\nvariable page long\nreturn page\n", "x", "ok 1\n"):
        for code in ("utf-16-le", "utf-16-be", "utf-32-le", "utf-32-be"):
            for data in (("\ufeff" + text).encode(code), text.encode(code)):
                name = code[:6].upper()
                for program, words, status in (("gilthoren-sheet", ["cells"], 1), ("gilthoren-intel", [], 1), ("lower", [tools.file(data)], 2),
                                               ("gilthoren-intel", [tools.file(data)], 1)):
                    done = tools.run(program, *words, data=data)
                    needs(f"{program} on {name}", done, status, name)
                    if done.stdout:
                        fail(f"{program} makes something of {name}")
    for first in (0xFEFF, 0xFFFE, 0x76FEFF):
        done = tools.run("lower", tools.file(first.to_bytes(8, "little") + bytes(64)))
        needs("a count that starts as a mark", done, 1, "refused: bad table")


# -- what may not be shown

def check_bytes(tools):
    """Every byte, and characters that may not be shown, at the places of a text that a message quotes; in a file's name too."""
    odd = [bytes([b]) for b in range(256)] + [c.encode() for c in CHARACTERS]
    for piece in odd:
        for text in (b"variable " + piece + b" long\n", b"v9" + piece * 30 + b" = 1\n"):
            if tools.run("gilthoren-sheet", "cells", data=text).returncode not in (0, 1):
                fail(f"gilthoren-sheet on {text!r}")
        tools.run("gilthoren-intel", data=b"ok " + piece + b"\n")
    for piece in odd:
        if piece not in (b"\0", b"/", b".", b""):
            tools.run("lower", tools.file(b"\x1b[2J", b"file" + piece))
    needs("a file that is not there", tools.run("lower", "\x1b]0;title\x07"), 2, "\\x1B]0;title\\x07: cannot be read: No such file or directory")
    needs("a folder", tools.run("lower", tools.scratch), 2, "cannot be read: Is a directory")


def check_names(tools):
    """Names of every letter's length, cut for a message at every byte; those that are good stand in the Intel text as they are."""
    for letter in ("a", "é", "順", "𝛼"):
        for before in range(4):
            for count in (1, 25, 400):
                name = "x" * before + letter * count
                for text in (f"return {name}\n", f"{name} {name}\n", f"variable {name} long\nvariable {name} long\n", f"parameter v9{name}\n"):
                    needs(f"a name of {letter}", tools.run("gilthoren-sheet", "cells", data=text.encode()), 1, "expected ")
                good = f"variable {name} long\nparameter {name}\nreturn {name}\n".encode()
                status, listing, _ = tools.lower(good)
                shown = tools.run("gilthoren-intel", tools.file(good), data=listing).stdout.decode()
                if status != 0 or f"; {name}\n" not in shown:
                    fail(f"the name {name} is lost")
    for blank in ("\u00a0", "\u3000", "\u202e", "\u200b", "\u0085"):
        needs("a blank in a name", tools.run("gilthoren-sheet", "cells", data=f"variable a{blank}b long\n".encode()), 1, "expected ")


def check_random(tools):
    """Bytes at random, and examples with some bytes of theirs altered."""
    draw = random.Random(7)
    for k in range(250):
        data = bytearray(draw.randbytes(draw.randrange(200)) if k % 2 else draw.choice(EXAMPLES).read_bytes())
        for _ in range(draw.randrange(4) if data else 0):
            data[draw.randrange(len(data))] = draw.randrange(256)
        for done in (tools.run("lower", tools.file(bytes(data))), tools.run("gilthoren-sheet", "cells", data=bytes(data)),
                     tools.run("gilthoren-sheet", "text", data=bytes(data)), tools.run("gilthoren-intel", data=bytes(data))):
            if done.returncode not in (0, 1, 2):
                fail(f"status {done.returncode} on {bytes(data)!r}: {done.stderr.decode()}")


# -- what cannot be written

def check_full(tools):
    """A listing, cells or text that cannot be written give status 3 with the reason, and so do words."""
    sheet = ROOT / "examples/listing.sheet"
    cells, listing = tools.cells(sheet.read_bytes())[1], tools.lower(sheet.read_bytes())[1]
    runs = [("lower", [sheet], b""), ("lower", [ROOT / "examples/refused.sheet"], b""), ("listing", [], b""), ("gilthoren-sheet", ["cells"], sheet.read_bytes()),
            ("gilthoren-sheet", ["text"], cells), ("gilthoren-intel", [sheet], listing)]
    for program, words, data in runs:
        with open("/dev/full", "wb") as full:
            needs(f"{program} on a full disk", tools.run(program, *words, data=data, stdout=full), 3, "cannot write: No space left on device")
        closed = subprocess.run(["sh", "-c", '"$0" "$@" >&-', tools.folder / program, *words], input=data, stderr=subprocess.PIPE)
        needs(f"{program} without standard output", closed, 3, "cannot write: Bad file descriptor")
    with open("/dev/full", "wb") as full:
        if subprocess.run([tools.folder / "lower", sheet], stdout=subprocess.DEVNULL, stderr=full).returncode != 3:
            fail("lower loses its words")


def main():
    if len(sys.argv) != 2:
        raise SystemExit(__doc__)
    with tempfile.TemporaryDirectory() as scratch:
        tools = Tools(sys.argv[1], scratch)
        for check in (check_line_ends, check_listing_ends, check_wide, check_bytes, check_names, check_random, check_full):
            check(tools)
        print(f"files: {tools.runs} runs on files as others leave them")


if __name__ == "__main__":
    main()
