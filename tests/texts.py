#!/usr/bin/env python3
"""Runs a program on each text of a file and holds its status and the first line of its standard error to what the file says.

usage: texts.py [--status N] FILE PROGRAM [WORDS..]

The program gets the text on standard input; its status is 1, or N. In FILE a text stands behind a line of three dashes with the line that is wanted, or
its start from the word on that it begins with; three dashes alone end the last text.
"""
import pathlib, subprocess, sys


def texts(file):
    """What is wanted, and the text."""
    parts = ("\n" + pathlib.Path(file).read_text()).split("\n--- ")[1:]
    for part in parts:
        wanted, _, text = part.partition("\n")
        yield wanted, text.removesuffix("\n---\n") + "\n"


def main():
    words = sys.argv[1:]
    status = 1
    if words[0] == "--status":
        status, words = int(words[1]), words[2:]
    file, program = words[0], words[1:]
    count = 0
    for wanted, text in texts(file):
        done = subprocess.run(program, input=text.encode(), capture_output=True)
        said = (done.stderr.decode().splitlines() or [""])[0]
        if done.returncode != status or wanted not in said:
            raise SystemExit(f"{file}: wanted  {wanted}\nstatus {done.returncode}: {said}\nof the text\n{text}")
        count += 1
    if count == 0:
        raise SystemExit(f"{file}: no texts")
    print(f"{file}: {count} texts")


if __name__ == "__main__":
    main()
