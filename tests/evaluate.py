#!/usr/bin/env python3
"""Has the checker itself evaluate the definitions: equations by refl over the oracle's stored answers and over stored runs.

usage: evaluate.py [--answers N] [--most BYTES] [--runs N] [--calls N] [--jobs N] [--behind-ci]

At most N answers of the fixed list (default 320), of at most BYTES bytes of tables and sheet (default 480) but that every refusal and several
instructions at fault are among them, N runs (default 120), and N calls of the other exports (default 120). Each job is one crate of equations. With --behind-ci, for tests/run
alone, they stand on the libraries that `rt ci` has left in crates/*/out.
"""
import argparse, time
import answers, calls, runs, scratch


def main():
    parser = argparse.ArgumentParser()
    parser.add_argument("--answers", type=int, default=320)
    parser.add_argument("--most", type=int, default=480)
    parser.add_argument("--runs", type=int, default=120)
    parser.add_argument("--calls", type=int, default=120)
    parser.add_argument("--jobs", type=int, default=1)
    parser.add_argument("--behind-ci", action="store_true")
    options = parser.parse_args()
    start = time.time()
    some, about_answers = answers.modules(options.answers, options.most, options.jobs)
    others, about_runs = runs.modules(options.runs, options.jobs)
    called, about_calls = calls.modules(options.calls, options.jobs)
    if some or others:
        scratch.check({**some, **others}, behind_ci=options.behind_ci)
    if called:
        scratch.check(called, calls.CRATES, behind_ci=options.behind_ci)
    print(f"evaluate: by the definitions, {about_answers}; {about_runs}; {about_calls}; {time.time() - start:.0f} s")


if __name__ == "__main__":
    main()
