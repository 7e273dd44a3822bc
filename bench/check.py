#!/usr/bin/env python3
"""Verdicts of `smtcli check` beside the solver's own on the script that `smtcli script` prints.

Each job of `examples/` that has one check, and many random jobs, are checked twice: once by `smtcli check SOLVER ARGS..`, and once by the solver
alone, which is given `(set-logic ALL)`, the printed script and `(check-sat)`. The two have to say the same. The random jobs
are the same in every run. The status is 1 where two verdicts differ or a program fails, and 0 else. A solver that gives up says
`unknown`, and where its limit is one of time, the two may then differ.
"""

import argparse
import collections
import pathlib
import random
import subprocess
import sys

TOP = pathlib.Path(__file__).resolve().parent.parent
SEED = 1

# The operators of jobs by the kind of their operands and of their result.
BOOLEAN = {"not": 1, "and": 2, "or": 2}
ARITHMETIC = ["bvadd", "bvsub", "bvmul", "bvudiv", "bvurem", "bvsdiv", "bvsrem", "bvsmod", "bvshl", "bvlshr"]
COMPARISONS = ["bvult", "bvule", "bvslt", "bvsle", "eq"]
OVERFLOWS = ["bvsaddo", "bvssubo", "bvsmulo"]
WIDTHS = [1, 3, 8, 64]


def bits(draw, width, depth):
    """A term of this width."""
    if depth == 0 or draw.random() < 0.2:
        if draw.random() < 0.4:
            return f"(bv {width} {draw.randrange(2**width)})"
        return f'(var "x{draw.randrange(3)}:{width}")'
    choice = draw.random()
    if choice < 0.1:
        return f"(bvneg {bits(draw, width, depth - 1)})"
    if choice < 0.2:
        return f"(ite {truth(draw, depth - 1)} {bits(draw, width, depth - 1)} {bits(draw, width, depth - 1)})"
    if choice < 0.3 and width > 1:
        return f"(zero_extend {width - 1} {bits(draw, 1, depth - 1)})"
    operator = draw.choice(ARITHMETIC)
    return f"({operator} {bits(draw, width, depth - 1)} {bits(draw, width, depth - 1)})"


def truth(draw, depth):
    """A Boolean term."""
    if depth == 0:
        return draw.choice(["true", "false", '(var "p")', '(var "q")'])
    choice = draw.random()
    if choice < 0.3:
        operator = draw.choice(sorted(BOOLEAN))
        return f"({operator} {' '.join(truth(draw, depth - 1) for _ in range(BOOLEAN[operator]))})"
    width = draw.choice(WIDTHS)
    if choice < 0.4:
        return f"(bvnego {bits(draw, width, depth - 1)})"
    operator = draw.choice(COMPARISONS + OVERFLOWS)
    return f"({operator} {bits(draw, width, depth - 1)} {bits(draw, width, depth - 1)})"


def random_job(draw):
    variables = ['("p" Bool)', '("q" Bool)']
    variables += [f'("x{place}:{width}" (BitVec {width}))' for place in range(3) for width in WIDTHS]
    terms = [truth(draw, draw.randrange(1, 4)) for _ in range(draw.randrange(1, 5))]
    return f"(job (enums) (vars {' '.join(variables)}) (funs) (terms {' '.join(terms)}))\n"


def call(command, given):
    done = subprocess.run(command, input=given.encode(), stdout=subprocess.PIPE, stderr=subprocess.PIPE, timeout=120)
    return done.returncode, done.stdout.decode(), done.stderr.decode()


def verdicts(program, solver, job):
    """What `check` says of a job, and what the solver alone says of its script."""
    status, verdict, said = call([program, "check", *solver], job)
    if status != 0:
        raise RuntimeError(f"check ended with {status}: {said.strip()}")
    status, script, said = call([program, "script"], job)
    if status != 0:
        raise RuntimeError(f"script ended with {status}: {said.strip()}")
    _, alone, _ = call(solver, f"(set-logic ALL)\n{script}(check-sat)\n")
    return verdict.strip(), alone.strip()


def main():
    parser = argparse.ArgumentParser(description=__doc__, formatter_class=argparse.RawDescriptionHelpFormatter)
    parser.add_argument("--program", default=str(TOP / "crates/smtcli/out/smtcli"), help="the built smtcli")
    parser.add_argument("--jobs", type=int, default=1000, help="how many random jobs")
    parser.add_argument("solver", nargs="*", default=["cvc5", "--lang", "smt", "--strings-exp", "--rlimit-per=100000"], help="the solver and its arguments; by default cvc5 with a limit on its steps, which does not depend on the machine")
    args = parser.parse_args()
    draw = random.Random(SEED)
    jobs = [(path.name, path.read_text()) for path in sorted((TOP / "examples").glob("*.job"))]
    jobs = [(name, job) for name, job in jobs if "(steps" not in job]  # those are asked by steps.py
    examples = len(jobs)
    jobs += [(f"random job {place}", random_job(draw)) for place in range(args.jobs)]
    counts = collections.Counter()
    failed = 0
    for place, (name, job) in enumerate(jobs):
        try:
            verdict, alone = verdicts(args.program, args.solver, job)
        except (OSError, RuntimeError, subprocess.TimeoutExpired) as error:
            print(f"{name}: {error}", file=sys.stderr)
            failed += 1
            continue
        if place < examples:
            print(f"{name}: {verdict}")
        counts[verdict] += 1
        if verdict != alone:
            print(f"{name}: check says {verdict}, the solver alone {alone}\n{job}", file=sys.stderr)
            failed += 1
    print(", ".join(f"{count} {verdict}" for verdict, count in sorted(counts.items())) + f", {failed} failed")
    return 1 if failed else 0


if __name__ == "__main__":
    sys.exit(main())
