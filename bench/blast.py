#!/usr/bin/env python3
"""Blasted scripts beside plain ones: the solver's verdicts, their sizes, and the time that blasting takes.

Each random job has Boolean terms over bitvectors of 1, 3, 8 and 64 bits, by the operators that `smtblast` takes. The solver is given
the script that `smtcli script` prints and the one that `smtblast` prints, each with `(set-logic ALL)` before it and `(check-sat)`
behind it: where it decides both, it has to say the same. The jobs are the same in every run. Then a job of sums and comparisons of 64
bits is blasted, and the last line has its size, that of both scripts, and the time of both programs. The status is 1 where two verdicts differ or a program fails, and 0 else.
"""

import argparse
import collections
import random
import subprocess
import sys
import time

sys.dont_write_bytecode = True  # The file beside this one leaves nothing behind.

import check

SUMS = ["bvadd", "bvsub", "bvshl", "bvlshr"]
TESTS = ["bvult", "bvule", "bvslt", "bvsle", "eq", "bvsaddo", "bvssubo"]
WIDTHS = [1, 3, 8, 64]


def bits(draw, width, depth):
    if depth == 0 or draw.random() < 0.2:
        return f"(bv {width} {draw.randrange(2**width)})" if draw.random() < 0.4 else f'(var "x{draw.randrange(3)}:{width}")'
    choice = draw.random()
    if choice < 0.15:
        return f"(bvneg {bits(draw, width, depth - 1)})"
    if choice < 0.3:
        return f"(ite {truth(draw, depth - 1)} {bits(draw, width, depth - 1)} {bits(draw, width, depth - 1)})"
    if choice < 0.4 and width > 1:
        return f"(zero_extend {width - 1} {bits(draw, 1, depth - 1)})"
    return f"({draw.choice(SUMS)} {bits(draw, width, depth - 1)} {bits(draw, width, depth - 1)})"


def truth(draw, depth):
    if depth == 0:
        return draw.choice(["true", "false", '(var "p")', '(var "q")'])
    choice = draw.random()
    if choice < 0.3:
        operator = draw.choice(sorted(check.BOOLEAN))
        return f"({operator} {' '.join(truth(draw, depth - 1) for _ in range(check.BOOLEAN[operator]))})"
    width = draw.choice(WIDTHS)
    if choice < 0.4:
        return f"(bvnego {bits(draw, width, depth - 1)})"
    return f"({draw.choice(TESTS)} {bits(draw, width, depth - 1)} {bits(draw, width, depth - 1)})"


def random_job(draw):
    declared = check.random_job(draw).partition("(terms")[0]
    return f"{declared}(terms {' '.join(truth(draw, draw.randrange(1, 4)) for _ in range(draw.randrange(1, 4)))}))\n"


def large_job(draw, size):
    """Comparisons of sums of sixteen variables of 64 bits, up to this size."""
    variables = " ".join(f'("y{place}" (BitVec 64))' for place in range(16))
    terms, length = [], 0
    while length < size:
        part = lambda: f'(var "y{draw.randrange(16)}")'
        terms.append(f"({draw.choice(TESTS[:4])} (bvadd {part()} {part()}) (bvsub {part()} (bv 64 {draw.randrange(2**64)})))")
        length += len(terms[-1])
    return f"(job (enums) (vars {variables}) (funs) (terms {' '.join(terms)}))\n"


def script_of(words, job):
    status, script, said = check.call(words, job)
    if status != 0:
        raise RuntimeError(f"{words[0]} ended with {status}: {said.strip()}")
    return script


def verdict(solver, script):
    return check.call(solver, f"(set-logic ALL)\n{script}(check-sat)\n")[1].strip()


def timed(call):
    begin = time.time()
    given = call()
    return given, time.time() - begin


def main():
    parser = argparse.ArgumentParser(description=__doc__, formatter_class=argparse.RawDescriptionHelpFormatter)
    parser.add_argument("--program", default=str(check.TOP / "crates/smtcli/out/smtcli"), help="the built smtcli")
    parser.add_argument("--blast", default=str(check.TOP / "crates/smtblast/out/smtblast"), help="the built smtblast")
    parser.add_argument("--jobs", type=int, default=2000, help="how many random jobs")
    parser.add_argument("--size", type=int, default=1_000_000, help="how many bytes the large job has")
    parser.add_argument("solver", nargs="*", default=["cvc5", "--lang", "smt", "--strings-exp", "--rlimit-per=100000"], help="the solver and its arguments")
    args = parser.parse_args()
    draw, counts, failed = random.Random(check.SEED), collections.Counter(), 0
    for place in range(args.jobs):
        job = random_job(draw)
        try:
            plain = verdict(args.solver, script_of([args.program, "script"], job))
            blasted = verdict(args.solver, script_of([args.blast], job))
        except (OSError, RuntimeError, subprocess.TimeoutExpired) as error:
            print(f"job {place}: {error}", file=sys.stderr)
            failed += 1
            continue
        counts[blasted] += 1
        if plain != blasted and "unknown" not in (plain, blasted):
            print(f"job {place}: plain {plain}, blasted {blasted}\n{job}", file=sys.stderr)
            failed += 1
    print(", ".join(f"{count} {name}" for name, count in sorted(counts.items())) + f", {failed} failed")
    job = large_job(draw, args.size)
    plain, plain_time = timed(lambda: script_of([args.program, "script"], job))
    blasted, blast_time = timed(lambda: script_of([args.blast], job))
    print(f"a job of {len(job)} bytes: script {len(plain)} bytes in {plain_time:.2f} s, blasted {len(blasted)} bytes in {blast_time:.2f} s")
    return 1 if failed else 0


if __name__ == "__main__":
    sys.exit(main())
