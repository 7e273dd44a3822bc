#!/usr/bin/env python3
"""Findings of `smtreview` beside the solver's own verdict on the difference.

Each random pair of terms is reviewed by one of the three relations. The solver alone is given `(set-logic ALL)`, the script that
`smtcli script` prints for a job whose one term says where the relation fails, and `(check-sat)`: `unsat` has to be `holds`, `sat`
`fails`, and `unknown` `unknown`. One pair in three is of terms that are alike, so that each finding comes often. The pairs are the
same in every run. The status is 1 where a finding differs or a program fails, and 0 else.
"""

import argparse
import collections
import random
import subprocess
import sys

sys.dont_write_bytecode = True  # The file beside this one leaves nothing behind.

import check

FINDINGS = {"unsat": "holds", "sat": "fails", "unknown": "unknown"}
DIFFERENCES = {"equivalent": "(not (eq {0} {1}))", "implies": "(and {0} (not {1}))", "disjoint": "(and {0} {1})"}


def pair(draw):
    """Two terms. Of those that are alike the second is the first, said in other words."""
    first = check.truth(draw, draw.randrange(1, 4))
    second = check.truth(draw, draw.randrange(1, 4))
    alike = [f"(not (not {first}))", f"(or {first} (and {first} {second}))", f"(not {first})", f"(and {first} {second})"]
    return first, draw.choice(alike) if draw.random() < 0.34 else second


def main():
    parser = argparse.ArgumentParser(description=__doc__, formatter_class=argparse.RawDescriptionHelpFormatter)
    parser.add_argument("--program", default=str(check.TOP / "crates/smtcli/out/smtcli"), help="the built smtcli")
    parser.add_argument("--review", default=str(check.TOP / "crates/smtreview/out/smtreview"), help="the built smtreview")
    parser.add_argument("--pairs", type=int, default=1000, help="how many pairs")
    parser.add_argument("solver", nargs="*", default=["cvc5", "--lang", "smt", "--incremental", "--strings-exp", "--rlimit-per=100000"], help="the solver and its arguments")
    args = parser.parse_args()
    draw, counts, failed = random.Random(check.SEED), collections.Counter(), 0
    declared = check.random_job(draw).partition("(terms")[0]
    for place in range(args.pairs):
        relation, (first, second) = draw.choice(sorted(DIFFERENCES)), pair(draw)
        differs = DIFFERENCES[relation].format(first, second)
        try:
            status, finding, said = check.call([args.review, relation, *args.solver], f"{declared}(terms {first} {second}))\n")
            if status != 0:
                raise RuntimeError(f"smtreview ended with {status}: {said.strip()}")
            status, script, said = check.call([args.program, "script"], f"{declared}(terms {differs}))\n")
            if status != 0:
                raise RuntimeError(f"script ended with {status}: {said.strip()}")
            alone = check.call(args.solver, f"(set-logic ALL)\n{script}(check-sat)\n")[1].strip()
        except (OSError, RuntimeError, subprocess.TimeoutExpired) as error:
            print(f"pair {place}: {error}", file=sys.stderr)
            failed += 1
            continue
        counts[f"{relation} {finding.strip()}"] += 1
        if FINDINGS.get(alone) != finding.strip():
            print(f"pair {place}: smtreview says {finding.strip()}, the solver {alone}\n{relation} {first} {second}", file=sys.stderr)
            failed += 1
    print(", ".join(f"{count} {name}" for name, count in sorted(counts.items())) + f", {failed} failed")
    return 1 if failed else 0


if __name__ == "__main__":
    sys.exit(main())
