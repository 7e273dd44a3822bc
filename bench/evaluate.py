#!/usr/bin/env python3
"""What `smteval` says of random jobs with random assignments beside a solver's verdicts, and the time that it takes.

Each random job has Boolean terms over bitvectors of 1, 3, 8 and 64 bits, over options and sets of 3 bits, IP ranges, and two functions of
3 bits and of one truth value. Its assignment gives all of them values, and what `option.get` of none and the selectors of IP ranges give.
The solver is asked about each term in a level of its own, with the values of the assignment asserted below it: where it decides,
it has to say `sat` of exactly those of which `smteval` says `true`. The jobs are the same in every run. Then comparisons of sums of a
thousand variables are evaluated, a job of a quarter of the greatest size and one of nearly all of it, each with the values of its variables:
a line has the size, the processor time of `smteval` and that of `smtcli script` on the job alone. The status is 1 where two answers differ or a
program fails, and 0 else.
"""

import argparse
import collections
import random
import resource
import subprocess
import sys

sys.dont_write_bytecode = True  # The file beside this one leaves nothing behind.

import check

RANGES = ["1.2.3.4", "10.0.0.0/8", "0.0.0.0/0", "::1", "::/0", "2001:db8::/32"]
DECLARED = " ".join(f'("o{place}" (Option (BitVec 3))) ("s{place}" (Set (BitVec 3))) ("i{place}" IpAddr)' for place in range(2))
FUNCTIONS = '("f" (BitVec 3) (BitVec 8)) ("g" Bool Bool)'
# The selectors of IP ranges, with the width of what they give, and whether this is an option.
SELECTORS = {"ipaddr.addrV4": (32, False), "ipaddr.prefixV4": (5, True), "ipaddr.addrV6": (128, False), "ipaddr.prefixV6": (7, True)}


def literal(draw, width):
    return f"(bv {width} {draw.randrange(2**width)})"


def option(draw, width):
    return f"(none (BitVec {width}))" if draw.random() < 0.5 else f"(some {literal(draw, width)})"


def elements(draw):
    return f"(set (BitVec 3) {' '.join(literal(draw, 3) for _ in range(draw.randrange(3)))})"


def other_truth(draw):
    """A Boolean term over what the terms of `check` leave out."""
    two = lambda name: f'(var "{name}{draw.randrange(2)}")'
    return draw.choice([
        lambda: f"(eq (option.get {two('o')}) {check.bits(draw, 3, 1)})",
        lambda: f"(set.member {check.bits(draw, 3, 1)} {two('s')})",
        lambda: f"(set.subset {two('s')} (set.inter {two('s')} {elements(draw)}))",
        lambda: f"(eq (uuf \"f\" {check.bits(draw, 3, 2)}) {check.bits(draw, 8, 1)})",
        lambda: f"(uuf \"g\" {check.truth(draw, 1)})",
        lambda: f"(bvult (ipaddr.addrV4 {two('i')}) {literal(draw, 32)})",
        lambda: f"(eq (ipaddr.prefixV6 {two('i')}) {option(draw, 7)})",
        lambda: f"(and (ipaddr.isV4 {two('i')}) (eq (ipaddr.prefixV4 {two('i')}) {option(draw, 5)}))",
        lambda: f"(bvule (ipaddr.addrV6 {two('i')}) {literal(draw, 128)})",
    ])()


def random_terms(draw):
    plain = lambda: check.truth(draw, draw.randrange(1, 4))
    joined = lambda: f"({draw.choice(['and', 'or'])} {plain()} {other_truth(draw)})"
    return [draw.choice([plain, joined, lambda: other_truth(draw)])() for _ in range(draw.randrange(1, 5))]


def random_values(draw):
    """The sections of an assignment, and the equations that say the same to a solver."""
    values = {name: draw.choice(["true", "false"]) for name in "pq"}
    values |= {f"x{place}:{width}": literal(draw, width) for place in range(3) for width in check.WIDTHS}
    for place in range(2):
        values |= {f"o{place}": option(draw, 3), f"s{place}": elements(draw), f"i{place}": f'(ip "{draw.choice(RANGES)}")'}
    tables = {"f": [(f"(bv 3 {key})", literal(draw, 8)) for key in range(8)], "g": [(key, draw.choice(["true", "false"])) for key in ("true", "false")]}
    get = literal(draw, 3)
    selectors = {}
    for name, (width, is_option) in SELECTORS.items():
        others = [text for text in RANGES if (":" in text) == name.endswith("V4")]
        selectors[name] = [(f'(ip "{text}")', option(draw, width) if is_option else literal(draw, width)) for text in others]
    variables = " ".join(f'("{name}" {value})' for name, value in values.items())
    # The last key of a table is left to the value elsewhere.
    table = lambda name, pairs: f'("{name}" {pairs[-1][1]} {" ".join(f"({key} {value})" for key, value in pairs[:-1])})'
    functions = " ".join(table(*entry) for entry in tables.items())
    sections = f"(vars {variables}) (funs {functions}) (gets ((BitVec 3) {get})) (selectors {' '.join(table(*entry) for entry in selectors.items())})"
    equations = [f'(eq (var "{name}") {value})' for name, value in values.items()]
    equations += [f'(eq (uuf "{name}" {key}) {value})' for name, pairs in tables.items() for key, value in pairs]
    equations += [f"(eq (option.get (none (BitVec 3))) {get})"]
    equations += [f"(eq ({name} {key}) {value})" for name, pairs in selectors.items() for key, value in pairs]
    return sections, equations


def job_of(last):
    variables = ['("p" Bool)', '("q" Bool)'] + [f'("x{place}:{width}" (BitVec {width}))' for place in range(3) for width in check.WIDTHS]
    return f"(job (enums) (vars {' '.join(variables)} {DECLARED}) (funs {FUNCTIONS}) {last})"


def answers(program, given):
    status, put, said = check.call([program], given)
    if status != 0:
        raise RuntimeError(f"smteval ended with {status}: {said.strip()}")
    return put.split()


def verdicts(program, solver, terms, equations):
    asked = " ".join(f"(push) (assert {term}) (check) (pop)" for term in terms)
    status, put, said = check.call([program, "check", *solver], job_of(f"(steps (assert {' '.join(equations)}) {asked})"))
    if status != 0:
        raise RuntimeError(f"check ended with {status}: {said.strip()}")
    return put.split()


def differ(lines, words):
    """Whether the lines of an evaluation and the words of a solver about its terms differ where the solver decides."""
    truths = lines[:-1]
    holds = "holds" if all(truth == "true" for truth in truths) else "fails"
    pairs = zip(truths, words)
    return lines[-1] != holds or len(truths) != len(words) or any(word not in ("unknown", "sat" if truth == "true" else "unsat") for truth, word in pairs)


def large_job(draw, size):
    """Comparisons of sums of a thousand variables, and the assignment of their values, up to this size together."""
    variables = " ".join(f'("y{place}" (BitVec 64))' for place in range(1000))
    values = " ".join(f'("y{place}" {literal(draw, 64)})' for place in range(1000))
    terms, length = [], len(variables) + len(values) + 100
    part = lambda: f'(var "y{draw.randrange(1000)}")'
    while length < size:
        terms.append(f"(bvult (bvadd {part()} {part()}) {literal(draw, 64)})")
        length += len(terms[-1]) + 1
    job = f"(job (enums) (vars {variables}) (funs) (terms {' '.join(terms)}))"
    return job, f"(eval {job} (vars {values}) (funs) (gets) (selectors))"


def processor_time(command, given):
    before = resource.getrusage(resource.RUSAGE_CHILDREN)
    subprocess.run(command, input=given.encode(), stdout=subprocess.DEVNULL, check=True)
    after = resource.getrusage(resource.RUSAGE_CHILDREN)
    return after.ru_utime + after.ru_stime - before.ru_utime - before.ru_stime


def main():
    parser = argparse.ArgumentParser(description=__doc__, formatter_class=argparse.RawDescriptionHelpFormatter)
    parser.add_argument("--program", default=str(check.TOP / "crates/smtcli/out/smtcli"), help="the built smtcli")
    parser.add_argument("--evaluate", default=str(check.TOP / "crates/smteval/out/smteval"), help="the built smteval")
    parser.add_argument("--jobs", type=int, default=2000, help="how many random jobs")
    parser.add_argument("--size", type=int, default=16_700_000, help="how many bytes the greatest input has")
    parser.add_argument("solver", nargs="*", default=["cvc5", "--lang", "smt", "--incremental", "--strings-exp", "--rlimit-per=100000"], help="the solver and its arguments")
    args = parser.parse_args()
    draw, counts, failed = random.Random(check.SEED), collections.Counter(), 0
    for place in range(args.jobs):
        terms = random_terms(draw)
        sections, equations = random_values(draw)
        try:
            lines = answers(args.evaluate, f"(eval {job_of(f'(terms {chr(32).join(terms)})')} {sections})")
            words = verdicts(args.program, args.solver, terms, equations)
        except (OSError, RuntimeError, subprocess.TimeoutExpired) as error:
            print(f"job {place}: {error}", file=sys.stderr)
            failed += 1
            continue
        counts.update(lines)
        counts["undecided"] += words.count("unknown")
        if differ(lines, words):
            print(f"job {place}: {lines} beside {words}\n{terms}\n{sections}", file=sys.stderr)
            failed += 1
    print(", ".join(f"{count} {name}" for name, count in sorted(counts.items())) + f", {failed} failed")
    for size in (args.size // 4, args.size):
        job, given = large_job(draw, size)
        evaluated, written = processor_time([args.evaluate], given), processor_time([args.program, "script"], job)
        print(f"{len(given)} bytes evaluated in {evaluated:.2f} s, the job's script in {written:.2f} s, {evaluated / written:.2f} times")
    return 1 if failed else 0


if __name__ == "__main__":
    sys.exit(main())
