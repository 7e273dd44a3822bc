#!/usr/bin/env python3
"""Jobs with steps: verdicts and scripts of many random ones, and the time and memory that checks add to a large one.

Each random job asserts, opens and closes levels, and checks several times. For it, and for each job of `examples/` that has steps,
`smtcli check SOLVER ARGS..` is asked once. The solver alone is asked once for each check, in a process of its own that is given
`(set-logic ALL)`, the lines that `smtcli script` prints up to there without the other checks, and `(check-sat)`. Where both
decide, they have to say the same. A solver that has a limit may give up in one way of asking and not in the other: such a check is
counted, and is no difference. The script of a random job has to be what is put together of the lines that `smtcli script` prints
for jobs with `terms`, which have no levels. The random jobs are the same in every run.

Then the script of a job of 16 MB is made, and that of the same job with a thousand checks behind it, each in a level of its
own. The table has the processor time and the peak memory of both, as `script.py` measures them. The status is 1 where there is a
difference or a program fails, and 0 else.
"""

import argparse
import collections
import ctypes
import pathlib
import random
import subprocess
import sys
import tempfile

sys.dont_write_bytecode = True  # The two files beside this one leave nothing behind.

import check
import script

CHECK = "(check-sat)\n"


def random_steps(draw):
    """Steps in order, each its name with its terms. None closes a level that is not open, and the last one checks."""
    steps, levels = [], 0
    for _ in range(draw.randrange(4, 16)):
        name = draw.choice(["assert", "assert", "push", "pop", "check"])
        if name == "pop" and levels == 0:
            name = "push"
        levels += {"push": 1, "pop": -1}.get(name, 0)
        terms = draw.randrange(1, 3) if name == "assert" else 0
        steps.append((name, [check.truth(draw, draw.randrange(1, 4)) for _ in range(terms)]))
    return [*steps, ("check", [])]


def job_of(declared, steps):
    return declared + "(steps " + " ".join(f"({' '.join([name, *terms])})" for name, terms in steps) + "))\n"


def script_of(program, job):
    """The lines that `script` prints."""
    status, printed, said = check.call([program, "script"], job)
    if status != 0:
        raise RuntimeError(f"script ended with {status}: {said.strip()}")
    return printed.splitlines(keepends=True)


def put_together(program, declared, steps):
    """The script of steps by the scripts of jobs with terms: in these the lines of a term stand behind those of the terms before
    it, and all assertions stand last."""
    levels, lines = [[]], []
    head = script_of(program, f"{declared}(terms))")
    for name, terms in steps:
        if name == "check":
            lines.append(CHECK)
            continue
        lines, head = lines + head, []
        if name == "push":
            lines.append("(push 1)\n")
            levels.append([])
        elif name == "pop":
            lines.append("(pop 1)\n")
            levels.pop()
        else:
            before = [term for level in levels for term in level]
            old = script_of(program, f"{declared}(terms {' '.join(before)}))")
            new = script_of(program, f"{declared}(terms {' '.join([*before, *terms])}))")
            lines += new[len(old) - len(before) : len(new) - len(before) - len(terms)]
            lines += new[len(new) - len(terms) :]
            levels[-1] += terms
    return lines


def verdicts(program, solver, job, lines):
    """What `check` says at each check of a job, and what the solver alone says of the lines before it."""
    status, words, said = check.call([program, "check", *solver], job)
    if status != 0:
        raise RuntimeError(f"check ended with {status}: {said.strip()}")
    alone = []
    for place, line in enumerate(lines):
        if line == CHECK:
            before = "".join(line for line in lines[:place] if line != CHECK)
            alone.append(check.call(solver, f"(set-logic ALL)\n{before}{CHECK}")[1].strip())
    return words.split("\n")[:-1], alone


def difference(words, alone):
    """Where the two say different things, what they say."""
    pairs = list(zip(words, alone))
    if len(words) != len(alone) or any(pair[0] != pair[1] and "unknown" not in pair for pair in pairs):
        return f"check says {words}, the solver alone {alone}"
    return ""


def compare(program, solver, count):
    """Asks about the examples with steps and about random jobs, prints what differs, and answers how many jobs failed."""
    draw, counts, failed = random.Random(check.SEED), collections.Counter(), 0
    texts = [(path.name, path.read_text()) for path in sorted((check.TOP / "examples").glob("*.job"))]
    jobs = [(name, None, job) for name, job in texts if "(steps" in job]
    for place in range(count):
        made = check.random_job(draw).partition("(terms")[0], random_steps(draw)
        jobs.append((f"random job {place}", made, job_of(*made)))
    for name, made, job in jobs:
        try:
            lines = script_of(program, job)
            words, alone = verdicts(program, solver, job, lines)
            fault = difference(words, alone)
            if made and not fault and lines != put_together(program, *made):
                fault = "its script is another"
        except (OSError, RuntimeError, subprocess.TimeoutExpired) as error:
            fault = str(error)
        if fault:
            print(f"{name}: {fault}\n{job}", file=sys.stderr)
            failed += 1
            continue
        if made is None:
            print(f"{name}: {' '.join(words)}")
        counts.update(words)
        counts["given up in one way alone"] += sum(one != other for one, other in zip(words, alone))
    print(", ".join(f"{number} {word}" for word, number in sorted(counts.items())) + f", {failed} failed")
    return failed


def write_steps(path, source, checks):
    """Writes the job `source`, which has terms, with a level for each check behind its terms."""
    declared, _, terms = source.read_text(encoding="ascii").partition(" (terms")
    with open(path, "w", encoding="ascii") as job:
        job.write(f"{declared} (steps (assert{terms.removesuffix('))')})")
        for place in range(checks):
            one, other = place % script.VARIABLES, (place + 1) % script.VARIABLES
            job.write(f' (push) (assert (and (var "x{one}") (not (var "x{other}")))) (check) (pop)')
        job.write("))")


def measure(program, options):
    """Prints a row for the large job and one for the same with checks, and answers how many runs failed."""
    if ctypes.CDLL(None).prctl(script.PR_SET_CHILD_SUBREAPER, 1) != 0:
        sys.exit("this system does not hand on the children of a process that has ended")
    script.put(["Job", "Time, s", "Memory, MB"])
    script.put(["---"] * 3)
    failed = 0
    with tempfile.TemporaryDirectory() as name:
        folder = pathlib.Path(name)
        script.write_job(folder / "terms", options.size, "Bool", script.random_tree)
        write_steps(folder / "steps", folder / "terms", options.checks)
        for what, job in [("random trees", "terms"), (f"the same with {options.checks} checks", "steps")]:
            found = script.take_turns([[program, "script"]], folder / job, folder, options)
            script.put([what, *script.row(found)])
            failed += bool(found[0].fault)
    return failed


def main():
    parser = argparse.ArgumentParser(description=__doc__, formatter_class=argparse.RawDescriptionHelpFormatter)
    parser.add_argument("--program", default=str(check.TOP / "crates/smtcli/out/smtcli"), help="the built smtcli")
    parser.add_argument("--jobs", type=int, default=1000, help="how many random jobs (1000)")
    parser.add_argument("--size", type=int, default=16_000_000, help="the bytes of the large job's terms, 0 for no such job (16000000)")
    parser.add_argument("--checks", type=int, default=1000, help="how many checks stand behind them (1000)")
    parser.add_argument("--runs", type=int, default=3, help="how many runs of the large job (3)")
    parser.add_argument("--limit", type=int, default=600, help="the seconds at which such a run is stopped (600)")
    parser.add_argument("solver", nargs="*", default=["cvc5", "--lang", "smt", "--incremental", "--strings-exp", "--rlimit-per=100000"], help="the solver and its arguments; by default cvc5 with a limit on its steps, which does not depend on the machine")
    options = parser.parse_args()
    failed = compare(options.program, options.solver, options.jobs)
    failed += measure(options.program, options) if options.size else 0
    return 1 if failed else 0


if __name__ == "__main__":
    sys.exit(main())
