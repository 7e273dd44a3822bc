#!/usr/bin/env python3
"""Formulas in the format DIMACS: `smtsat` beside cadical and minisat, and proofs gone through.

Makes random 3-SAT formulas on either side of the ratio 4.26, pigeons, and circuits whose two sides are equal, runs the programs in
turns, and prints tables in Markdown: the least time of some runs in seconds, the greatest memory in megabytes, and instructions in
millions where valgrind is there and is asked for. The second table has the time of `smtsat --proof` on the proofs that cadical writes,
beside the time of cadical as it writes them. With `--compare N` the answers on N random formulas are compared with cadical's in place of
that: a difference is printed, each model is looked at, and the status is 1 where one is wrong. The formulas are the same in every run.
"""

import argparse
import ctypes
import os
import pathlib
import random
import re
import shutil
import subprocess
import sys
import tempfile
import time

from script import PR_SET_CHILD_SUBREAPER, START

TOP = pathlib.Path(__file__).resolve().parent.parent
ANSWERS = {10: "sat", 20: "unsat", 0: "unknown"}


# ---- formulas: the number of variables and the clauses


def random_formula(variables, ratio, seed):
    draw, clauses = random.Random(seed), []
    for _ in range(int(variables * ratio)):
        chosen = draw.sample(range(1, variables + 1), 3)
        clauses.append([variable if draw.random() < 0.5 else -variable for variable in chosen])
    return variables, clauses


def pigeons(holes):
    """One pigeon more than there are holes, and no two in one hole."""
    number = lambda pigeon, hole: pigeon * holes + hole + 1
    clauses = [[number(pigeon, hole) for hole in range(holes)] for pigeon in range(holes + 1)]
    for hole in range(holes):
        for pigeon in range(holes + 1):
            clauses += [[-number(pigeon, hole), -number(other, hole)] for other in range(pigeon)]
    return holes * (holes + 1), clauses


class Circuit:
    """Gates as clauses (Tseitin); a bit is a literal, and equal gates are made once."""

    def __init__(self):
        self.variables, self.clauses, self.made = 0, [], {}
        self.false = self.bit()
        self.clauses.append([-self.false])

    def bit(self):
        self.variables += 1
        return self.variables

    def bits(self, width):
        return [self.bit() for _ in range(width)]

    def gate(self, name, first, second, clauses_of):
        key = (name, min(first, second), max(first, second))
        if key not in self.made:
            self.made[key] = out = self.bit()
            self.clauses += clauses_of(out)
        return self.made[key]

    def both(self, a, b):
        if a == b:
            return a
        if a == -b:
            return self.false
        return self.gate("and", a, b, lambda out: [[-out, a], [-out, b], [out, -a, -b]])

    def either(self, a, b):
        return -self.both(-a, -b)

    def differ(self, a, b):
        return self.gate("xor", a, b, lambda out: [[-out, a, b], [-out, -a, -b], [out, -a, b], [out, a, -b]])

    def add(self, xs, ys):
        carry, total = self.false, []
        for x, y in zip(xs, ys):
            half = self.differ(x, y)
            total.append(self.differ(half, carry))
            carry = self.either(self.both(x, y), self.both(half, carry))
        return total

    def multiply(self, xs, ys):
        width = len(xs)
        total = [self.false] * width
        for place, y in enumerate(ys):
            total = self.add(total, [self.false] * place + [self.both(x, y) for x in xs[: width - place]])
        return total

    def not_equal(self, xs, ys):
        self.clauses.append([self.differ(x, y) for x, y in zip(xs, ys)])
        return self.variables, self.clauses


def circuit_formula(kind, width):
    """That two equal circuits differ: no truths make that true."""
    made = Circuit()
    a, b, c = made.bits(width), made.bits(width), made.bits(width)
    if kind == "sums commute":
        return made.not_equal(made.add(a, b), made.add(b, a))
    if kind == "sums associate":
        return made.not_equal(made.add(made.add(a, b), c), made.add(a, made.add(b, c)))
    if kind == "products commute":
        return made.not_equal(made.multiply(a, b), made.multiply(b, a))
    three = [-made.false] * 2 + [made.false] * (width - 2)
    return made.not_equal(made.multiply(a, three), made.add(made.add(a, a), a))


def formulas():
    for variables in [100, 150, 200, 250]:
        for ratio in [4.0, 4.5]:
            for seed in [1, 2]:
                yield f"random {variables}, ratio {ratio}, seed {seed}", random_formula(variables, ratio, seed)
    for holes in [7, 8]:
        yield f"pigeons into {holes}", pigeons(holes)
    yield "sums commute, 32 bits", circuit_formula("sums commute", 32)
    yield "sums associate, 16 bits", circuit_formula("sums associate", 16)
    for width in [6, 7, 8]:
        yield f"products commute, {width} bits", circuit_formula("products commute", width)
    yield "a * 3 = a + a + a, 64 bits", circuit_formula("three", 64)


def text_of(formula):
    variables, clauses = formula
    lines = [f"p cnf {variables} {len(clauses)}"] + [" ".join(map(str, [*clause, 0])) for clause in clauses]
    return "\n".join(lines) + "\n"


def small_formula(draw):
    """A random formula of up to 60 variables, some of whose clauses are shorter, or empty."""
    variables = draw.randint(1, 60)
    longest = draw.choice([1, 2, 3, 3, 3, 4])
    clauses = []
    for _ in range(int(variables * draw.uniform(0.5, 7))):
        length = draw.randint(1, longest) if draw.random() < 0.3 else longest
        clauses.append([draw.choice([-1, 1]) * draw.randint(1, variables) for _ in range(length)])
    if draw.random() < 0.02:
        clauses.append([])
    return variables, clauses


# ---- programs


class Ended:
    """How a program ended: its status, what it printed, its seconds of processor time and its kilobytes."""

    def __init__(self, words, source, limit):
        with tempfile.TemporaryDirectory() as room:
            printed = pathlib.Path(room) / "printed"
            shell = ["sh", "-c", START, "sh", str(limit), str(source), str(printed), *words]
            started = int(subprocess.run(shell, stdout=subprocess.PIPE, stderr=subprocess.DEVNULL, check=True).stdout)
            _, status, used = os.wait4(started, 0)
            self.status = os.waitstatus_to_exitcode(status)
            self.text = printed.read_text(errors="replace")
        self.seconds, self.kilobytes = used.ru_utime + used.ru_stime, used.ru_maxrss

    @property
    def answer(self):
        return ANSWERS.get(self.status, f"status {self.status}")


def instructions(words, source):
    """Millions of instructions, by valgrind."""
    with open(source) as given:
        said = subprocess.run(["valgrind", "--tool=callgrind", "--callgrind-out-file=/dev/null", *words], stdin=given, stdout=subprocess.DEVNULL, stderr=subprocess.PIPE, text=True).stderr
    found = re.search(r"Collected\s*:\s*(\d+)", said)
    return f"{int(found[1]) / 1e6:.0f}" if found else "-"


def row(cells):
    print("| " + " | ".join(map(str, cells)) + " |", flush=True)


def head(cells):
    row(cells)
    row(["---"] * len(cells))


def programs(args, path):
    """The programs that are there, with their words."""
    given = [("smtsat", [args.program]), ("cadical", ["cadical", "-q", path]), ("minisat", ["minisat", "-verb=0", path])]
    return [(name, words) for name, words in given if shutil.which(words[0])]


def table(args, room):
    names = [name for name, _ in programs(args, "")]
    asked = args.instructions and shutil.which("valgrind")
    head(["formula", "answer"] + [f"{name} s" for name in names] + [f"{name} MB" for name in names] + ([f"{name} M instr." for name in names] if asked else []))
    differ, paths = 0, []
    for label, formula in formulas():
        path = str(room / f"{len(paths)}.cnf")
        pathlib.Path(path).write_text(text_of(formula))
        least, most, answers = {}, {}, {}
        for _ in range(args.runs):
            for name, words in programs(args, path):
                ended = Ended(words, path, args.limit)
                least[name] = min(least.get(name, ended.seconds), ended.seconds)
                most[name] = max(most.get(name, 0), ended.kilobytes)
                answers[name] = ended.answer
                if name == "smtsat" and ended.answer == "sat" and not is_model(formula, ended.text):
                    print(f"{label}: a wrong model", file=sys.stderr)
                    differ += 1
        decided = {answer for answer in answers.values() if answer in ("sat", "unsat")}
        if len(decided) > 1:
            print(f"{label}: {answers}", file=sys.stderr)
            differ += 1
        cells = [label, answers.get("smtsat")] + [f"{least[name]:.3f}" for name in names] + [f"{most[name] / 1024:.1f}" for name in names]
        row(cells + [instructions(words, path) for _, words in programs(args, path)] if asked else cells)
        paths.append((label, path, answers))
    return differ, paths


def proofs(args, room, paths):
    """The time of proofs that cadical writes, and that are gone through."""
    print()
    head(["proof", "steps", "cadical s", "smtsat --proof s", "smtsat MB", "answer"])
    refused = 0
    for label, path, answers in paths:
        if answers.get("cadical") != "unsat":
            continue
        proof = str(room / "proof")
        written = Ended(["cadical", "-q", "--no-binary", path, proof], path, args.limit)
        with open(proof) as lines:
            steps = sum(1 for _ in lines)
        ended = min((Ended([args.program, "--proof", proof], path, args.limit) for _ in range(args.runs)), key=lambda run: run.seconds)
        refused += ended.answer != "unsat"
        row([label, steps, f"{written.seconds:.3f}", f"{ended.seconds:.3f}", f"{ended.kilobytes / 1024:.1f}", ended.answer])
    return refused


# ---- answers


def is_model(formula, text):
    """Whether the lines that begin with v have each variable once, in order, and make each clause true."""
    variables, clauses = formula
    lines = text.splitlines()
    if lines[:1] != ["s SATISFIABLE"] or any(len(line) > 78 or not line.startswith("v ") for line in lines[1:]):
        return False
    words = [int(word) for line in lines[1:] for word in line.split()[1:]]
    if [abs(word) for word in words] != [*range(1, variables + 1), 0]:
        return False
    true = set(words)
    return all(any(literal in true for literal in clause) for clause in clauses)


def compare(args, room):
    draw, counts, wrong = random.Random(args.seed), {}, 0
    path, proof = str(room / "formula"), str(room / "proof")
    for place in range(args.compare):
        formula = small_formula(draw)
        pathlib.Path(path).write_text(text_of(formula))
        ended = Ended([args.program], path, args.limit)
        other = Ended(["cadical", "-q", "--no-binary", path, proof], path, args.limit)
        counts[ended.answer] = counts.get(ended.answer, 0) + 1
        fault = None
        if ended.answer != other.answer:
            fault = f"smtsat {ended.answer}, cadical {other.answer}"
        elif ended.answer == "sat" and not is_model(formula, ended.text):
            fault = "a wrong model"
        elif ended.answer == "unsat" and Ended([args.program, "--proof", proof], path, args.limit).answer != "unsat":
            fault = "cadical's proof is not gone through"
        if fault:
            print(f"formula {place}: {fault}\n{text_of(formula)}")
            wrong += 1
    print(", ".join(f"{count} {name}" for name, count in sorted(counts.items())) + f", {wrong} wrong")
    return wrong


def main():
    parser = argparse.ArgumentParser(description=__doc__, formatter_class=argparse.RawDescriptionHelpFormatter)
    parser.add_argument("--program", default=str(TOP / "crates/smtsat/out/smtsat"), help="the built smtsat")
    parser.add_argument("--runs", type=int, default=3, help="of how many runs the least time is taken")
    parser.add_argument("--limit", type=int, default=120, help="how many seconds a program may take")
    parser.add_argument("--instructions", action="store_true", help="count instructions by valgrind, which is slow")
    parser.add_argument("--compare", type=int, default=0, help="compare the answers on so many random formulas with cadical's")
    parser.add_argument("--seed", type=int, default=1, help="of the compared formulas")
    args = parser.parse_args()
    # A program is started by a shell, whose memory is small, and becomes a child of this process.
    if ctypes.CDLL(None).prctl(PR_SET_CHILD_SUBREAPER, 1) != 0:
        sys.exit("this system does not hand on the children of a process that has ended")
    with tempfile.TemporaryDirectory() as folder:
        room = pathlib.Path(folder)
        if args.compare:
            return 1 if compare(args, room) else 0
        differ, paths = table(args, room)
        refused = proofs(args, room, paths) if shutil.which("cadical") else 0
        return 1 if differ or refused else 0


if __name__ == "__main__":
    sys.exit(main())
