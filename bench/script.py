#!/usr/bin/env python3
"""Speed of `smtcli script`, alone or beside another program, as tables in Markdown.

Four families of jobs are measured at 1, 4 and 16 million bytes: negations, comparisons of sums, random trees, and sums
450 deep. The jobs are the same in every run of this script. They are written to a temporary folder, which is removed.
The other program is called as smtcli is, as `PROGRAM script` with the job on standard input.

A fifth family is a sum of a term with itself, 10, 20 and 40 deep. No job can write it, since a job has no way to share
a term. So it is measured with programs of its own, which are called as `PROGRAM DEPTH` and print the script of such a
term. Ours is `kembura_uses`.

A sixth family is the job that `gen 7 N` makes from the number 7, of a thousand, ten thousand and a hundred thousand terms.
Both programs are called as `PROGRAM gen 7 N`. They keep no script, and print six numbers of it.

Time is processor time, of the program and of the system for it, and memory is the peak of what was resident. Of several
runs the least of each counts. The programs take turns, so that other work on the machine falls on both. Their outputs
are compared by their SHA-256. The status is 1 where these differ or a program fails.

Where valgrind is there, one more run of each program counts its instructions in user space, by callgrind, at one size of a
family: no other work changes that count. `--no-instructions` leaves these runs out.
"""

import argparse
import ctypes
import dataclasses
import hashlib
import itertools
import os
import pathlib
import random
import re
import shutil
import signal
import subprocess
import sys
import tempfile

TOP = pathlib.Path(__file__).resolve().parent.parent
SIZES = [1_000_000, 4_000_000, 16_000_000]
DEPTHS = [10, 20, 40]
COUNTS = [1_000, 10_000, 100_000]
# The size of each family at which instructions are counted, which takes fifty times as long as a run.
COUNTED = {"1 MB", "100000 terms", "depth 40"}
VARIABLES = 1000
SEED = 1

# A shell starts the program and ends, and the program becomes a child of this process. What Linux tells as a program's
# peak is at least the memory of the process that forked it: one megabyte for a shell, and twenty for Python.
START = """
limit=$1 source=$2 printed=$3
shift 3
ulimit -c 0
ulimit -S -t "$limit"
"$@" <"$source" >"$printed" &
echo $!
"""
PR_SET_CHILD_SUBREAPER = 36


def variable(draw):
    return f'(var "x{draw.randrange(VARIABLES)}")'


def negation(draw, _):
    return f"(not {variable(draw)})"


def comparison_of_sum(draw, place):
    return f"(bvslt (bvadd {variable(draw)} {variable(draw)}) (bv 64 {place}))"


def random_tree(draw, _):
    return tree(draw, 5)


def tree(draw, depth):
    if depth == 0:
        return variable(draw)
    operator = draw.choice(["and", "or", "not", "eq"])
    operands = [tree(draw, depth - 1) for _ in range(1 if operator == "not" else 2)]
    return f"({operator} {' '.join(operands)})"


def deep_sum(_, place):
    """A sum 450 deep. Such sums differ in their innermost summand alone, and repeat after a thousand."""
    innermost = f'(var "x{place % VARIABLES}")'
    return "(bvslt " + "(bvadd " * 450 + innermost + ' (var "x1"))' * 450 + " (bv 64 7))"


# Each family of jobs: its name, the type of its variables, and its term at a place.
JOBS = [
    ("negations", "Bool", negation),
    ("comparisons of sums", "(BitVec 64)", comparison_of_sum),
    ("random trees", "Bool", random_tree),
    ("sums 450 deep", "(BitVec 64)", deep_sum),
]
SHARED = "a sum of a term with itself"
GENERATED = "a job from a number"


def write_job(path, size, sort, term):
    """Writes a job of as many terms as `size` bytes hold."""
    draw = random.Random(SEED)
    variables = "".join(f' ("x{i}" {sort})' for i in range(VARIABLES))
    end = "))"
    with open(path, "w", encoding="ascii") as job:
        written = job.write(f"(job (enums) (vars{variables}) (funs) (terms")
        for place in itertools.count():
            text = " " + term(draw, place)
            if written + len(text) + len(end) > size:
                break
            written += job.write(text)
        job.write(end)


@dataclasses.dataclass(frozen=True)
class Run:
    """What a run took and printed, or its fault, and whether the program is to blame for that."""

    seconds: float = 0.0
    megabytes: float = 0.0
    digest: str = ""
    fault: str = ""
    failed: bool = False

    def least(self, other):
        """The least of both, or the first fault."""
        if self.fault or other.fault:
            return self if self.fault else other
        if self.digest != other.digest:
            return Run(fault="two outputs", failed=True)
        return Run(min(self.seconds, other.seconds), min(self.megabytes, other.megabytes), self.digest)


def run(command, source, printed, limit):
    """One run of a command, which reads the file `source` and prints to the file `printed`."""
    shell = ["sh", "-c", START, "sh", str(limit), str(source), str(printed), *command]
    started = int(subprocess.run(shell, stdout=subprocess.PIPE, check=True).stdout)
    try:
        _, status, usage = os.wait4(started, 0)
    except KeyboardInterrupt:
        os.kill(started, signal.SIGKILL)
        raise
    code = os.waitstatus_to_exitcode(status)
    if code == -signal.SIGXCPU:
        return Run(fault=f"over {limit} s")
    if code != 0:
        return Run(fault=f"signal {-code}" if code < 0 else f"status {code}", failed=True)
    digest = hashlib.sha256(printed.read_bytes()).hexdigest()
    return Run(usage.ru_utime + usage.ru_stime, usage.ru_maxrss * 1024 / 1e6, digest)


def instructions(command, source, options):
    """How many million instructions a command takes on the file `source`, or None where they are not counted."""
    if not options.instructions or command is None:
        return None
    counter = ["valgrind", "--tool=callgrind", "--callgrind-out-file=/dev/null", *command]
    with open(source, "rb") as read:
        counted = subprocess.run(counter, stdin=read, stdout=subprocess.DEVNULL, stderr=subprocess.PIPE, check=False)
    found = re.search(rb"Collected : (\d+)", counted.stderr)
    return int(found[1]) / 1e6 if found and counted.returncode == 0 else None


def take_turns(commands, source, folder, options):
    """The least of the runs of each command. A command that had a fault is not run again, and None is not run."""
    found = [Run(fault="not run")] * len(commands)
    for turn in range(options.runs):
        for place, command in enumerate(commands):
            if command is None or (turn > 0 and found[place].fault):
                continue
            again = run(command, source, folder / "printed", options.limit)
            found[place] = again if turn == 0 else found[place].least(again)
    return found


def job_cases(sort, term, folder):
    """The sizes of a family of jobs: what the size is called, the words for a program, and what it reads."""
    for size in SIZES:
        write_job(folder / "job", size, sort, term)
        yield f"{size // 1_000_000} MB", ["script"], folder / "job"


def shared_cases():
    """The same of a sum of a term with itself."""
    for depth in DEPTHS:
        yield f"depth {depth}", [str(depth)], os.devnull


def generated_cases():
    """The same of a job from a number."""
    for count in COUNTS:
        yield f"{count} terms", ["gen", "7", str(count)], os.devnull


def row(found, counts):
    """The cells of a row: what each program took, and both beside each other where there are two without fault."""
    cells = []
    for one, count in zip(found, counts):
        cells += [one.fault, "-"] if one.fault else [f"{one.seconds:.3f}", f"{one.megabytes:.1f}"]
        cells += ["-" if count is None else f"{count:.0f}"]
    if len(found) == 2 and not any(one.fault for one in found):
        ours, public = found
        cells += [ratio(ours.seconds, public.seconds), ratio(ours.megabytes, public.megabytes)]
        cells += ["-" if None in counts else ratio(*counts)]
        cells += ["equal" if ours.digest == public.digest else "DIFFERENT"]
    return cells


def ratio(above, below):
    return f"{above / below:.2f}" if below else "-"


def growth(family, rows):
    """How much more the last size of a family takes than the one before it."""
    (small, before), (large, after) = rows[-2:]
    programs = []
    for name, one, other in zip(["ours", "public"], before, after):
        if not one.fault and not other.fault:
            time, memory = ratio(other.seconds, one.seconds), ratio(other.megabytes, one.megabytes)
            programs.append(f"{name} {time} times the time and {memory} times the memory")
    return f"- {family}, {large} by {small}: " + ("; ".join(programs) or "not measured")


def put(cells):
    print("|", " | ".join(cells), "|", flush=True)


def families(folder, options):
    """Each family: its name, the programs that are measured, and its sizes."""
    for family, sort, term in JOBS:
        yield family, [path for path in (options.ours, options.public) if path], job_cases(sort, term, folder)
    yield GENERATED, [path for path in (options.ours, options.public) if path], generated_cases()
    if options.shared:
        yield SHARED, [path for path in (options.shared, options.public_shared) if path], shared_cases()


def measure(family, programs, cases, folder, columns, options):
    """Prints a row for each size of a family, and gives the sizes with their runs.

    A program that had a fault at one size is not run at those above.
    """
    rows = []
    for size, words, source in cases:
        before = rows[-1][1] if rows else [Run()] * len(programs)
        commands = [None if one.fault else [program, *words] for one, program in zip(before, programs)]
        found = take_turns(commands, source, folder, options)
        counted = [command if size in COUNTED and not one.fault else None for one, command in zip(found, commands)]
        counts = [instructions(command, source, options) for command in counted]
        rows.append((size, found))
        cells = [family, size, *row(found, counts)]
        put(cells + ["-"] * (columns - len(cells)))
    return rows


def is_fine(rows):
    """Whether no program failed, and those that ran to their end printed the same."""
    outputs = [{one.digest for one in found if not one.fault} for _, found in rows]
    return all(len(digests) < 2 for digests in outputs) and not any(one.failed for _, found in rows for one in found)


def arguments():
    def program(path):
        found = pathlib.Path(path).absolute()
        if not os.access(found, os.X_OK) or found.is_dir():
            raise argparse.ArgumentTypeError(f"{path} is no program")
        return str(found)

    def positive(text):
        if not text.isdecimal() or int(text) == 0:
            raise argparse.ArgumentTypeError(f"{text} is no number above 0")
        return int(text)

    parser = argparse.ArgumentParser(description=__doc__, formatter_class=argparse.RawDescriptionHelpFormatter)
    ours = str(TOP / "crates/smtcli/out/smtcli")
    sums = TOP / "crates/kembura_uses/out/kembura_uses"
    shared = str(sums) if os.access(sums, os.X_OK) else None
    parser.add_argument("--ours", metavar="PROGRAM", type=program, default=ours, help="smtcli, as `rt run` builds it")
    parser.add_argument("--public", metavar="PROGRAM", type=program, help="the program to compare with")
    parser.add_argument(
        "--shared", metavar="PROGRAM", type=program, default=shared, help="kembura_uses, as `rt run -- 40` builds it"
    )
    parser.add_argument("--public-shared", metavar="PROGRAM", type=program, help="the same of the public crate")
    parser.add_argument("--runs", metavar="N", type=positive, default=3, help="how many runs (3)")
    parser.add_argument(
        "--limit", metavar="SECONDS", type=positive, default=600, help="the time at which a run is stopped (600)"
    )
    parser.add_argument(
        "--no-instructions",
        dest="instructions",
        action="store_false",
        default=shutil.which("valgrind") is not None,
        help="count no instructions, also where valgrind is there",
    )
    return parser.parse_args()


def main():
    options = arguments()
    if ctypes.CDLL(None).prctl(PR_SET_CHILD_SUBREAPER, 1) != 0:
        sys.exit("this system does not hand on the children of a process that has ended")
    heads = ["Family", "Size", "Ours, s", "Ours, MB", "Ours, million instructions"]
    if options.public or options.public_shared:
        heads += ["Public, s", "Public, MB", "Public, million instructions"]
        heads += ["Time, ours by public", "Memory, ours by public", "Instructions, ours by public", "Outputs"]
    put(heads)
    put(["---"] * len(heads))

    lines, fine = [], True
    with tempfile.TemporaryDirectory() as name:
        folder = pathlib.Path(name)
        for family, programs, cases in families(folder, options):
            rows = measure(family, programs, cases, folder, len(heads), options)
            lines.append(growth(family, rows))
            fine = fine and is_fine(rows)
    if not options.shared:
        lines.append(f"- {SHARED}: not measured, since `--shared` names no program")
    print()
    print("\n".join(lines))
    sys.exit(0 if fine else 1)


if __name__ == "__main__":
    main()
