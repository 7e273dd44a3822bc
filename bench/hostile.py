#!/usr/bin/env python3
"""Asks cvc5 about jobs whose texts would end a line, a comment, a string or an expression.

    bench/hostile.py [--ours PROGRAM] [--solver PROGRAM]

Each of 13 texts stands in each of 6 places: the id of a variable or of a function, an attribute, an entity type, a member of an
enum type, and a string. The script of each job is given to the solver between `(set-logic ALL)` and `(check-sat)`. The solver must say the
same as of the job with a plain text there, and nothing else. The last line counts the jobs, and the status is 0 where all
agree.
"""
import argparse
import pathlib
import subprocess
import sys

TEXTS = ["\n", "\r", "\r\n", '"', "\\", "|", ";", "(assert false)", "\0", "\x7f", "\\u{5c}", "\U0002ffff", ""]
PLACES = {
    "a variable": '(job (enums) (vars ("#" Bool)) (funs) (terms (var "#")))',
    "a function": '(job (enums) (vars ("b" Bool)) (funs ("#" Bool Bool)) (terms (uuf "#" (var "b"))))',
    "an attribute": '(job (enums) (vars ("r" (Record ("#" Bool)))) (funs) (terms (record.get "#" (var "r"))))',
    "an entity type": '(job (enums) (vars ("u" (Entity "#"))) (funs) (terms (eq (var "u") (entity "#" "a"))))',
    "a member": '(job (enums ("Color" "#")) (vars ("c" (Entity "Color"))) (funs) (terms (eq (var "c") (entity "Color" "#"))))',
    "a string": '(job (enums) (vars ("s" String)) (funs) (terms (eq (var "s") "#")))',
}


def literal(text):
    """The characters of a text as a string of a job has them."""
    plain = lambda c: c if " " <= c <= "~" and c not in '"\\' else '""' if c == '"' else f"\\u{{{ord(c):x}}}"
    return "".join(map(plain, text))


def verdict(ours, solver, job):
    """What the solver says of a job's script."""
    script = subprocess.run([ours, "script"], input=job.encode(), stdout=subprocess.PIPE, check=True).stdout
    asked = subprocess.run([solver, "--lang", "smt", "--strings-exp"], input=b"(set-logic ALL)\n" + script + b"(check-sat)\n", stdout=subprocess.PIPE, stderr=subprocess.STDOUT)
    return asked.stdout.decode(errors="replace").strip()


def main():
    root = pathlib.Path(__file__).resolve().parent.parent
    words = argparse.ArgumentParser(description=__doc__.split("\n")[0])
    words.add_argument("--ours", default=str(root / "crates/smtcli/out/smtcli"))
    words.add_argument("--solver", default="cvc5")
    given = words.parse_args()
    wrong = 0
    for place, job in PLACES.items():
        wanted = verdict(given.ours, given.solver, job.replace("#", "x"))
        for text in TEXTS:
            said = verdict(given.ours, given.solver, job.replace("#", literal(text)))
            if said != wanted or said not in ("sat", "unsat"):
                wrong += 1
                print(f"{place}, {text!r}: {said!r} and not {wanted!r}")
    print(f"{len(PLACES) * len(TEXTS) - wrong} of {len(PLACES) * len(TEXTS)} jobs have the verdict of a plain text")
    return 1 if wrong else 0


if __name__ == "__main__":
    sys.exit(main())
