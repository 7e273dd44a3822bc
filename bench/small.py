#!/usr/bin/env python3
"""The small solver beside cvc5, and on bytes that are no script.

    bench/small.py SMTMINI CVC5 [COUNT [SEED]]

Writes COUNT random scripts of the fragment (Boolean constants, definitions, assertions, levels, resets) with checks, and compares each
verdict of SMTMINI with cvc5's. Then it feeds COUNT streams of changed bytes, each whole and cut in two, and sees that the program ends
with 0 or 3, puts the same both ways, and puts what the shorter stream puts first. Last it times the worst case: twenty constants and
ten thousand gates, none of which can be dropped."""
import random
import subprocess
import sys
import time



def formula(rng, names, depth):
    if depth == 0 or rng.random() < 0.15:
        return rng.choice(names + ["true", "false"])
    part = lambda: formula(rng, names, depth - 1)
    kind = rng.choice(["not", "and", "or", "=", "ite"])
    count = {"not": 1, "ite": 3}.get(kind, 2)
    return f"({kind} {' '.join(part() for _ in range(count))})"


def script(rng):
    """A script of the fragment, and how many checks it has."""
    lines, levels, fresh, checks = [], [[]], 0, 0
    live = lambda: [name for level in levels for name in level]
    for _ in range(rng.randint(4, 40)):
        kind = rng.choices(["const", "define", "assert", "push", "pop", "check", "reset"], [5, 4, 7, 2, 2, 4, 0.2])[0]
        if kind in ("const", "define") and fresh < 14:
            name, fresh = f"x{fresh}", fresh + 1
            if kind == "const":
                lines.append(f"(declare-const {name} Bool)")
            else:
                lines.append(f"(define-fun {name} () Bool {formula(rng, live(), rng.randint(1, 4))})")
            levels[-1].append(name)
        elif kind == "assert":
            lines.append(f"(assert {formula(rng, live(), rng.randint(0, 5))})")
        elif kind == "push":
            lines.append("(push 1)")
            levels.append([])
        elif kind == "pop" and len(levels) > 1:
            lines.append("(pop 1)")
            levels.pop()
        elif kind == "check":
            lines.append("(check-sat)")
            checks += 1
        elif kind == "reset":
            lines.append("(reset)")
            levels, fresh = [[]], 0
    lines.append("(check-sat)")
    return "\n".join(lines) + "\n", checks + 1


def run(words, data):
    done = subprocess.run(words, input=data, stdout=subprocess.PIPE, stderr=subprocess.PIPE)
    return done.returncode, done.stdout


def verdicts(rng, small, cvc5, count):
    seen, differ = {b"sat": 0, b"unsat": 0}, 0
    for number in range(count):
        text, checks = script(rng)
        _, put = run([small], text.encode())
        _, other = run([cvc5, "--lang", "smt", "--incremental", "--strings-exp"], ("(set-logic ALL)\n" + text.replace("(reset)", "(reset)\n(set-logic ALL)")).encode())
        mine, theirs = put.split(), other.split()
        for verdict in mine:
            seen[verdict] = seen.get(verdict, 0) + 1
        if mine != theirs or len(mine) != checks:
            differ += 1
            print(f"script {number} differs: {mine} and {theirs}\n{text}")
    print(f"{count} scripts, {sum(seen.values())} checks, {seen}, {differ} differ")
    return differ


def changed(rng, data):
    data = bytearray(data)
    for _ in range(rng.randint(1, 6)):
        at = rng.randrange(len(data))
        kind = rng.random()
        if kind < 0.4:
            data[at] = rng.choice(b'()";|\n\x0c\x00\xff :#b1x"')
        elif kind < 0.7:
            del data[at : at + rng.randint(1, 9)]
        else:
            data[at:at] = bytes(rng.randrange(256) for _ in range(rng.randint(1, 5)))
        if not data:
            data = bytearray(b"(")
    return bytes(data)


def fuzz(rng, small, count):
    wrong, ends = 0, {}
    for _ in range(count):
        data = changed(rng, script(rng)[0].encode())
        status, put = run([small], data)
        child = subprocess.Popen([small], stdin=subprocess.PIPE, stdout=subprocess.PIPE)
        cut = rng.randrange(len(data) + 1)
        try:
            child.stdin.write(data[:cut])
            child.stdin.flush()
            child.stdin.write(data[cut:])
            child.stdin.close()
        except BrokenPipeError:
            pass
        again = child.stdout.read()
        child.wait()
        ends[status] = ends.get(status, 0) + 1
        first = run([small], data[:cut])[1]
        error = b'(error "not a script")\n'
        starts = put.startswith(first) or (first.endswith(error) and put.startswith(first[: -len(error)]))
        if status not in (0, 3) or again != put or child.returncode != status or not starts:
            wrong += 1
            print(f"status {status}, {put!r}, then {again!r}, {first!r}: {data!r}")
    print(f"{count} streams of changed bytes, by status {ends}, {wrong} wrong")
    return wrong


def worst(small):
    names = [f"c{i}" for i in range(20)]
    lines = [f"(declare-const {name} Bool)" for name in names]
    # A chain of gates over all constants, and an assertion that is false in each row, which shows only at its end.
    last = names[0]
    for gate in range(9998):
        lines.append(f"(define-fun g{gate} () Bool (= {last} {names[gate % 20]}))")
        last = f"g{gate}"
    lines.append(f"(assert (= {last} (not {last})))")
    lines.append("(check-sat)")
    begin = time.time()
    status, put = run([small], "\n".join(lines).encode())
    print(f"20 constants, 10000 gates, nothing dropped: {put.decode().strip()}, {time.time() - begin:.2f} s")
    return status


def main():
    small, cvc5 = sys.argv[1:3]
    count = int(sys.argv[3]) if len(sys.argv) > 3 else 5000
    rng = random.Random(int(sys.argv[4]) if len(sys.argv) > 4 else 1)
    bad = verdicts(rng, small, cvc5, count) + fuzz(rng, small, count) + worst(small)
    sys.exit(1 if bad else 0)


main()
