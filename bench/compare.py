#!/usr/bin/env python3
"""Scripts of random jobs, beside those of another program.

Each job declares enum types, variables and functions of random types and has well-typed random terms in all forms of
jobs, with escapes and other alphabets in its strings and comments between its parts. It is given to both programs, as
`PROGRAM script` on standard input. The scripts are compared byte by byte, and each job with a difference is printed. Jobs at which the public crate panics, since a shift is by 2 to the 32 or more, are counted
apart. The status is 1 where there is another difference.
"""

import argparse
import os
import pathlib
import random
import subprocess
import sys

TOP = pathlib.Path(__file__).resolve().parent.parent
WIDTHS = [1, 5, 7, 8, 32, 64, 128]
ENTITIES = ["User", "Role", "App::Group", "a b", "caf\u00e9"]
ENUMS = {"Color": ["red", "green", "b;l#u\\e", "\u6f22"], "App::Level\n": ["1", "", "\"2\""]}
# Comments differ by design at CR, and at characters outside ASCII that can't be printed: neither is here.
LETTERS = "abcuXYZ09 _-.,:()[]{}|!?*'<>=~@$%^&/+;#\\\t\n\0\x01\x1f\x7f\u00e9\u03bb\u0416\u6f22\u05d0\U0001f600"
EXTENSIONS = ["Decimal", "IpAddr", "Datetime", "Duration"]
ARITHMETIC = "bvadd bvsub bvmul bvudiv bvurem bvsdiv bvsrem bvsmod bvshl bvlshr".split()
TESTS = "bvult bvule bvslt bvsle bvsaddo bvssubo bvsmulo".split()
# What functions on extension values take and give.
OF_EXTENSIONS = [
    ("decimal.val", "Decimal", ("BitVec", 64)),
    ("datetime.val", "Datetime", ("BitVec", 64)),
    ("duration.val", "Duration", ("BitVec", 64)),
    ("datetime.ofBitVec", ("BitVec", 64), "Datetime"),
    ("duration.ofBitVec", ("BitVec", 64), "Duration"),
    ("ipaddr.isV4", "IpAddr", "Bool"),
    ("ipaddr.addrV4", "IpAddr", ("BitVec", 32)),
    ("ipaddr.addrV6", "IpAddr", ("BitVec", 128)),
    ("ipaddr.prefixV4", "IpAddr", ("Option", ("BitVec", 5))),
    ("ipaddr.prefixV6", "IpAddr", ("Option", ("BitVec", 7))),
]


def quoted(text):
    """A text between quotes as jobs write it: a character outside ASCII by an escape, and so is a backslash."""
    def written(c):
        if c == '"':
            return '""'
        if c == "\\" or ord(c) > 127:
            return f"\\u{{{ord(c):x}}}" if ord(c) % 2 or ord(c) > 0xFFFF else f"\\u{ord(c):04X}"
        return c

    return '"' + "".join(map(written, text)) + '"'


def extension(draw, ty):
    """A literal of an extension type."""
    sign = draw.choice(["", "-"])
    if ty == "Decimal":
        return f'(decimal "{sign}{draw.randrange(10 ** draw.randrange(1, 15))}.{draw.choice(["0", "5", "25", "0001"])}")'
    if ty == "IpAddr" and draw.randrange(2):
        return f'(ip "{".".join(str(draw.choice([0, 1, 10, 127, 255])) for _ in range(4))}{draw.choice(["", "/0", "/8", "/31", "/32"])}")'
    if ty == "IpAddr":
        return f'(ip "{draw.choice(["::", "::1", "ff00::", "1:2:3:4:5:6:7:8", "fe80::1:0"])}{draw.choice(["", "/0", "/64", "/128"])}")'
    if ty == "Datetime":
        day = f"{draw.choice(['0000', '1969', '1970', '2024', '9999'])}-{draw.randrange(1, 13):02}-{draw.randrange(1, 29):02}"
        return f'(datetime "{day}{draw.choice(["", "T23:59:59Z", "T00:00:00.001Z", "T11:38:02.101+0130", "T11:38:02-2359"])}")'
    return f'(duration "{sign}{draw.choice(["0ms", "1d2h3m4s5ms", "7ms", "99999d", "24h1s"])}")'


def in_base(draw, width, number):
    """A literal of bits in base 2, or in base 16 where the width allows it."""
    if width % 4 == 0 and draw.randrange(2):
        return f"#x{number:0{width // 4}x}"
    return f"#b{number:0{width}b}"


def spelled(ty):
    """A type as jobs write it."""
    if isinstance(ty, str):
        return ty
    head, inside = ty
    if head == "BitVec":
        return f"(BitVec {inside})"
    if head == "Entity":
        return f"(Entity {quoted(inside)})"
    if head == "Record":
        return "(Record" + "".join(f" ({quoted(name)} {spelled(of)})" for name, of in inside) + ")"
    return f"({head} {spelled(inside)})"


class Jobs:
    """Random jobs, each from its seed."""

    def __init__(self, seed):
        self.draw = random.Random(seed)
        self.types = [self.type(3) for _ in range(4)] + ["Bool", "String", ("BitVec", 64), self.draw.choice(EXTENSIONS)]
        self.variables = [(self.name(), self.draw.choice(self.types)) for _ in range(6)]
        self.variables = list(dict(self.variables).items())
        self.functions = {self.name(): (self.draw.choice(self.types), self.draw.choice(self.types)) for _ in range(3)}

    def text(self, most):
        return "".join(self.draw.choice(LETTERS + '"') for _ in range(self.draw.randrange(most)))

    def name(self):
        return self.draw.choice("abcdefgh") + self.text(4)

    def type(self, depth):
        choice = self.draw.randrange(9 if depth else 5)
        if choice == 0:
            return "Bool"
        if choice == 1:
            return ("BitVec", self.draw.choice(WIDTHS))
        if choice == 2:
            return "String"
        if choice == 3:
            return ("Entity", self.draw.choice(ENTITIES + list(ENUMS)))
        if choice == 4:
            return self.draw.choice(EXTENSIONS)
        if choice == 5:
            return ("Option", self.type(depth - 1))
        if choice == 6:
            return ("Set", self.type(depth - 1))
        names = sorted({self.name() for _ in range(self.draw.randrange(4))})
        return ("Record", tuple((name, self.type(depth - 1)) for name in names))

    def leaf(self, ty):
        """A term without parts, where there is one, or a small one."""
        ids = [name for name, of in self.variables if of == ty]
        if ids and self.draw.randrange(3):
            return f"(var {quoted(self.draw.choice(ids))})"
        if ty == "Bool":
            return self.draw.choice(["true", "false"])
        if ty == "String":
            return quoted(self.text(5))
        if ty in ("Datetime", "Duration") and self.draw.randrange(2):
            return f"({ty.lower()}.ofBitVec {self.leaf(('BitVec', 64))})"
        if isinstance(ty, str):
            return extension(self.draw, ty)
        return self.small(*ty)

    def small(self, head, inside):
        if head == "BitVec":
            if inside == 64 and self.draw.randrange(2):
                return f'(long "{self.draw.choice([0, -1, 5, -(2**63), 2**63 - 1])}")'
            number = self.draw.choice([0, 1, 2**inside - 1, self.draw.randrange(2**inside)])
            return in_base(self.draw, inside, number) if self.draw.randrange(2) else f"(bv {inside} {number})"
        if head == "Entity":
            id = self.draw.choice(ENUMS[inside]) if inside in ENUMS else self.text(4)
            return f"(entity {quoted(inside)} {quoted(id)})"
        if head == "Option":
            return f"(none {spelled(inside)})"
        if head == "Set":
            return f"(set {spelled(inside)})"
        return self.record(inside, self.leaf)

    def record(self, attributes, term):
        parts = [(name, term(of)) for name, of in attributes]
        if any(part is None for _, part in parts):
            return None
        self.draw.shuffle(parts)
        return "(record" + "".join(f" ({quoted(name)} {part})" for name, part in parts) + ")"

    def term(self, ty, depth):
        """A term of a type, or None where a try finds none."""
        if depth == 0 or self.draw.randrange(6) == 0:
            return self.leaf(ty)
        made = self.draw.choice(self.ways(ty, depth - 1))()
        return self.leaf(ty) if made is None else made

    def call(self, head, *parts):
        return None if any(part is None for part in parts) else f"({head} {' '.join(parts)})"

    def ways(self, ty, below):
        term = self.term
        ways = [lambda: self.call("ite", term("Bool", below), term(ty, below), term(ty, below))]
        if below:
            ways.append(lambda: self.call("option.get", term(("Option", ty), below)))
            ways.append(lambda: self.call('record.get "k"', term(("Record", (("k", ty),)), below)))
        for name, (takes, gives) in self.functions.items():
            if gives == ty:
                ways.append(lambda name=name, takes=takes: self.call(f"uuf {quoted(name)}", term(takes, below)))
        for name, takes, gives in OF_EXTENSIONS:
            if gives == ty:
                ways.append(lambda name=name, takes=takes: self.call(name, term(takes, below)))
        if ty == "Bool":
            ways += self.truths(below) * 2
        elif not isinstance(ty, str):
            ways += self.others(*ty, below)
        return ways

    def truths(self, below):
        term, some = self.term, self.draw.choice(self.types)
        width = ("BitVec", self.draw.choice(WIDTHS))
        parts = " ".join(self.draw.choice(["*", quoted(self.text(4))]) for _ in range(self.draw.randrange(4)))
        return [
            lambda: self.call("not", term("Bool", below)),
            lambda: self.call(self.draw.choice(["and", "or"]), term("Bool", below), term("Bool", below)),
            lambda: self.call("eq", term(some, below), term(some, below)),
            lambda: self.call(self.draw.choice(TESTS), term(width, below), term(width, below)),
            lambda: self.call("bvnego", term(width, below)),
            lambda: self.call("set.member", term(some, below), term(("Set", some), below)),
            lambda: self.call("set.subset", term(("Set", some), below), term(("Set", some), below)),
            lambda: self.call(f"string.like ({parts})", term("String", below)),
        ]

    def others(self, head, inside, below):
        term, ty = self.term, (head, inside)
        if head == "BitVec":
            more = self.draw.randrange(inside)
            return [
                lambda: self.call(self.draw.choice(ARITHMETIC), term(ty, below), term(ty, below)),
                lambda: self.call("bvneg", term(ty, below)),
                lambda: self.call(f"zero_extend {more}", term(("BitVec", inside - more), below)),
            ]
        if head == "Option":
            return [lambda: self.call("some", term(inside, below))]
        if head == "Set":
            elements = lambda: [term(inside, below) for _ in range(self.draw.randrange(4))]
            return [
                lambda: self.call(f"set {spelled(inside)}", *elements()),
                lambda: self.call("set.inter", term(ty, below), term(ty, below)),
            ]
        if head == "Record":
            return [lambda: self.record(inside, lambda of: term(of, below))]
        return []

    def job(self):
        variables = "".join(f" ({quoted(name)} {spelled(of)})" for name, of in self.variables)
        functions = "".join(f" ({quoted(name)} {spelled(a)} {spelled(b)})" for name, (a, b) in self.functions.items())
        enums = "".join(f" ({quoted(name)} {' '.join(map(quoted, members))})" for name, members in ENUMS.items())
        terms = [self.term("Bool", 5) for _ in range(self.draw.randrange(1, 5))]
        gap = self.draw.choice([" ", "\n  ", " ; \"a comment (\n", "\t\f\r\n"])
        return f"(job{gap}(enums{enums}){gap}(vars{variables}){gap}(funs{functions}){gap}(terms{gap}{gap.join(terms)})){gap}"


def outcome(program, job):
    run = subprocess.run([program, "script"], input=job.encode("ascii"), capture_output=True, check=False)
    return run.returncode, run.stdout, run.stderr[:200]


def main():
    parser = argparse.ArgumentParser(description=__doc__, formatter_class=argparse.RawDescriptionHelpFormatter)
    parser.add_argument("--ours", metavar="PROGRAM", default=str(TOP / "crates/smtcli/out/smtcli"), help="smtcli")
    parser.add_argument("--public", metavar="PROGRAM", required=True, help="the program to compare with")
    parser.add_argument("--jobs", metavar="N", type=int, default=1000, help="how many jobs (1000)")
    parser.add_argument("--seed", metavar="N", type=int, default=1, help="the seed of the first job (1)")
    options = parser.parse_args()
    for program in (options.ours, options.public):
        if not os.access(program, os.X_OK):
            sys.exit(f"{program} is no program")
    different = panics = 0
    for seed in range(options.seed, options.seed + options.jobs):
        job = Jobs(seed).job()
        ours, public = outcome(options.ours, job), outcome(options.public, job)
        if ours[0] == 0 and b"ShiftAmountTooLarge" in public[2]:
            panics += 1
        elif ours[:2] != public[:2] or ours[0] != 0:
            different += 1
            print(f"seed {seed}: {ours[0]} {ours[2]} and {public[0]} {public[2]}\n{job}")
    print(f"{options.jobs} jobs, {panics} with a panic of the other program, {different} with a difference")
    sys.exit(1 if different else 0)


if __name__ == "__main__":
    main()
