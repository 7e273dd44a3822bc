#!/usr/bin/env python3
"""Refuses memory, one allocation after the other.

Runs the built programs under a library that lets the N-th allocation fail, for N = 1, 2, .. until the program needs no N-th
one: `smtcli script` on a job with a realistic condition, whose end must be status 7 with nothing on standard output but a first
part of the script; the script of a deep sum that shares its parts, and the life of a pool, both by `kembura_uses`, which must
end with an error. A program may also do without, as a list does that asks for more than it needs at first, and then ends as
with ample memory. Prints a line for each program.

Needs the programs as the gate builds them (`.ci/run`), and a C compiler for the library.
"""
import os
import subprocess
import sys
import tempfile

TOP = os.path.join(os.path.dirname(os.path.abspath(__file__)), "..")
SMTCLI = os.path.join(TOP, "crates/smtcli/out/smtcli")
USES = os.path.join(TOP, "crates/kembura_uses/out/kembura_uses")

JOB = b"""(job (enums) (vars ("principal" (Entity "User")))
 (funs ("attrs[User]" (Entity "User") (Record ("dept" String) ("joined" Datetime) ("src" IpAddr)))
       ("tags[User]" (Entity "User") (Set String)))
 (terms
  (string.like ("eng" *) (record.get "dept" (uuf "attrs[User]" (var "principal"))))
  (set.member "vpn" (uuf "tags[User]" (var "principal")))
  (and (ipaddr.isV4 (record.get "src" (uuf "attrs[User]" (var "principal"))))
       (eq (bvlshr (ipaddr.addrV4 (record.get "src" (uuf "attrs[User]" (var "principal")))) (bv 32 24)) (bv 32 10)))
  (bvslt (datetime.val (record.get "joined" (uuf "attrs[User]" (var "principal"))))
         (datetime.val (datetime "2024-10-15")))))
"""

LIBRARY = r"""
#define _GNU_SOURCE
#include <dlfcn.h>
#include <errno.h>
#include <stdlib.h>
#include <string.h>

static long refused = -1, count = 0;

static int is_refused(void) {
    if (refused < 0) {
        const char *text = getenv("REFUSED");
        refused = text ? atol(text) : 0;
    }
    count += 1;
    return count == refused;
}

void *malloc(size_t size) {
    static void *(*next)(size_t);
    if (!next) next = dlsym(RTLD_NEXT, "malloc");
    if (is_refused()) { errno = ENOMEM; return NULL; }
    return next(size);
}

void *realloc(void *old, size_t size) {
    static void *(*next)(void *, size_t);
    if (!next) next = dlsym(RTLD_NEXT, "realloc");
    if (is_refused()) { errno = ENOMEM; return NULL; }
    return next(old, size);
}

void *aligned_alloc(size_t alignment, size_t size) {
    static void *(*next)(size_t, size_t);
    if (!next) next = dlsym(RTLD_NEXT, "aligned_alloc");
    if (is_refused()) { errno = ENOMEM; return NULL; }
    return next(alignment, size);
}

int posix_memalign(void **made, size_t alignment, size_t size) {
    static int (*next)(void **, size_t, size_t);
    if (!next) next = dlsym(RTLD_NEXT, "posix_memalign");
    if (is_refused()) return ENOMEM;
    return next(made, alignment, size);
}

void __attribute__((destructor)) tell(void) {
    const char *path = getenv("COUNTED");
    if (!path || refused != 0) return;
    void *file = fopen(path, "w");
    if (file) { fprintf(file, "%ld", count); fclose(file); }
}
""".replace("#include <stdlib.h>", "#include <stdio.h>\n#include <stdlib.h>")


def run(library, words, given, refused, counted=None):
    """Ends a program whose allocation of this number is refused, none where it is 0."""
    environment = dict(os.environ, LD_PRELOAD=library, REFUSED=str(refused))
    if counted:
        environment["COUNTED"] = counted
    return subprocess.run(words, input=given, capture_output=True, env=environment, timeout=60)


def refuse(library, folder, name, words, given, is_right):
    """Refuses each allocation of a program in turn, and says what was seen."""
    counted = os.path.join(folder, "counted")
    whole = run(library, words, given, 0, counted)
    if whole.returncode != 0:
        sys.exit(f"{name}: ends with {whole.returncode} with ample memory")
    with open(counted) as told:
        allocations = int(told.read())
    refused = without = 0
    wrong = []
    for n in range(1, allocations + 1):
        end = run(library, words, given, n)
        if is_right(end, whole):
            refused += 1
        elif end.returncode == 0 and end.stdout == whole.stdout:
            without += 1
        else:
            wrong.append(n)
    print(f"{name}: {allocations} allocations refused one by one: {refused} answered by want of memory, {without} done without, {len(wrong)} otherwise {wrong[:5]}")
    return not wrong


def is_status_seven(end, whole):
    return end.returncode == 7 and whole.stdout.startswith(end.stdout)


def is_error(end, whole):
    return end.returncode == 1 and whole.stdout.startswith(end.stdout)


def main():
    with tempfile.TemporaryDirectory() as folder:
        source, library = os.path.join(folder, "refuse.c"), os.path.join(folder, "refuse.so")
        with open(source, "w") as made:
            made.write(LIBRARY)
        subprocess.run(["cc", "-shared", "-fPIC", "-O1", "-o", library, source, "-ldl"], check=True)
        right = [
            refuse(library, folder, "a script", [SMTCLI, "script"], JOB, is_status_seven),
            refuse(library, folder, "a deep sum", [USES, "40"], b"", is_error),
            refuse(library, folder, "a pool", [USES, "pool"], b"", is_error),
        ]
    sys.exit(0 if all(right) else 1)


main()
