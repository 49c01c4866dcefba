#!/usr/bin/env python3
"""Refuses the growths of the program's memory, one after the other.

    python3 tools/growths.py PROGRAM                   each growth of each input, one run for each; PROGRAM is what
                                                       `rt run` leaves, crates/plan/out/plan
    python3 tools/growths.py --try --growths 1,40-42   the same by the failing memory of `rt try`, before any proof: one
                                                       build for each number, which takes minutes

A growth is a call that takes memory or makes a piece of it longer. Growths are counted from 1, and one is refused in a
run; those behind it are granted. Such a run has to end with status 5 and to write nothing, neither to standard output
nor to standard error. A run that ends before its growth has to end as it does with all its memory. So may one whose
growth is refused while `main` still collects the words: it asks for room for all of them at once, and where that is
refused for each of them alone. And so may one where a list was to give back the room that it doesn't need, a call of
`realloc` that makes a piece of memory shorter: refused, the list keeps its room.

Inputs are files in an input form, on which the word `translate` is run; without any they are those of bench/growths,
and the words `gen 20`, of which the first 300 growths are refused: a program with fewer didn't make that plan. It ends
with 1 where a run ended otherwise.

PROGRAM is given a library in front of the C library (LD_PRELOAD), which is compiled by `cc` and refuses one call of
`malloc`, `calloc` or `realloc`. So it has to be linked to the GNU C library of this machine.
"""
import argparse
import os
import re
import subprocess
import sys
import tempfile
from collections import namedtuple
from pathlib import Path

ROOT = Path(__file__).resolve().parent.parent
NO_MEMORY = 5

# A number of a growth that no run comes to.
NEVER = 4000000000

# What the library tells of a refused call that would have made a piece of memory no longer than it may be already.
SHORTER = "s"

REFUSING = r'''
#include <errno.h>
#include <malloc.h>
#include <stdlib.h>
#include <unistd.h>

extern void *__libc_malloc(size_t), *__libc_calloc(size_t, size_t), *__libc_realloc(void *, size_t);

/* How many growths are left up to the refused one, which is the last of them; 0 before main and behind that one. */
static unsigned long left;
static int told;

__attribute__((constructor)) static void begin(void) {
    told = atoi(getenv("GROWTHS_TOLD"));
    left = strtoul(getenv("GROWTHS_REFUSED"), NULL, 10);
}

static int refuses(const char *what) {
    if (left == 0 || --left != 0)
        return 0;
    errno = ENOMEM;
    return write(told, what, 1) == 1;
}

void *malloc(size_t n) { return refuses("r") ? NULL : __libc_malloc(n); }
void *calloc(size_t n, size_t m) { return refuses("r") ? NULL : __libc_calloc(n, m); }
void *realloc(void *p, size_t n) { return refuses(n <= malloc_usable_size(p) ? "s" : "r") ? NULL : __libc_realloc(p, n); }
'''

# An input: its name, its words, its bytes, and how many growths it has to have. So many are refused,
# and all of them where it is 0.
Case = namedtuple("Case", "name words stdin first")

# `main` takes as many growths as it has words, and so many more.
OF_MAIN = 4

# How a run ended: whether the growth was refused, the status, and what was written. A text that isn't known is None.
Ran = namedtuple("Ran", "refused status text message")


def cases(files):
    """The inputs."""
    paths = files or sorted((ROOT / "bench" / "growths").glob("*.json"))
    made = [Case(path.stem, ["translate"], path.read_bytes(), 0) for path in paths]
    return made if files else made + [Case("gen-20", ["gen", "20"], b"", 300)]


def numbers(text):
    """The numbers of a list as 1,40-42, in order."""
    found = set()
    for part in text.split(","):
        first, _, last = part.partition("-")
        found.update(range(int(first), int(last or first) + 1))
    if not found or min(found) < 1:
        raise ValueError(text)
    return sorted(found)


def wrong(case, growth, ran, whole):
    """What is wrong with how a run ended, where it ends as `whole` with all its memory; nothing where it is right."""
    may_go_on = growth <= len(case.words) + OF_MAIN or ran.refused == SHORTER
    may_go_on = may_go_on or (not ran.refused and growth > case.first)
    if may_go_on and ran[1:] == whole[1:]:
        return ""
    found = [] if ran.refused else ["not refused"]
    found += [] if ran.status == NO_MEMORY else ["status %s" % ran.status]
    found += ["%d bytes written" % len(ran.text)] if ran.text else []
    found += ["a message"] if ran.message else []
    return ", ".join(found)


def refusing(cc, folder):
    """The library that refuses a growth, compiled."""
    source, library = Path(folder) / "refusing.c", Path(folder) / "refusing.so"
    source.write_text(REFUSING)
    subprocess.run([cc, "-O1", "-fno-builtin", "-shared", "-fPIC", "-o", str(library), str(source)], check=True)
    return library


def run_refused(program, library, case, growth, seconds):
    """Runs the program on an input with one growth refused."""
    read, write = os.pipe()
    env = {"LD_PRELOAD": str(library), "GROWTHS_REFUSED": str(growth), "GROWTHS_TOLD": str(write)}
    try:
        ran = subprocess.run([program, *case.words], input=case.stdin, capture_output=True, env=env, pass_fds=[write],
                             timeout=seconds)
        status, text, message = ran.returncode, ran.stdout, ran.stderr
    except subprocess.TimeoutExpired:
        status, text, message = "none within %d seconds" % seconds, b"", b""
    os.close(write)
    with os.fdopen(read, "rb") as end:
        return Ran(end.read().decode(), status, text, message)


def refuse_each(args, case, run):
    """Refuses the growths of an input one after the other, up to the first that isn't reached. Whether all is right."""
    whole, refused, without, faults = run(case, NEVER), 0, 0, 0
    for growth in args.growths or range(1, (case.first or NEVER) + 1):
        ran = run(case, growth)
        fault = wrong(case, growth, ran, whole)
        if fault:
            faults += 1
            print("%s: growth %d: %s" % (case.name, growth, fault), flush=True)
        if not ran.refused:
            break
        refused += 1
        without += ran[1:] == whole[1:]
    print("%s: %d growths refused, %d of them done without, %d wrong; with all memory status %s and %d bytes"
          % (case.name, refused, without, faults, whole.status, len(whole.text)), flush=True)
    return faults == 0


def with_program(args):
    """Runs a program that was built."""
    with tempfile.TemporaryDirectory() as folder:
        library = refusing(args.cc, folder)
        program = str(Path(args.program).resolve())
        rights = [refuse_each(args, case, lambda case, n: run_refused(program, library, case, n, args.seconds))
                  for case in args.cases]
    return all(rights)


def try_refused(folder, growth):
    """Runs `rt try` on the inputs in a folder with one growth refused: how each ended, by name. Whether a growth was
    refused isn't told, so it is taken from the status."""
    words = ["rt", "try", "--fail-alloc", str(growth), "--cases", str(folder)]
    ran = subprocess.run(words, cwd=ROOT / "crates" / "plan", capture_output=True)
    texts = re.split(r"^== (\S+)\n", ran.stdout.decode(errors="replace"), flags=re.MULTILINE)
    texts = dict(zip(texts[1::2], texts[2::2]))
    said = ran.stderr.decode(errors="replace")
    ended = {}
    for name, run, status in re.findall(r"^case=(\S+) run=(\S+)(?: status=(\d+))?", said, flags=re.MULTILINE):
        status = int(status) if status else run
        ended[name] = Ran(status == NO_MEMORY, status, texts.get(name, ""), b"")
    if not ended:
        sys.exit("rt try didn't run the program:\n" + said[-2000:])
    return ended


def lay_out(args, folder):
    """Writes the inputs as `rt try --cases` reads them."""
    for case in args.cases:
        (Path(folder) / case.name).write_bytes(case.stdin)
        (Path(folder) / (case.name + ".args")).write_text("".join(word + "\n" for word in case.words))


def with_try(args):
    """Lets `rt try` build the program and refuse a growth of every input, for each number, up to the first that none of
    them comes to."""
    is_right = True
    with tempfile.TemporaryDirectory() as folder:
        lay_out(args, folder)
        whole = try_refused(folder, NEVER)
        for case in args.cases:
            ran = whole[case.name]
            print("%s: with all memory status %s and %d bytes" % (case.name, ran.status, len(ran.text)), flush=True)
        for growth in args.growths or range(1, NEVER):
            ended = try_refused(folder, growth)
            faults = [(case, wrong(case, growth, ended[case.name], whole[case.name])) for case in args.cases]
            found = ["%s: %s" % (case.name, fault) for case, fault in faults if fault]
            refused = sum(ran.refused for ran in ended.values())
            print("growth %d: %d of %d inputs end for want of memory; %s"
                  % (growth, refused, len(ended), "; ".join(found) or "each is right"), flush=True)
            is_right = is_right and not found
            if refused == 0:
                break
    return is_right


def main():
    parser = argparse.ArgumentParser(description=__doc__, formatter_class=argparse.RawDescriptionHelpFormatter)
    parser.add_argument("program", nargs="?", metavar="PROGRAM", help="the program, as `rt run` leaves it")
    parser.add_argument("files", nargs="*", metavar="FILE", type=Path, help="inputs (those of bench/growths)")
    parser.add_argument("--try", action="store_true", dest="by_try", help="builds the program by `rt try`, unproved")
    parser.add_argument("--growths", metavar="LIST", type=numbers, help="which growths, as 1,40-42 (all)")
    parser.add_argument("--seconds", metavar="N", type=int, default=60, help="how long a run of PROGRAM may take (60)")
    parser.add_argument("--cc", default="cc", help="the C compiler (cc)")
    args = parser.parse_args()
    if args.by_try and args.program:
        args.files.insert(0, Path(args.program))
    elif not args.by_try and not args.program:
        parser.error("give PROGRAM, or --try")
    args.cases = cases(args.files)
    sys.exit(0 if (with_try if args.by_try else with_program)(args) else 1)


if __name__ == "__main__":
    main()
