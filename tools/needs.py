#!/usr/bin/env python3
"""The lines of crates.txt that a user of some crates needs: those of the crates and of all that they stand on.

    python3 tools/needs.py pc_translate pc_text          prints the lines, the lowest crate first
    python3 tools/needs.py --into FOLDER pc_translate    copies these crates to FOLDER/crates, and adds their lines to
                                                         FOLDER/crates.txt, but those that have a line there

The crates that these lines name and that have no line of their own are the kit's.
"""
import argparse
import shutil
import sys
from pathlib import Path

ROOT = Path(__file__).resolve().parent.parent


def lines(folder):
    """The lines of a repository's crates.txt by crate, in their order. Here each stands after those that it uses."""
    path, found = folder / "crates.txt", {}
    for line in path.read_text().splitlines() if path.exists() else []:
        if line.partition(":")[0].strip() and not line.startswith("#"):
            found[line.partition(":")[0].split()[0]] = line
    return found


def needed(names, all_lines):
    """The crates that these need, they themselves among them, in the order of crates.txt."""
    met, rest = set(), list(names)
    while rest:
        name = rest.pop()
        if name not in met:
            met.add(name)
            rest += [use for use in all_lines[name].partition(":")[2].split() if use in all_lines]
    return [name for name in all_lines if name in met]


def text_of(names, all_lines):
    return "".join(all_lines[name] + "\n" for name in names)


def copy(names, all_lines, folder):
    """Copies the crates, and adds their lines, but those that have one there."""
    there = lines(folder)
    names = [name for name in names if name not in there]
    for name in names:
        try:
            shutil.copytree(ROOT / "crates" / name, folder / "crates" / name, ignore=shutil.ignore_patterns("out"))
        except FileExistsError as fault:
            sys.exit("%s is there, and %s has no line for it" % (fault.filename, folder / "crates.txt"))
    listed = folder / "crates.txt"
    before = listed.read_text() if listed.exists() else ""
    listed.write_text(before + ("" if before.endswith("\n") or not before else "\n") + text_of(names, all_lines))
    print("%d crates were copied" % len(names))


def main():
    parser = argparse.ArgumentParser(description="The lines of crates.txt that a user of some crates needs.")
    parser.add_argument("crates", nargs="+", metavar="CRATE")
    parser.add_argument("--into", metavar="FOLDER", type=Path, help="copies the crates there")
    args = parser.parse_args()
    all_lines = lines(ROOT)
    missing = [name for name in args.crates if name not in all_lines]
    if missing:
        sys.exit("crates.txt has no line for %s" % ", ".join(missing))
    names = needed(args.crates, all_lines)
    if args.into:
        copy(names, all_lines, args.into)
    else:
        sys.stdout.write(text_of(names, all_lines))


if __name__ == "__main__":
    main()
