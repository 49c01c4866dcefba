#!/usr/bin/env python3
"""Keeps docs/EXAMPLES.md true: the inputs of docs/examples, with what the program writes of them.

An input is docs/examples/NAME.json. Beside it stand its plan (NAME.plan), the sizes of its context (NAME.context), the
facts of its core modules (NAME.facts) and its picture (NAME.svg). The page has a block for each text, between the lines
<!--translate NAME--> and <!--end-->, where `translate` is a word of the program. Inputs and texts are also rows of the
tests (crates/pc_test_rows/data/examples.txt), so that a change of a text fails there.

    python3 tools/examples.py --write             writes page, rows and pictures from the texts that are there
    python3 tools/examples.py --write PROGRAM     runs the program, and writes the texts too
    python3 tools/examples.py --check             ends with 1 where page, rows or pictures are out of date
    python3 tools/examples.py --check PROGRAM     and where the program writes another text

Pictures are drawn where Graphviz (`dot`) is installed. Each names the checksum of the text that it was drawn from.
"""
import argparse
import hashlib
import re
import shutil
import subprocess
import sys
from pathlib import Path

sys.dont_write_bytecode = True
import draw
import needs

ROOT = Path(__file__).resolve().parent.parent
EXAMPLES = ROOT / "docs" / "examples"
PAGE = ROOT / "docs" / "EXAMPLES.md"
TABLE = ROOT / "crates" / "pc_test_rows" / "data" / "examples.txt"
COUNTS = ROOT / "crates" / "pc_test_rows" / "stdout"
BLOCK = re.compile(r"(<!--([a-z]+) ([a-z]+)-->\n).*?(<!--end-->)", re.DOTALL)
ENDINGS = {"translate": "plan"}

HEAD = """~ The inputs of docs/examples, and what is written of them.
~
~ Written by `tools/examples.py`.
"""


def file_of(word, name):
    """The file with what the program writes for a word and an input."""
    return EXAMPLES / ("%s.%s" % (name, ENDINGS.get(word, word)))


def text_of(word, name):
    path = file_of(word, name)
    return path.read_text() if path.exists() else ""


def blocks():
    """The words and inputs of the page, in its order."""
    return [(word, name) for _, word, name, _ in BLOCK.findall(PAGE.read_text())]


def page():
    """The page with the texts in its blocks."""
    def filled(found):
        begin, word, name, end = found.groups()
        return "%s```text\n%s```\n%s" % (begin, text_of(word, name), end)
    return BLOCK.sub(filled, PAGE.read_text())


def row(word, name):
    """A row of the tests. The last line of an input has no end there."""
    text = (EXAMPLES / (name + ".json")).read_text()
    return "~\n~%s\n%s\n~done\n%s" % (word, text.rstrip("\n"), text_of(word, name))


def table():
    """The rows of the tests."""
    return HEAD + "".join(row(word, name) for word, name in blocks())


def counts():
    """What the tests print, with how many rows there are."""
    return re.sub(r"(?m)^examples\.txt: \d+ rows$", "examples.txt: %d rows" % len(blocks()), COUNTS.read_text())


def drawing(name):
    """Graphviz text of an input's plan, and its checksum."""
    text = draw.drawn(text_of("translate", name).encode())
    return text, "<!-- of %s -->" % hashlib.sha256(text.encode()).hexdigest()[:16]


def pictured():
    return [name for word, name in blocks() if word == "translate"]


def draw_pictures():
    if not shutil.which("dot"):
        print("no pictures were drawn: dot isn't installed")
        return
    for name in pictured():
        text, mark = drawing(name)
        path = EXAMPLES / (name + ".svg")
        if path.exists() and mark in path.read_text():
            continue
        svg = subprocess.run(["dot", "-Tsvg"], input=text.encode(), stdout=subprocess.PIPE, check=True).stdout.decode()
        path.write_text(svg.rstrip("\n") + "\n" + mark + "\n")


def run(program, word, name):
    with open(EXAMPLES / (name + ".json"), "rb") as src:
        return subprocess.run([program, word], stdin=src, stdout=subprocess.PIPE, check=True).stdout


def stale(program):
    """What is out of date."""
    for word, name in blocks():
        if program and run(program, word, name) != text_of(word, name).encode():
            yield "%s, as %s writes it," % (file_of(word, name).relative_to(ROOT), program)
    for path, text in ((PAGE, page()), (TABLE, table()), (COUNTS, counts())):
        if not path.exists() or path.read_text() != text:
            yield path.relative_to(ROOT)
    for name in pictured():
        path = EXAMPLES / (name + ".svg")
        if not path.exists() or drawing(name)[1] not in path.read_text():
            yield path.relative_to(ROOT)
    shown = (ROOT / "README.md").read_text()
    for line in text_of("translate", "twice").splitlines():
        if not re.search(r"(?m) %s$" % re.escape(line), shown):
            yield "README.md, which lacks the line '%s'" % line
    if not re.search(r"(?m)^%s$" % re.escape(needs.lines(ROOT)["pc_example"]), shown):
        yield "README.md, which lacks the line of pc_example in crates.txt"


def main():
    parser = argparse.ArgumentParser(description="Keeps the worked examples true.")
    todo = parser.add_mutually_exclusive_group(required=True)
    todo.add_argument("--write", nargs="?", const="", metavar="PROGRAM")
    todo.add_argument("--check", nargs="?", const="", metavar="PROGRAM")
    args = parser.parse_args()
    if args.write is not None:
        for word, name in blocks() if args.write else []:
            file_of(word, name).write_bytes(run(args.write, word, name))
        PAGE.write_text(page())
        TABLE.write_text(table())
        COUNTS.write_text(counts())
        draw_pictures()
        return
    found = list(stale(args.check))
    for each in found:
        print("%s is out of date: run python3 tools/examples.py --write" % each)
    sys.exit(1 if found else 0)


if __name__ == "__main__":
    main()
