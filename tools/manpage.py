#!/usr/bin/env python3
"""Writes docs/plan.1, the manual page of the program `plan`, and what README.md says of exit codes and of the version.

The usage, the exit codes and the lines of faults are those of docs/FORMATS.md, and the version is the first one of
CHANGELOG.md. A command that the usage names and that has no row in `COMMANDS` is said to be not built.

    python3 tools/manpage.py --write    writes both
    python3 tools/manpage.py --check    ends with 1 where one is out of date
    man -l docs/plan.1                  shows the page
"""
import itertools
import re
import sys
from pathlib import Path

ROOT = Path(__file__).resolve().parent.parent
PAGE = ROOT / "docs" / "plan.1"
README = ROOT / "README.md"
EXIT_CODES = ("Words, usage and exit codes", "| exit code |")

# The commands that are built.
COMMANDS = [
    ("translate", "writes the text of the plan of an input: which core modules are instantiated, in which order and "
                  "with which arguments, what the runtime keeps in slots, and what the component exports."),
    ("context", "writes two lines, `context 4` N and `context 8` N: how many bytes the context takes that a runtime "
                "makes for the plan, with pointers of four and of eight bytes. A dash in place of N stands for more "
                "than 4294967295."),
    ("facts", "writes what is recorded of the core modules of the plan, a line for each fact: what an import is known to "
              "be in every instance of its module, which function imports share a context, and what importers may know."),
    ("gen N", "reads nothing, and writes one line on the plan of a generated chain of N components, each of which calls "
              "the one before; N is from 1 to 10000."),
]

HEAD = """.\\" Written by tools/manpage.py.
.TH PLAN 1 "%s" "plan %s"
.SH NAME
plan \\- makes the instantiation plan of a WebAssembly component
"""

DESCRIPTION = [
    "`plan` reads a component from standard input, and writes to standard output what a runtime has to do to "
    "instantiate it. A component holds others, each with imports, instances and captured items of its own; its plan"
    " is a list: instantiate this core module, then that one, with these arguments.",
    "The input is JSON, a table of types and a flat list of payloads, in form 1 or form 2 of docs/FORMATS.md. It "
    "has at most 67108864 bytes (64 MiB). The whole input is read and the whole text made before anything is "
    "written.",
    "It is proved that the plan does what the nested component says: docs/THEOREM.md takes the theorem apart.",
]

FAULTS = [
    "An input that is refused has one line, which begins with `fault`. PLACE is `at table` N, `at payload` N `item`"
    " N, `at instance` N `item` N, `at export` N or `at adapter` N. docs/CAUSES.md says when each comes.",
]

NOTES = [
    "Exit codes 1, 2 and 6 come with a text on standard output, so that a caller sees the cause where it reads the "
    "plan. Nothing is written to standard error.",
    "A plan may be as long as the square of its input: a module with many imports, instantiated many times, has all"
    " its arguments each time.",
    "Neither time nor memory is bounded. Where inputs aren't trusted, both should be limited from outside, as `ulimit -t "
    "60 -v 4194304` does: a run that finds no memory ends with exit code 5, and has written nothing.",
    "The only environment that the program uses are its words, standard input and standard output. It reads no file"
    " and starts no process.",
]

EXAMPLES = [
    ("The plan of an input:", "plan translate <component.json >component.plan"),
    ("Its picture, by Graphviz:", "plan translate <component.json | tools/draw.py | dot \\-Tsvg >component.svg"),
    ("How much memory to set aside:", "plan context <component.json"),
]

SEE_ALSO = ("`docs/FORMATS.md` (inputs and texts), `docs/EXAMPLES.md` (worked examples), `docs/CAUSES.md` (faults), "
            "`dot`(1)")
WAITING = "The usage also names %s. These aren't built, and are treated as words that name no command."
OTHERS = ("Other words name no command, no word at all and `--help` among them: then the usage is written, and nothing "
          "is read.")


def roff(text):
    """A paragraph: what stands between backquotes is bold, and a capital N or PLACE is a variable."""
    text = text.replace("\\", "\\e").replace("-", "\\-")
    text = re.sub(r"\[([^\]]*)\]\([^)]*\)", r"\1", text)
    text = re.sub(r"`([^`]*)`", r"\\fB\1\\fR", text)
    text = re.sub(r"\b(N\??|PLACE)(?=[\s.,;:]|$)", r"\\fI\1\\fR", text)
    return text


def paragraphs(texts):
    return "\n.PP\n".join(roff(text) for text in texts) + "\n"


def section(title, body):
    return ".SH %s\n%s" % (title, body)


def entry(term, text):
    return ".TP\n%s\n%s\n" % (roff(term), roff(text))


def formats():
    return (ROOT / "docs" / "FORMATS.md").read_text()


def version():
    """The version, and its day."""
    return re.search(r"(?m)^## (\S+), (\S+)$", (ROOT / "CHANGELOG.md").read_text()).groups()


def table(heading, header):
    """The lines of the table under a heading of docs/FORMATS.md that begins so."""
    part = formats()
    part = part[part.index("\n## %s\n" % heading):]
    lines = part[part.index(header):].splitlines()
    return list(itertools.takewhile(lambda line: line.startswith("|"), lines))


def rows(heading, header):
    """The rows of such a table."""
    return [[cell.strip() for cell in line.strip("|").split("|")] for line in table(heading, header)[2:]]


def commands(usage):
    body = "".join(entry("`plan %s`" % word, text) for word, text in COMMANDS)
    named = [words.strip()[len("plan "):] for words in usage[len("usage: "):].split("|")]
    waiting = [words for words in named if words not in dict(COMMANDS)]
    if waiting:
        body += ".PP\n%s\n" % roff(WAITING % " and ".join("`%s`" % words for words in waiting))
    return body + ".PP\n%s\n" % roff(OTHERS)


def called(words):
    """How a command is called: one with a number reads no input."""
    word, _, number = words.partition(" ")
    return "\\fBplan %s\\fR %s" % (word, "\\fI%s\\fR" % number if number else "<\\fIinput\\fR")


def page():
    usage = re.search(r"(?m)^usage: plan .*$", formats()).group()
    synopsis = "\n.br\n".join(called(word) for word, _ in COMMANDS) + "\n"
    codes = "".join(entry("`%s`" % code, "%s. Written: %s." % (what[0].upper() + what[1:], written))
                    for code, what, written in rows(*EXIT_CODES))
    faults = paragraphs(FAULTS) + "".join(
        entry(line.replace("` PLACE", " PLACE`"), what[0].upper() + what[1:] + ".")
        for line, what in rows("The texts of faults", "| line |"))
    examples = "".join(".PP\n%s\n.PP\n.nf\n.RS\n%s\n.RE\n.fi\n" % (roff(text), line) for text, line in EXAMPLES)
    return HEAD % version()[::-1] + "".join([
        section("SYNOPSIS", synopsis), section("DESCRIPTION", paragraphs(DESCRIPTION)),
        section("COMMANDS", commands(usage)), section("EXIT STATUS", codes), section("FAULTS", faults),
        section("NOTES", paragraphs(NOTES)), section("EXAMPLES", examples),
        section("SEE ALSO", roff(SEE_ALSO) + "\n")])


def readme():
    """README.md with the table of exit codes and the version."""
    codes = "\n".join(table(*EXIT_CODES))
    text = re.sub(r"(?s)(<!--exit codes-->\n).*?(<!--end-->)", lambda found: found[1] + codes + "\n" + found[2],
                  README.read_text())
    return re.sub(r"This is version [0-9.]+[0-9]", "This is version " + version()[0], text)


def main():
    texts = {PAGE: page(), README: readme()}
    if "--write" in sys.argv[1:]:
        for path, text in texts.items():
            path.write_text(text)
    elif "--check" in sys.argv[1:]:
        stale = [path.name for path, text in texts.items() if not path.exists() or path.read_text() != text]
        if stale:
            sys.exit("%s is out of date: run python3 tools/manpage.py --write" % " and ".join(stale))
    else:
        sys.exit(__doc__)


if __name__ == "__main__":
    main()
