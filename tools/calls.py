#!/usr/bin/env python3
"""Writes docs/CALLS.md: the public calls of the library crates, with the names of their conditions and clauses.

A call is public where its crate's lib.rt hands its name on, or that of its type or trait. Crates of tests aren't listed.

    python3 tools/calls.py --write    writes the page
    python3 tools/calls.py --check    ends with 1 where it is out of date, and where a call that may refuse has no clause
                                      or isn't named in docs/CAUSES.md
"""
import re
import sys
from pathlib import Path

ROOT = Path(__file__).resolve().parent.parent
PAGE = ROOT / "docs" / "CALLS.md"
UNNAMED = "not named"

HEAD = """# The public calls

Each public call of the library crates, with its conditions (`requires`) and its clauses (`ensures`) by name; crates as
[MAP.md](MAP.md) has them, the lowest first. [THEOREM.md](THEOREM.md#what-every-call-promises) says what holds of every
call whatever its clauses, what tells a caller that a condition holds, and what a refusal leaves;
[CAUSES.md](CAUSES.md) says when each answer comes. What a clause says stands beside the call's name in the file.

A call of a trait is listed with the trait, and with an impl where that has clauses of its own. A call without a clause
returns what no contract looks into: a seed, an allocator, a store of names. `tools/calls.py` writes this page: %d calls
of %d crates, of which %d have a condition.
"""


class Call:
    """A public function: where it stands, what it answers, and the names of its conditions and clauses."""

    def __init__(self, owner, name, lines):
        self.name = "%s::%s" % (owner, name) if owner else name
        head = " ".join(line.strip() for line in lines)
        head = re.sub(r"\s+//.*?(?=\s(?:requires|ensures)\b|$)", "", head)
        self.answer = self.answer_of(re.split(r"\s(?:requires|ensures|where)\b|\s\{|;", head)[0])
        self.requires = self.names(lines, "requires")
        self.ensures = self.names(lines, "ensures")

    @staticmethod
    def answer_of(signature):
        """What stands behind the last arrow that belongs to no argument."""
        depth, answer = 0, ""
        for at, char in enumerate(signature):
            depth += {"(": 1, "[": 1, ")": -1, "]": -1}.get(char, 0)
            if depth == 0 and signature.startswith("->", at):
                answer = signature[at + 2:].strip()
        return answer

    @staticmethod
    def names(lines, word):
        found = []
        for line in lines:
            for name in re.findall(r"(?:^|\s)%s\*?(?:\s+(\w+))?\s*\{" % word, line):
                found.append(name or UNNAMED)
        return found

    def may_refuse(self):
        return self.answer.startswith(("Result", "Option", "io::Result"))

    def row(self):
        def listed(names):
            return ", ".join(name if name == UNNAMED else "`%s`" % name for name in names)
        answer = "`%s`" % self.answer.replace("|", "\\|") if self.answer else ""
        return "| `%s` | %s | %s | %s |" % (self.name, answer, listed(self.requires), listed(self.ensures))


def crates():
    """The library crates but those of tests, in the order of crates.txt."""
    for line in (ROOT / "crates.txt").read_text().splitlines():
        name = line.split(":")[0].strip()
        if line and not line.startswith("#") and not name.startswith(("pc_test_", "pc_spec_examples")):
            if (ROOT / "crates" / name / "src" / "lib.rt").exists():
                yield name


def public_names(lib):
    """The names that a crate hands on, and its modules that are public as a whole."""
    names = set()
    for path in re.findall(r"(?ms)^pub use ([^;]+);", lib):
        inside = re.search(r"\{(.*)\}", path, re.DOTALL)
        listed = inside.group(1).split(",") if inside else [path.rsplit("::", 1)[-1]]
        names |= {part.split(" as ")[0].strip() for part in listed if part.strip()}
    return names, set(re.findall(r"(?m)^pub mod (\w+);", lib))


def head_lines(lines, at):
    """The lines of a function from its first one to the one before its body."""
    indent = re.match(r"\s*", lines[at]).group()
    taken = []
    for line in lines[at:]:
        if line.rstrip() == indent + "{":
            break
        taken.append(line)
        one_line = line.rstrip().endswith(("{", "}")) and not re.search(r"\b(requires|ensures)\b", "\n".join(taken))
        if one_line or line.rstrip().endswith(";"):
            break
    return taken


def calls_of(crate):
    """The public calls of a crate, file by file."""
    folder = ROOT / "crates" / crate / "src"
    names, modules = public_names((folder / "lib.rt").read_text())
    files = sorted(folder.rglob("*.rt"))
    whole = {path for path in files if path.relative_to(folder).parts[0].removesuffix(".rt") in modules}
    for path in whole:
        names |= set(re.findall(r"(?m)^pub (?:struct|enum|trait|fn) (\w+)", path.read_text()))
    for path in files:
        lines, owner, kind = path.read_text().splitlines(), None, None
        for at, line in enumerate(lines):
            block = re.match(r"(?:pub )?(impl|trait)\b\s*(.*)", line)
            if block:
                before, of, behind = re.sub(r"^<[^{]*?>\s+(?=\w)", "", block.group(2)).rpartition(" for ")
                named = re.match(r"\w+", behind)
                owner = named.group() if named else None
                kind = "impl of a trait" if of else block.group(1)
            elif line.startswith("}"):
                owner = None
            found = re.match(r"(    )?(pub )?(?:const |final )?fn (\w+)", line)
            if not found or (owner if found.group(1) else found.group(3)) not in names:
                continue
            call = Call(owner if found.group(1) else None, found.group(3), head_lines(lines, at))
            if found.group(2) or kind == "trait" or kind == "impl of a trait" and call.requires + call.ensures:
                yield call


def page(calls):
    every = [call for found in calls.values() for call in found]
    text = [HEAD % (len(every), len(calls), sum(bool(call.requires) for call in every))]
    for crate, found in calls.items():
        rows = "\n".join(call.row() for call in found)
        text.append("## `%s`\n\n| call | answers | asks for | promises |\n|---|---|---|---|\n%s\n" % (crate, rows))
    return "\n".join(text)


def unsaid(calls):
    """Of the calls that may refuse, those of which no clause or no row of docs/CAUSES.md says when."""
    named = set(re.findall(r"\w+", " ".join(re.findall(r"`([^`]*)`", (ROOT / "docs" / "CAUSES.md").read_text()))))
    for crate, found in calls.items():
        for call in found:
            if call.may_refuse() and not call.ensures:
                yield "%s: no clause says what %s answers" % (crate, call.name)
            if call.may_refuse() and call.name.rpartition("::")[2] not in named:
                yield "%s: docs/CAUSES.md has no %s" % (crate, call.name)


def main():
    calls = {crate: list(calls_of(crate)) for crate in crates()}
    calls = {crate: found for crate, found in calls.items() if found}
    text = page(calls)
    if "--write" in sys.argv[1:]:
        PAGE.write_text(text)
    elif "--check" in sys.argv[1:]:
        faults = list(unsaid(calls))
        if not PAGE.exists() or PAGE.read_text() != text:
            faults.append("docs/CALLS.md is out of date: run python3 tools/calls.py --write")
        sys.exit("\n".join(faults) or 0)
    else:
        sys.exit(__doc__)


if __name__ == "__main__":
    main()
