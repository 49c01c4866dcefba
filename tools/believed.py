#!/usr/bin/env python3
"""What the clauses of `run` and of `translate` rest on: files, lines, definitions.

A definition is rested on if its name is reached from a `requires` or an `ensures` by names, resolved by the `use` lines of
each file. A record or a family of definitions counts whole, and a name that a variable hides counts too: so the
list may be too long, and is never too short. Structs and enums of the code and words of std and of the kit aren't
definitions of this repository's specs/; the code's types are counted apart, the kit's modules are named.

    python3 tools/believed.py            files, lines and definitions, for `run` and for `translate`
    python3 tools/believed.py --files    the files of `run` as well, with the lines of their definitions
    python3 tools/believed.py --map      the tables of docs/MAP.md
    python3 tools/believed.py --write    puts the numbers and the tables into README.md, docs/MAP.md and docs/THEOREM.md
    python3 tools/believed.py --check    ends with 1 where these are out of date
    python3 tools/believed.py --why W    how the definition W is reached
"""

import re
import sys
from pathlib import Path

ROOT = Path(__file__).resolve().parent.parent
STARTS = {
    "run": ("pc_tool", "command.rt", "run"),
    "translate": ("pc_translate", "translator.rt", "translate"),
}
HEAD = re.compile(r"^(\s*)(?:(?:unfoldable|abbrev|opaque)\s+)*(?:pub\s+)?(?:data\s+|record\s+)?(◌\S+◌|[^\s:()={}]+)(?:\s|$)")
KEYWORD = re.compile(r"^\s*(?:(?:unfoldable|abbrev|opaque|pub)\s+)+|^\s*(?:data|record)\s+")


def without_comments(text):
    return re.sub(r"(?m)(^|\s)--.*$", r"\1", text)


def imports(text):
    """From the `use` lines: name -> (module, name), and alias -> module."""
    names, aliases = {}, {}
    for found in re.finditer(r"(?m)^(?:pub )?(?:ghost )?use\s+([\w.«»]+?)(?:\.\{([^}]*)\})?(?:\s+as\s+(\w+))?;?\s*$", text):
        module, listed, alias = found.groups()
        if listed is None:
            aliases[alias or module.rsplit(".", 1)[-1]] = module
            continue
        for part in listed.split(","):
            part = part.strip()
            if part:
                name, _, new = part.partition(" as ")
                names[(new or name).strip()] = (module, name.strip())
    return names, aliases


class Block:
    """A definition with its comment, or a `mutual` family."""

    def __init__(self, module, start, lines, header):
        self.module, self.start, self.lines = module, start, lines
        self.names, self.text = set(), without_comments("\n".join([header] + lines))


class Module:
    def __init__(self, crate, path):
        self.crate, self.path = crate, path
        self.text = path.read_text()
        self.lines = self.text.splitlines()
        self.uses, self.aliases = imports(self.text)
        self.blocks, self.owner = [], {}
        self.split()

    def split(self, lines=None, offset=0, header=""):
        """Cuts lines into definitions; a `module` with parameters has its own, two places further in."""
        lines = self.lines if lines is None else lines
        starts = []
        for n, line in enumerate(lines):
            if line[:1].strip() == "" or line.startswith(("--", "use ", "pub use ", "pub mod ", "infix")):
                continue
            if line.startswith("module ") or line.rstrip().endswith("mutual") or KEYWORD.match(line) or self.declares(line):
                starts.append(n)
        for k, n in enumerate(starts):
            end = starts[k + 1] if k + 1 < len(starts) else len(lines)
            if lines[n].startswith("module "):
                first = next(m for m in range(n, end) if lines[m].rstrip().endswith("where")) + 1
                inner = [line[2:] for line in lines[first:end]]
                self.split(inner, offset + first, header + "\n".join(lines[n:first]))
                continue
            begin = n
            while begin > 0 and lines[begin - 1].startswith("--") and (k == 0 or begin > starts[k - 1]):
                begin -= 1
            while end > n and (lines[end - 1].strip() == "" or lines[end - 1].startswith(("--", "use ", "infix"))):
                end -= 1
            block = Block(self, offset + begin, lines[begin:end], header)
            self.name_all(block, lines[n:end])
            self.blocks.append(block)
            for name in block.names:
                self.owner.setdefault(name, block)

    @staticmethod
    def declares(line):
        return re.match(r"^[^\s:=]+ : ", line) is not None

    @staticmethod
    def name_all(block, lines):
        family = lines[0].rstrip().endswith("mutual")
        for n, line in enumerate(lines):
            depth = len(line) - len(line.lstrip())
            if n == 0 and not family or family and depth == 2:
                found = HEAD.match(line)
                if found and (KEYWORD.match(line) or Module.declares(line.strip())):
                    block.names.add(found.group(2))
            elif re.match(r"^\s+(?:pub )?[^\s:=(]+(?: [^\s:=(]+)* : ", line) and not line.lstrip().startswith("--"):
                left = line.strip().split(" : ")[0]
                # constructors of a data; the fields of a record are reached through it alone
                if any(re.match(r"\s*(?:pub )?data ", l) for l in lines[: n + 1]):
                    block.names.update(left.replace("pub ", "").split())


def load():
    modules, handed_on = {}, {}
    for line in (ROOT / "crates.txt").read_text().splitlines():
        if not line.strip() or line.startswith("#"):
            continue
        crate = line.split(":")[0].split()[0]
        specs = ROOT / "crates" / crate / "specs"
        if not (specs / "Lib.antt").exists():
            continue
        lib = (specs / "Lib.antt").read_text()
        for target, name in re.findall(r"(?m)^pub use (Rattle\.[\w.]+\.(\w+))\s*$", lib):
            handed_on[f"Rattle.{crate}.specs.{name}"] = target
        for name in re.findall(r"(?m)^pub mod (\w+)", lib):
            path = specs / f"{name}.antt"
            if path.exists():
                modules[f"Rattle.{crate}.specs.{name}"] = Module(crate, path)
    for name, target in handed_on.items():
        while target in handed_on:
            target = handed_on[target]
        modules[name] = modules[target]
    return modules


def clauses(crate, file, function):
    """The clauses of a public function of a source file, and the imports of that file."""
    text = (ROOT / "crates" / crate / "src" / file).read_text()
    head = re.search(rf"(?m)^pub fn {function}\b", text)
    body = text[head.start():]
    body = body[: re.search(r"(?m)^\{", body).start()]
    body = re.sub(r"(?m)//.*$", "", body)
    found = []
    for match in re.finditer(r"\b(?:requires|ensures)\b[^{]*\{", body):
        depth, at = 1, match.end()
        while depth:
            depth += {"{": 1, "}": -1}.get(body[at], 0)
            at += 1
        found.append(body[match.end(): at - 1])
    return "\n".join(found), imports(text)


def names_in(text):
    """Words of a text, each with the word before its dot, if it has one."""
    for match in re.finditer(r"((?:[^\W\d]|◌)[\w'◌>=-]*)(?:\.([^\W\d][\w'-]*))?", text):
        yield match.group(1), match.group(2)
    for match in re.finditer(r"\.([^\W\d][\w'-]*)", text):
        yield None, match.group(1)


class Rests:
    def __init__(self, modules, start):
        self.modules = modules
        self.blocks, self.types, self.outside, self.came = {}, set(), set(), {}
        text, (uses, aliases) = clauses(*STARTS[start])
        todo = []
        self.follow(text, uses, aliases, None, start, todo)
        while todo:
            block = todo.pop()
            module = block.module
            self.follow(block.text, module.uses, module.aliases, module, block, todo)
        self.files = [m for m in dict.fromkeys(modules.values()) if any(id(b) in self.blocks for b in m.blocks)]

    def reach(self, target, name, came, todo):
        module = self.modules.get(target)
        if module is None:
            crate = target.split(".")[1] if "." in target else target
            if ".declared." in target and (ROOT / "crates" / crate).exists():
                owner = target.split(".declared.")[1].split(".The")[0]
                if "TheConstants" not in target:
                    self.types.add((crate, owner))
            elif not (ROOT / "crates" / crate).exists() and target.startswith("Rattle."):
                self.outside.add(".".join(target.split(".")[1:]))
            return
        if name in module.owner:
            self.take(module.owner[name], came, todo)
        elif name in module.uses:
            self.reach(*module.uses[name], came, todo)

    def take(self, block, came, todo):
        if id(block) not in self.blocks:
            self.blocks[id(block)] = block
            self.came[id(block)] = came
            todo.append(block)

    def follow(self, text, uses, aliases, module, came, todo):
        for name in list(uses) + list(module.owner if module else []):
            if "◌" in name and all(part in text for part in name.split("◌") if part):
                if module is not None and name in module.owner:
                    self.take(module.owner[name], came, todo)
                else:
                    self.reach(*uses[name], came, todo)
        for first, second in names_in(text):
            if first is None:
                continue
            if second and first in aliases and first not in uses:
                self.reach(aliases[first], second, came, todo)
            elif module is not None and first in module.owner:
                self.take(module.owner[first], came, todo)
            elif first in uses:
                self.reach(*uses[first], came, todo)

    def lines_of(self, module):
        return sum(len(b.lines) for b in module.blocks if id(b) in self.blocks)

    def count_of(self, module):
        return sum(1 for b in module.blocks if id(b) in self.blocks)

    def file_lines(self):
        return sum(len(m.lines) for m in self.files)

    def definition_lines(self):
        return sum(self.lines_of(m) for m in self.files)


def head_of(module):
    """The sentence with which a file opens."""
    said = []
    for line in module.lines:
        if not line.startswith("--"):
            break
        said.append(line[2:].strip())
    text = " ".join(said)
    text = re.split(r"(?<=\.)\s+(?=[A-Z`])", text)[0]
    return text.rstrip(".").replace("|", "\\|")


def table(run):
    out = ["| file | lines | of which rested on | what it says |", "|---|---|---|---|"]
    crate = None
    for module in run.files:
        name = f"`{module.path.stem}`"
        if module.crate != crate:
            crate = module.crate
            out.append(f"| **`{crate}`** | | | |")
        used = run.lines_of(module)
        out.append(f"| {name} | {len(module.lines)} | {used} | {head_of(module)} |")
    return "\n".join(out)


def others(run, modules):
    """The files on which the public clauses of other crates rest, and those of `run` don't: by crate."""
    out = ["| crate | files of its `specs/` |", "|---|---|"]
    for line in (ROOT / "crates.txt").read_text().splitlines():
        crate = line.split(":")[0].split()[0] if line.strip() and not line.startswith("#") else ""
        lib = ROOT / "crates" / crate / "specs" / "Lib.antt"
        if not lib.exists() or crate == "" or crate.startswith(("pc_test_", "pc_spec_examples")):
            continue
        names = []
        for text in lib.read_text().splitlines():
            if re.match(r"-- .*\b(inside|within)\b", text):
                break
            found = re.match(r"pub mod (\w+)", text)
            if found and modules[f"Rattle.{crate}.specs.{found.group(1)}"] not in run.files:
                names.append(f"`{found.group(1)}`")
        if names:
            out.append(f"| `{crate}` | {', '.join(names)} |")
    return "\n".join(out)


def figures(run):
    return f"{len(run.files)} files of {run.file_lines():,} lines"


def definitions(run):
    return f"{len(run.blocks):,} definitions of {run.definition_lines():,} lines"


def refreshed(text, run, translate, modules):
    """A page with what stands between its markers written anew."""
    for key, new in {
        "run": figures(run),
        "run-definitions": definitions(run),
        "translate": figures(translate),
        "translate-definitions": definitions(translate),
        "table": "\n" + table(run) + "\n",
        "others": "\n" + others(run, modules) + "\n",
    }.items():
        text = re.sub(rf"(?s)(<!--{key}-->).*?(<!--end-->)", lambda m: m.group(1) + new + m.group(2), text)
    return text


def main():
    modules = load()
    rests = {name: Rests(modules, name) for name in STARTS}
    run, translate = rests["run"], rests["translate"]
    asked = sys.argv[1:]
    if asked[:1] == ["--map"]:
        print(table(run))
        print()
        print(others(run, modules))
        return 0
    if asked[:1] in (["--write"], ["--check"]):
        stale = 0
        for page in ("README.md", "docs/MAP.md", "docs/THEOREM.md"):
            path = ROOT / page
            old = path.read_text()
            new = refreshed(old, run, translate, modules)
            if new != old and asked == ["--write"]:
                path.write_text(new)
            if new != old:
                stale = 1
                print(f"{page}: {'written' if asked == ['--write'] else 'out of date'}")
        return stale if asked == ["--check"] else 0
    if asked[:1] == ["--why"]:
        for block in run.blocks.values():
            if asked[1] in block.names:
                while isinstance(block, Block):
                    names = ", ".join(sorted(block.names)[:3])
                    print(f"{block.module.crate}/specs/{block.module.path.name}:{block.start + 1} {names}")
                    block = run.came[id(block)]
                print(f"the clauses of `{block}`")
        return 0
    for name, rest in rests.items():
        print(f"`{name}` rests on {figures(rest)}: {definitions(rest)}, and {len(rest.types)} structs and enums")
    if asked[:1] == ["--files"]:
        for module in run.files:
            print(f"{len(module.lines):5} {run.lines_of(module):5} {run.count_of(module):4}  "
                  f"{module.crate}/specs/{module.path.name}")
        print("of the kit:", ", ".join(sorted(run.outside)))
    return 0


if __name__ == "__main__":
    sys.exit(main())
