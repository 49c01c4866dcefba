#!/usr/bin/env python3
"""Looks at the links of all pages, and keeps the table at the head of docs/DECISIONS.md.

    python3 tools/links.py --check    ends with 1 where a link leads nowhere, or the table lacks a heading
    python3 tools/links.py --write    writes the table from the headings of the page
"""
import re
import sys
from pathlib import Path

ROOT = Path(__file__).resolve().parent.parent
DECISIONS = ROOT / "docs" / "DECISIONS.md"


def pages():
    return sorted(path for path in ROOT.rglob("*.md") if "out" not in path.relative_to(ROOT).parts)


def without_blocks(text):
    return re.sub(r"(?ms)^```.*?^```$", "", text)


def anchor(heading):
    """The name under which a heading is linked to."""
    return re.sub(r"[^\w\- ]", "", heading.strip().lower()).replace(" ", "-")


def anchors(path):
    return {anchor(heading) for heading in re.findall(r"(?m)^#+ (.*)$", without_blocks(path.read_text()))}


def broken():
    """The links that lead to no file or to no heading of one."""
    for page in pages():
        for link in re.findall(r"\]\(([^)\s]+)\)", without_blocks(page.read_text())):
            name, _, place = link.partition("#")
            target = (page.parent / name).resolve() if name else page
            if link.startswith(("http://", "https://")):
                continue
            if not target.exists() or place and target.suffix == ".md" and place not in anchors(target):
                yield "%s: the link %s leads nowhere" % (page.relative_to(ROOT), link)


def decisions():
    """The page with a row for each of its sections, which lists what is decided there."""
    text, rows = DECISIONS.read_text(), []
    for section in re.split(r"(?m)^## ", text)[1:]:
        title = section.splitlines()[0]
        rows.append("| [%s](#%s) | %s |" % (title, anchor(title), "; ".join(re.findall(r"(?m)^### (.*)$", section))))
    return re.sub(r"(?s)(\|---\|---\|\n).*?(\n\n## )", lambda found: found[1] + "\n".join(rows) + found[2], text, count=1)


def main():
    if "--write" in sys.argv[1:]:
        DECISIONS.write_text(decisions())
    elif "--check" in sys.argv[1:]:
        faults = list(broken())
        if decisions() != DECISIONS.read_text():
            faults.append("docs/DECISIONS.md is out of date: run python3 tools/links.py --write")
        sys.exit("\n".join(faults) or 0)
    else:
        sys.exit(__doc__)


if __name__ == "__main__":
    main()
