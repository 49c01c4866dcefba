#!/usr/bin/env python3
"""The checks that need no prover: the scripts' own tests, and whether what scripts write is up to date.

    python3 tools/check.py              ends with 1 where one fails
    python3 tools/check.py PROGRAM      also runs the program on the worked examples, and compares
"""
import subprocess
import sys
from pathlib import Path

TOOLS = Path(__file__).resolve().parent
CHECKS = [("believed.py", "--check"), ("builtin_rows.py", "--check"), ("calls.py", "--check"), ("draw.py", "--test"),
          ("links.py", "--check"), ("manpage.py", "--check")]


def main():
    program = sys.argv[1:2]
    failed = []
    for script, *words in CHECKS + [("examples.py", "--check", *program)]:
        if subprocess.run([sys.executable, str(TOOLS / script), *words]).returncode:
            failed.append(script)
    print("failed: " + ", ".join(failed) if failed else "all checks passed")
    sys.exit(1 if failed else 0)


if __name__ == "__main__":
    main()
