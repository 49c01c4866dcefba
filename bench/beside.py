#!/usr/bin/env python3
"""The program `plan` beside another reader of JSON, on large inputs.

    beside.py PROGRAM [--mib N] [--other COMMAND] [FAMILY ..]

Makes one input of at most N MiB (48) for each family of hostile.py that is named, runs PROGRAM on it with the word
`translate`, and COMMAND (`jq -c .`), which only reads the text and writes it again. It prints the processor seconds and
the peak memory of both, and how often the other takes what the program does. Without families it takes those that
large ordinary inputs are like.
"""
import argparse
import os
import shlex
import subprocess
import sys
import tempfile

sys.path.insert(0, os.path.dirname(os.path.abspath(__file__)))
import hostile  # noqa: E402

ORDINARY = ("many_lifts", "many_exports", "wide_module", "many_functions", "names_in_a_bag", "small_payloads",
            "many_modules", "chain_of_modules")


def used(command, path):
    """The seconds of processor time and the MiB at the peak of a command that has to end well."""
    status, seconds, peak = hostile.measured(command, path, subprocess.DEVNULL)
    if status != 0:
        sys.exit("%s ended with status %d" % (shlex.join(command), status))
    return seconds, peak


def main():
    parser = argparse.ArgumentParser(description="Runs the program beside another reader of JSON.")
    parser.add_argument("program")
    parser.add_argument("families", nargs="*", metavar="FAMILY")
    parser.add_argument("--mib", type=float, default=48)
    parser.add_argument("--other", default="jq -c .")
    args = parser.parse_intermixed_args()
    families = {family.__name__: family for family in hostile.FAMILIES}
    heads = ("family", "MiB", "seconds", "peak MiB", "other s", "MiB", "times", "times")
    print("%-20s %6s %8s %8s %8s %8s %6s %6s" % heads)
    for name in args.families or ORDINARY:
        with tempfile.TemporaryDirectory() as folder:
            path = os.path.join(folder, name + ".json")
            size = hostile.make(families[name], args.mib, path)
            seconds, peak = used([os.path.abspath(args.program), "translate"], path)
            other_seconds, other_peak = used(shlex.split(args.other), path)
        figures = (size, seconds, peak, other_seconds, other_peak, other_seconds / seconds, other_peak / peak)
        print("%-20s %6.1f %8.2f %8.0f %8.2f %8.0f %6.1f %6.1f" % (name, *figures), flush=True)


if __name__ == "__main__":
    main()
