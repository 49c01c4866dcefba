#!/usr/bin/env python3
"""Writes rows of crates/pc_test_rows: each operand of each builtin that fits nothing, with the text that is written of
it.

A row is a canonical function, an export or an alias, between what makes an input of it. The fault is that of the kind
of operand, as docs/READING.md and docs/CAUSES.md have it: a type or a core signature is a bad type, an index is
invalid, a function of another shape is a bad form.

    python3 tools/builtin_rows.py            writes the rows
    python3 tools/builtin_rows.py --check    ends with 1 where they are out of date
    python3 tools/builtin_rows.py --print    prints inputs and texts in turn, a line each
"""

import json
import re
import sys
from pathlib import Path

FOLDER = Path(__file__).resolve().parent.parent / "crates" / "pc_test_rows" / "data"

# The component around a row. Known are one resource (0), and one item each of the core functions, memories and tables.
TYPES = [
    "resource",
    "resource",
    {"func": {"params": [], "result": None, "async": False}},
    {"instance": []},
    {"component": [[], []]},
    {"module": [[], []]},
    {"stream": "u8"},
    {"future": "u8"},
    {"val": "u32"},
    {"own": 0},
]
KNOWN, UNKNOWN, STREAM, FUTURE, MISSING = 0, 1, 6, 7, 10
NO_TYPES = [0, 2, 3, 4, 5, MISSING]
FURTHEST = 4294967295

# The builtins by their operands behind the core signature.
PLAIN = """backpressure.inc backpressure.dec task.cancel waitable-set.new waitable-set.drop waitable.join subtask.drop
    error-context.drop thread.index thread.resume-later thread.suspend thread.yield thread.suspend-then-resume
    thread.yield-then-resume thread.suspend-then-promote thread.yield-then-promote""".split()
RESOURCES = ["resource.new", "resource.rep", "resource.drop"]
MADE = ["new", "drop-readable", "drop-writable"]
MOVED = ["read", "write"]
CANCELLED = ["cancel-read", "cancel-write"]
WAITS = ["waitable-set.wait", "waitable-set.poll"]
ERRORS = ["error-context.new", "error-context.debug-message"]
SLOTS = ["context.get", "context.set"]
REFUSED = {
    "thread.spawn-ref": "thread-spawn",
    "thread.spawn-indirect": "thread-spawn",
    "thread.available-parallelism": "thread-spawn",
    "stream.forward": "stream-forward",
    "future.forward": "future-forward",
}


def over(kind, ty):
    """The builtins on a stream or a future type, with sound operands but for the type."""
    for name in MADE:
        yield ["%s.%s" % (kind, name), 0, ty]
    for name in MOVED:
        yield ["%s.%s" % (kind, name), 0, ty, []]
    for name in CANCELLED:
        yield ["%s.%s" % (kind, name), 0, ty, True]


def with_options(opts):
    """The builtins that have options, with these."""
    yield ["task.return", 0, None, opts]
    for kind, ty in (("stream", STREAM), ("future", FUTURE)):
        for name in MOVED:
            yield ["%s.%s" % (kind, name), 0, ty, opts]
    for name in ERRORS:
        yield [name, 0, opts]


def sound():
    """Each builtin and each access of a slot once, with sound operands."""
    for name in PLAIN:
        yield [name, 0]
    for name in RESOURCES:
        yield [name, 0, KNOWN]
    yield ["task.return", 0, None, []]
    for name in WAITS:
        yield [name, 0, 0]
    yield ["subtask.cancel", 0, True]
    yield from over("stream", STREAM)
    yield from over("future", FUTURE)
    for name in ERRORS:
        yield [name, 0, []]
    yield ["thread.new-indirect", 0, 0, 0]
    for name in SLOTS:
        yield [name, 0, "i32", 0]


def with_place(function, place, operand):
    return function[:place] + [operand] + function[place + 1:]


def signatures():
    """A core signature past the end."""
    for function in sound():
        yield with_place(function, 1, 1)


def resources():
    """A resource that isn't known, an entry of another kind, and one that is missing."""
    for name in RESOURCES:
        for ty in [UNKNOWN, 2, 3, 4, 5, STREAM, 8, 9, MISSING, FURTHEST]:
            yield [name, 0, ty]


def streams():
    for ty in NO_TYPES + [FUTURE, 8, 9]:
        yield from over("stream", ty)


def futures():
    for ty in NO_TYPES + [STREAM, 8, 9]:
        yield from over("future", ty)


def results():
    """A result that is no type of values."""
    for ty in NO_TYPES + [FURTHEST]:
        yield ["task.return", 0, ty, []]


OPTIONS = [
    [["memory", 1]],
    [["memory", 1], ["memory", 0]],
    [["realloc", 1]],
    ["gc", ["realloc", FURTHEST]],
    ["async", ["callback", 1]],
    [["post-return", 1]],
]


def options():
    """An option whose index names nothing, also one that doesn't count."""
    for opts in OPTIONS:
        yield from with_options(opts)


def indices():
    """A memory, a table, and a context slot that isn't there."""
    for past in (1, FURTHEST):
        for name in WAITS:
            yield [name, 0, past]
        yield ["thread.new-indirect", 0, 0, past]
    for past in (2, FURTHEST):
        for name in SLOTS:
            yield [name, 0, "i32", past]


def slot_types(name):
    """A context slot of another type than i32."""
    for ty in ("i64", "f32", "f64", "v128", "funcref", "externref"):
        yield [name, 0, ty, 0]


def forms():
    """An operand that is missing, one too many, and operands that are something else."""
    for function in sound():
        yield function[:-1]
        yield function + [0]
    for function in sound():
        for place, operand in enumerate(function):
            if place == 0:
                continue
            if operand is True:
                yield with_place(function, place, 1)
            elif operand == []:
                yield with_place(function, place, ["utf-8"])
            elif operand == "i32":
                yield with_place(function, place, "i31")
            elif place > 1 and operand is not None:
                yield with_place(function, place, True)
    yield ["task.return", 0, "u7", []]
    yield ["subtask.cancel", True, True]
    yield ["resource.new", -1, 0]
    yield ["context.get", 0, "i32", 0.5]
    yield ["waitable-set.wait", 0, [["memory", 0]]]
    for name in REFUSED:
        yield [name, 0]


# The unsafe intrinsics: name, parameters, result.
INTRINSICS = [("store-data-address", [], "u64")]
for front, addresses in (("", ["u64"]), ("-checked", ["u64", "u64", "u64"])):
    for word in ("u8", "u16", "u32", "u64"):
        INTRINSICS.append(("%s%s-native-load" % (word, front), addresses, word))
        INTRINSICS.append(("%s%s-native-store" % (word, front), addresses + [word], None))
for slot in "01":
    INTRINSICS.append(("context-get-i32-" + slot, [], "u32"))
    INTRINSICS.append(("context-set-i32-" + slot, ["u32"], None))


def distinct(items):
    kept = []
    for item in items:
        if item not in kept:
            kept.append(item)
    return kept


# The types that stand before the instance type of the intrinsics: each function once, and one of each other kind.
FUNCTIONS = distinct((params, result) for _, params, result in INTRINSICS)
OTHERS = [{"instance": []}, {"component": [[], []]}, {"module": [[], []]}]


def interface():
    """Each intrinsic with the types of two others, as a type, and as what is no function."""
    for name, params, result in INTRINSICS:
        own = FUNCTIONS.index((params, result))
        for other in (own + 1, own - 1):
            yield [name, ["func", other % len(FUNCTIONS)]]
        yield [name, ["type", own]]
    for place, kind in enumerate(("instance", "component", "module")):
        yield ["u8-native-load", [kind, len(FUNCTIONS) + place]]


def names():
    """Names that are nearly that of an intrinsic."""
    for name, params, result in INTRINSICS:
        yield [name[:-1], ["func", FUNCTIONS.index((params, result))]]


def unknown_aliases():
    """The same, taken out of the instance, also as something that no intrinsic is."""
    for name, _, _ in INTRINSICS:
        yield {"export": ["func", 0, name + "s"]}
    for kind in ("instance", "component", "module", "type"):
        yield {"export": [kind, 0, "u7-native-load"]}


def other_aliases():
    """An intrinsic as something that it isn't, and one of an instance that isn't there."""
    for kind in ("instance", "component", "module", "type"):
        for name in ("u8-native-load", "context-set-i32-1"):
            yield {"export": [kind, 0, name]}
    yield {"export": ["func", 1, "u8-native-load"]}


# What is written.
FAULTS = {
    "BAD_TYPE": "fault bad-type at instance 0 item 6",
    "INVALID": "fault invalid at instance 0 item 6",
    "READS_ANOTHER": "fault unsupported context-get-type at payload 5 item 0",
    "WRITES_ANOTHER": "fault unsupported context-set-type at payload 5 item 0",
    "SPAWNS": "fault unsupported thread-spawn at payload 5 item 0",
    "FORWARDS_STREAM": "fault unsupported stream-forward at payload 5 item 0",
    "FORWARDS_FUTURE": "fault unsupported future-forward at payload 5 item 0",
    "NO_FORM": "fault bad-form",
    "BAD_INTRINSICS": "fault bad-intrinsics at payload 1 item 0",
    "NO_NAME": "fault unknown-intrinsic at payload 1 item 0",
    "UNKNOWN_ALIAS": "fault unknown-intrinsic at instance 0 item 1",
    "OTHER_ALIAS": "fault invalid at instance 0 item 1",
}


def of(fault, rows):
    return [(row, fault) for row in rows]


def refused():
    for name, kind in REFUSED.items():
        yield [name], {"thread-spawn": "SPAWNS", "stream-forward": "FORWARDS_STREAM"}.get(kind, "FORWARDS_FUTURE")


# A file: its first line, its name, what stands around a row, and its tables, each with what it is of.
FILES = [
    ("Builtins with a core signature or a type that fits nothing.", "builtin_types", "BUILTIN", [
        ("A core signature that isn't there.", of("BAD_TYPE", signatures())),
        ("A resource that isn't known, another type, and none.", of("BAD_TYPE", resources())),
        ("A result that is no type of values.", of("BAD_TYPE", results())),
    ]),
    ("Builtins on streams and futures with another type.", "builtin_handles", "BUILTIN", [
        ("Another type than a stream, and none.", of("BAD_TYPE", streams())),
        ("Another type than a future, and none.", of("BAD_TYPE", futures())),
    ]),
    ("Builtins with an index that names nothing, and functions that aren't supported.", "builtin_indices", "BUILTIN", [
        ("An option that names nothing.", of("INVALID", options())),
        ("A memory, a table or a context slot that isn't there.", of("INVALID", indices())),
        ("A context slot of another type than i32.",
         of("READS_ANOTHER", slot_types("context.get")) + of("WRITES_ANOTHER", slot_types("context.set"))),
        ("Functions that aren't supported.", list(refused())),
    ]),
    ("Builtins without an operand, with one too many, and with another thing in its place.", "builtin_forms", "BUILTIN", [
        ("What has the form of no canonical function.", of("NO_FORM", forms())),
    ]),
    ("Intrinsics under another name, of another type, and of another kind.", "interface", "INTERFACE", [
        ("An intrinsic of another type, or as something else.", of("BAD_INTRINSICS", interface())),
        ("A name that no intrinsic has.", of("NO_NAME", names())),
    ]),
    ("Aliases of the members of the intrinsics.", "aliases", "ALIAS", [
        ("A name that no intrinsic has.", of("UNKNOWN_ALIAS", unknown_aliases())),
        ("An intrinsic that is taken as something else.", of("OTHER_ALIAS", other_aliases())),
    ]),
]

# What stands around a row.
PLACES = {
    "BUILTIN": """A canonical function in the root, as its item 6. There are a core function, a memory and a table; known is the
resource of entry 0. The stream type is entry 6, the future type entry 7.""",
    "INTERFACE": "Exports of the instance type that the root imports as the unsafe intrinsics.",
    "ALIAS": "An alias behind the import of the unsafe intrinsics.",
}


def written(row):
    return json.dumps(row, separators=(",", ":"))


def comment(text):
    return "".join("~ %s\n" % line for line in text.splitlines())


def wrapped(text):
    """A text in lines that end behind a comma."""
    lines = [""]
    for piece in re.split(r"(?<=,)", text):
        if len(lines[-1] + piece) > 118:
            lines.append("")
        lines[-1] += piece
    return "\n".join(lines)


def table(about, rows):
    """The rows of a table."""
    each = ["~translate\n%s\n~refused\n%s\n" % (written(row), FAULTS[fault]) for row, fault in rows]
    return "~\n" + comment(about) + "".join(each)


def contents(about, place, tables):
    """A file of rows."""
    before, after = around()[place]
    return "".join([
        comment(about), "~\n~ Written by `tools/builtin_rows.py`.\n~\n", comment(PLACES[place]),
        "~before\n%s\n~after\n%s\n" % (wrapped(before), after),
    ] + [table(*each) for each in tables])


def document(types, payloads, exposed):
    """An input around the text \"ROW\": what stands before it and behind it."""
    tree = {"limit": 100, "intrinsics": exposed, "types": {"core": [[[], []]], "types": types}, "payloads": payloads}
    return json.dumps(tree, separators=(",", ":")).split('"ROW"')


def around():
    """What stands around the rows."""
    module = {"ty": 5, "imports": [], "funcs": [0], "tables": 1, "memories": [False], "globals": 0, "tags": 0,
              "exports": [["f", "func", 0], ["m", "memory", 0], ["t", "table", 0]]}
    aliases = [{"core-export": [kind, 0, kind[0]]} for kind in ("func", "memory", "table")]
    builtin = ["version", {"types": [{"resource": [KNOWN, "i32", None]}]}, {"module": module},
               {"instances": [{"instantiate": [0, []]}]}, {"aliases": aliases}, {"canon": ["ROW"]}, "end"]
    functions = [{"func": {"params": [list(pair) for pair in zip("abcd", params)], "result": result, "async": False}}
                 for params, result in FUNCTIONS]
    import_of = {"imports": [["i", ["instance", len(FUNCTIONS) + len(OTHERS)]]]}
    return {
        "BUILTIN": document(TYPES, builtin, None),
        "INTERFACE": document(functions + OTHERS + [{"instance": ["ROW"]}], ["version", import_of, "end"], "i"),
        "ALIAS": document([{"instance": []}], ["version", {"imports": [["i", ["instance", 0]]]}, {"aliases": ["ROW"]},
                                               "end"], "i"),
    }


def main():
    if "--print" in sys.argv:
        for _, _, around_it, tables in FILES:
            before, after = around()[around_it]
            for row, fault in (pair for each in tables for pair in each[1]):
                print(before + written(row) + after)
                print(FAULTS[fault])
        return
    stale = []
    for about, name, place, tables in FILES:
        path = FOLDER / (name + ".txt")
        text = contents(about, place, tables)
        if "--check" not in sys.argv:
            path.write_text(text)
        elif not path.exists() or path.read_text() != text:
            stale.append(name)
    for name in stale:
        print("%s.txt is out of date: run python3 tools/builtin_rows.py" % name)
    sys.exit(1 if stale else 0)


if __name__ == "__main__":
    main()
