#!/usr/bin/env python3
"""Draws a plan: reads the text that `plan translate` writes, and writes Graphviz text.

    plan translate <input | tools/draw.py | dot -Tsvg >plan.svg

A component instance is a frame around the core instances, slots and resources that are its own. An arrow leads from
what is there to the one that is given it. A text that is no plan is refused with the number of its line and exit code 1.
"""
import argparse
import re
import sys
from collections import namedtuple
from pathlib import Path

LARGEST = 4294967295
CORE_KINDS = ("func", "table", "memory", "global", "tag")
CORE_TYPES = ("i32", "i64", "f32", "f64", "v128", "funcref", "externref")
SLOT_KINDS = ("memory", "table", "realloc", "callback", "post-return")
ENCODINGS = ("utf8", "utf16", "compact-utf16")
IMPORT_KINDS = ("func", "instance", "module", "type")

# The counts of a plan, in their order.
COUNTS = ("core instances", "component instances", "lowerings", "memories", "tables", "reallocs", "callbacks",
          "post-returns", "resources", "future tables", "stream tables", "error context tables")

# The count that bounds the slots of a kind.
SLOT_COUNTS = dict(zip(SLOT_KINDS, ("memories", "tables", "reallocs", "callbacks", "post-returns")))


def kinds_with(parts, names):
    return {name: tuple(parts.split()) for name in names.split()}


# What stands after the symbol of a trampoline. A builtin has its component instance there, and then these parts.
BUILTINS = {
    **kinds_with("", """backpressure-inc backpressure-dec task-cancel waitable-set-new waitable-set-drop waitable-join
        subtask-drop thread-index thread-resume-later thread-suspend thread-yield thread-suspend-then-resume
        thread-yield-then-resume thread-suspend-then-promote thread-yield-then-promote stream-new stream-drop-readable
        stream-drop-writable future-new future-drop-readable future-drop-writable error-context-drop"""),
    **kinds_with("options", """task-return waitable-set-wait waitable-set-poll stream-read stream-write future-read
        future-write error-context-new error-context-debug-message"""),
    **kinds_with("flag", """subtask-cancel stream-cancel-read stream-cancel-write future-cancel-read
        future-cancel-write"""),
    **kinds_with("number table", "thread-new-indirect"),
}
# A builtin of a resource has the number of a type in its symbol.
OF_RESOURCES = ("component-resource-new", "component-resource-rep", "component-resource-drop")
# A helper belongs to no component instance.
HELPERS = {
    **kinds_with("", """component-resource-transfer-own component-resource-transfer-borrow future-transfer
        stream-transfer error-context-transfer enter-sync-call exit-sync-call"""),
    **kinds_with("maybe-memory", "component-prepare-call"),
    **kinds_with("callback post-return", "component-start-call"),
}
TRANSCODINGS = """copy_utf8 copy_utf16 copy_latin1 latin1_to_utf16 latin1_to_utf8 utf16_to_compact_probably_utf16
    utf16_to_compact_utf16 utf16_to_latin1 utf16_to_utf8 utf8_to_compact_utf16 utf8_to_latin1 utf8_to_utf16""".split()


class NotAPlan(Exception):
    """A line that the text of a plan doesn't have there."""

    def __init__(self, line, what):
        super().__init__("line %d: %s" % (line, what))
        self.line = line


# What a plan has. A definition's `kind` is export, flags, trampoline or intrinsic; `number` is a word for an intrinsic,
# and `item` is there for an export alone. Each part keeps its `line`.
Definition = namedtuple("Definition", "kind number item")
Options = namedtuple("Options", "component encoding flag callback post_return memory realloc gc")
ImportType = namedtuple("ImportType", "line name kind")
Import = namedtuple("Import", "line type names")
ImportedResource = namedtuple("ImportedResource", "line source")
Instance = namedtuple("Instance", "line step module source component arguments")
Lowering = namedtuple("Lowering", "line step source")
Slot = namedtuple("Slot", "line step definition")
Resource = namedtuple("Resource", "line step type destructor component")
Entry = namedtuple("Entry", "line options")
Trampoline = namedtuple("Trampoline", "line symbol component lowering options slots words")
Adapter = namedtuple("Adapter", "line module number function callee lift lower")
Export = namedtuple("Export", "line path kind definition number")


class Line:
    """A line that is read from the left to the right."""

    def __init__(self, number, text):
        self.number, self.text, self.place = number, text, 0

    def fault(self, what):
        return NotAPlan(self.number, "%s, at byte %d" % (what, self.place + 1))

    def found(self, pattern, what):
        match = re.compile(pattern, re.DOTALL).match(self.text, self.place)
        if not match:
            raise self.fault("%s expected" % what)
        self.place = match.end()
        return match

    def skips(self, text):
        """Whether the text stands next; then it is passed over."""
        there = self.text.startswith(text.encode(), self.place)
        self.place += len(text) if there else 0
        return there

    def must(self, text):
        if not self.skips(text):
            raise self.fault("'%s' expected" % text)

    def number_(self):
        n = int(self.found(rb"0(?![0-9])|[1-9][0-9]*", "a number").group())
        if n > LARGEST:
            raise self.fault("a number of at most %d expected" % LARGEST)
        return n

    def counted(self, n):
        """The number that a line of a numbered section begins with."""
        if self.number_() != n:
            raise self.fault("number %d expected" % n)

    def maybe_number(self):
        return None if self.skips("-") else self.number_()

    def word(self, words, what):
        word = self.found(rb"[a-z0-9][a-z0-9-]*", what).group().decode()
        if word not in words:
            raise self.fault("%s expected, and not '%s'" % (what, word))
        return word

    def name(self):
        quoted = self.found(rb'"((?:[^"\\]|\\["\\n])*)"', "a name in quotes").group(1)
        name = re.sub(rb"\\(.)", lambda m: b"\n" if m.group(1) == b"n" else m.group(1), quoted)
        return name.decode("utf-8", "replace")

    def definition(self):
        kind = self.word(("export", "flags", "trampoline", "intrinsic"), "a definition")
        self.must("(")
        if kind == "intrinsic":
            number, item = self.found(rb"[a-z0-9-]+", "the word of an intrinsic").group().decode(), None
        else:
            number, item = self.number_(), None
        if kind == "export":
            self.must(" ")
            item = self.item()
        self.must(")")
        return Definition(kind, number, item)

    def item(self):
        if self.text.startswith(b'"', self.place):
            return (self.name(), None)
        kind = self.word(CORE_KINDS, "an item")
        self.must(" ")
        return (kind, self.number_())

    def maybe_definition(self):
        return None if self.skips("-") else self.definition()

    def listed(self, piece):
        """Pieces between brackets, with a comma and a space between two."""
        self.must("[")
        pieces = []
        while not self.skips("]"):
            if pieces:
                self.must(", ")
            pieces.append(piece())
        return pieces

    def options(self):
        component = self.number_()
        self.must(" ")
        encoding = self.word(ENCODINGS, "an encoding")
        self.must(" ")
        flag = self.word(("sync", "async"), "'sync' or 'async'")
        slots = []
        for _ in range(2):
            self.must(" ")
            slots.append(self.maybe_number())
        self.must(" ")
        if self.skips("gc"):
            return Options(component, encoding, flag, *slots, None, None, True)
        memory = self.maybe_number()
        self.must(" ")
        return Options(component, encoding, flag, *slots, memory, self.maybe_number(), False)

    def extern_data(self):
        for word in (" implements ", " id "):
            if self.skips(word):
                self.name()

    def end(self):
        if self.place != len(self.text):
            raise self.fault("the end of the line expected")


class Plan:
    """A plan, read from its text."""

    def __init__(self, data):
        if data and not data.endswith(b"\n"):
            raise NotAPlan(data.count(b"\n") + 1, "the last line has no end")
        if data.startswith(b"fault "):
            raise NotAPlan(1, "the input was refused, and has no plan: %s" % data.splitlines()[0].decode())
        self.lines = [Line(n + 1, text) for n, text in enumerate(data.split(b"\n")[:-1])]
        self.next = 0
        self.read_head()
        self.import_types = self.numbered("import-type", self.read_import_type)
        self.imports = self.numbered("import", self.read_import)
        self.imported_resources = self.numbered("imported-resource", self.read_imported_resource)
        self.instances, self.lowerings, self.resources = [], [], []
        self.slots = {kind: [] for kind in SLOT_KINDS}
        self.read_steps()
        self.options = self.numbered("options", lambda line: Entry(line.number, line.options()))
        self.trampolines = self.numbered("trampoline", self.read_trampoline)
        self.intrinsics = []
        while self.begins("intrinsic "):
            line = self.take("intrinsic ")
            self.intrinsics.append(line.found(rb"[a-z0-9-]+", "the word of an intrinsic").group().decode())
            line.end()
        self.adapters = []
        while self.begins("adapter "):
            self.adapters.append(self.read_adapter())
        self.exports = []
        while self.begins("export "):
            self.exports.append(self.read_export())
        if self.next < len(self.lines):
            raise NotAPlan(self.next + 1, "no such line here")
        self.check()

    # lines

    def begins(self, text):
        return self.next < len(self.lines) and self.lines[self.next].text.startswith(text.encode())

    def take(self, text):
        """The next line, after the text that it must begin with."""
        if self.next == len(self.lines):
            raise NotAPlan(self.next + 1, "the text ends where '%s' must stand" % text)
        line = self.lines[self.next]
        self.next += 1
        line.must(text)
        return line

    def numbered(self, word, read):
        entries = []
        while self.begins(word + " "):
            line = self.take(word + " ")
            line.counted(len(entries))
            line.must(" ")
            entries.append(read(line))
            line.end()
        return entries

    def read_head(self):
        self.take("plan 1").end()
        line = self.take("modules ")
        self.static_modules = line.number_()
        line.must(" ")
        self.adapter_modules = line.number_()
        line.end()
        line = self.take("counts")
        self.counts = {}
        for name in COUNTS:
            line.must(" ")
            self.counts[name] = line.number_()
        line.end()

    def read_import_type(self, line):
        name = line.name()
        line.must(" ")
        kind = line.word(IMPORT_KINDS, "the kind of an import")
        line.extern_data()
        return ImportType(line.number, name, kind)

    def read_import(self, line):
        source, names = line.number_(), []
        while line.skips(" "):
            names.append(line.name())
        return Import(line.number, source, names)

    def read_imported_resource(self, line):
        return ImportedResource(line.number, line.number_())

    def read_steps(self):
        step = 0
        while self.begins("init "):
            line = self.take("init ")
            self.read_step(step, line)
            line.end()
            step += 1

    def read_step(self, step, line):
        kind = line.word(("static", "import", "lower", "resource") + SLOT_KINDS, "the kind of an initializer")
        line.must(" ")
        if kind in ("static", "import"):
            number = line.number_()
            line.must(" ")
            component = line.maybe_number()
            line.must(" ")
            arguments = line.listed(line.definition if kind == "static" else lambda: self.named_argument(line))
            module, source = (number, None) if kind == "static" else (None, number)
            self.instances.append(Instance(line.number, step, module, source, component, arguments))
        elif kind == "lower":
            line.counted(len(self.lowerings))
            line.must(" ")
            self.lowerings.append(Lowering(line.number, step, line.number_()))
        elif kind == "resource":
            line.counted(len(self.resources))
            line.must(" ")
            type_ = line.word(CORE_TYPES, "a core value type")
            line.must(" ")
            destructor = line.maybe_definition()
            line.must(" ")
            self.resources.append(Resource(line.number, step, type_, destructor, line.number_()))
        else:
            line.counted(len(self.slots[kind]))
            line.must(" ")
            self.slots[kind].append(Slot(line.number, step, line.definition()))

    @staticmethod
    def named_argument(line):
        line.name()
        line.must(" ")
        line.name()
        line.must(" ")
        return line.definition()

    def read_trampoline(self, line):
        symbol = line.found(rb"[a-z0-9_-]+(\[[0-9]+\])?", "the symbol of a trampoline").group().decode()
        stem, bracket, inside = symbol.partition("[")
        if stem == "component-lower-import" and bracket:
            line.must(" ")
            lowering = line.number_()
            if "%d]" % lowering != inside:
                raise line.fault("the lowering of the symbol expected")
            line.must(" ")
            return Trampoline(line.number, symbol, None, lowering, line.number_(), [], [])
        if stem in OF_RESOURCES if bracket else stem in BUILTINS:
            line.must(" ")
            component = line.number_()
            options, slots, words = self.read_parts(line, BUILTINS.get(stem, ()))
            return Trampoline(line.number, symbol, component, None, options, slots, words)
        options, slots, words = self.read_parts(line, self.helper_parts(line, symbol))
        return Trampoline(line.number, symbol, None, None, options, slots, words)

    @staticmethod
    def helper_parts(line, symbol):
        if symbol in HELPERS:
            return HELPERS[symbol]
        transcoder = re.fullmatch(r"component-transcode-(\w+)-m(32|64)-m(32|64)", symbol)
        if transcoder and transcoder.group(1) in TRANSCODINGS:
            return ("memory", "memory")
        if re.fullmatch(r"trap-(0|[1-9][0-9]*)", symbol):
            return ()
        raise line.fault("no kind of trampoline has the symbol '%s'" % symbol)

    @staticmethod
    def read_parts(line, parts):
        """The options, the slots by kind and number, and what else stands there."""
        options, slots, words = None, [], []
        for part in parts:
            line.must(" ")
            if part == "options":
                options = line.number_()
            elif part == "flag":
                words.append(line.word(("sync", "async"), "'sync' or 'async'"))
            elif part == "number":
                words.append("type %d" % line.number_())
            elif part in ("memory", "table"):
                slots.append((part, line.number_()))
            else:
                number = line.maybe_number()
                if number is not None:
                    slots.append((part.replace("maybe-", ""), number))
        return options, slots, words

    def read_adapter(self):
        line = self.take("adapter ")
        numbers = []
        for _ in range(4):
            numbers.append(line.number_())
            line.must(" ")
        line.must("lift ")
        lift = line.options()
        line.must(" lower ")
        lower = line.options()
        line.end()
        return Adapter(line.number, *numbers, lift, lower)

    def read_export(self):
        line = self.take("export ")
        path = [line.name()]
        line.must(" ")
        while line.text.startswith(b'"', line.place):
            path.append(line.name())
            line.must(" ")
        kind = line.word(("lifted", "imported", "module-static", "module-import", "instance", "type"),
                         "the kind of an export")
        definition = number = None
        if kind == "lifted":
            line.must(" ")
            definition = line.definition()
            line.must(" options ")
            number = line.number_()
        elif kind not in ("instance", "type"):
            line.must(" ")
            number = line.number_()
        line.extern_data()
        line.end()
        if len(path) > 1 and self.exports_at(path[:-1]) != "instance":
            raise NotAPlan(line.number, "the export stands in no exported instance")
        return Export(line.number, tuple(path), kind, definition, number)

    def exports_at(self, path):
        """The kind of the export whose parts are being read, where it has this path."""
        for export in reversed(self.exports):
            if len(export.path) <= len(path):
                return export.kind if export.path == tuple(path) else None
        return None

    # what stands under the numbers

    def within(self, line, number, count, what):
        if number >= count:
            raise NotAPlan(line, "there is no %s %d" % (what, number))

    def check(self):
        """That each number is that of something which is there."""
        for each in self.imports:
            self.within(each.line, each.type, len(self.import_types), "import type")
        for each in self.imported_resources + self.lowerings:
            self.within(each.line, each.source, len(self.imports), "import")
        for kind, slots in self.slots.items():
            for each in slots:
                self.check_definition(each, each.definition)
        for each in self.instances:
            if each.module is None:
                self.within(each.line, each.source, len(self.imports), "import")
            else:
                self.within(each.line, each.module, self.static_modules + self.adapter_modules, "module")
            self.check_component(each.line, each.component)
            for argument in each.arguments:
                self.check_definition(each, argument)
        for each in self.resources:
            self.check_component(each.line, each.component)
            self.check_definition(each, each.destructor)
        for each in self.options:
            self.check_component(each.line, each.options.component)
            self.check_slots(each.line, slots_of(each.options))
        for each in self.trampolines:
            self.check_trampoline(each)
        for each in self.adapters:
            self.within(each.line, each.module, self.static_modules + self.adapter_modules, "module")
            if each.module < self.static_modules:
                raise NotAPlan(each.line, "module %d has no adapters" % each.module)
            for side in (each.lift, each.lower):
                self.check_component(each.line, side.component)
        for each in self.exports:
            self.check_definition(each, each.definition)
            if each.kind == "lifted":
                self.within(each.line, each.number, len(self.options), "entry of options")
            elif each.kind in ("imported", "module-import"):
                self.within(each.line, each.number, len(self.imports), "import")
            elif each.kind == "module-static":
                self.within(each.line, each.number, self.static_modules, "static module")

    def check_trampoline(self, each):
        if each.lowering is not None:
            self.within(each.line, each.lowering, len(self.lowerings), "lowering")
        if each.options is not None:
            self.within(each.line, each.options, len(self.options), "entry of options")
        self.check_component(each.line, each.component)
        self.check_slots(each.line, each.slots)

    def check_component(self, line, component):
        if component is not None:
            self.within(line, component, self.counts["component instances"], "component instance")

    def check_slots(self, line, slots):
        for kind, number in slots:
            self.within(line, number, len(self.slots[kind]), kind)

    def check_definition(self, each, definition):
        """An instance must have been made before the step that names it."""
        if definition is None:
            return
        if definition.kind == "export":
            self.within(each.line, definition.number, len(self.instances), "core instance")
            if self.instances[definition.number].step >= getattr(each, "step", LARGEST):
                raise NotAPlan(each.line, "core instance %d isn't made yet" % definition.number)
        elif definition.kind == "flags":
            self.check_component(each.line, definition.number)
        elif definition.kind == "trampoline":
            self.within(each.line, definition.number, len(self.trampolines), "trampoline")
        elif definition.number not in self.intrinsics:
            raise NotAPlan(each.line, "the plan doesn't have the intrinsic %s" % definition.number)

    def import_path(self, number):
        """The names that lead to a host item, from that of its import on."""
        source = self.imports[number]
        return [self.import_types[source.type].name] + source.names

    def is_adapter_module(self, instance):
        return instance.module is not None and instance.module >= self.static_modules


def slots_of(options):
    """The slots that options name, by kind and number."""
    named = (("memory", options.memory), ("realloc", options.realloc), ("callback", options.callback),
             ("post-return", options.post_return))
    return [(kind, number) for kind, number in named if number is not None]


# The picture.

LONGEST, MOST_ROWS = 44, 14
FONT = "Helvetica,Arial,sans-serif"
INK, GREY = "#263238", "#607d8b"
FRAME = {"component": ("#f4f7fb", "#7b98b8"), "host": ("#f4f4f4", "#9e9e9e")}
# The fill and the edge of each kind of box.
COLOURS = {
    "instance": ("#dbe9f9", "#4a78a8"),
    "adapter": ("#ffe8bf", "#c08a1e"),
    "trampoline": ("#ddf0dd", "#5b9a5e"),
    "slot": ("#eee2f5", "#8d6bab"),
    "resource": ("#fbdedd", "#b96a67"),
    "import": ("#e4e4e4", "#8a8a8a"),
    "export": ("#d8efee", "#3f8f8b"),
}
LEGEND = (
    ("frame", "a component instance"),
    ("instance", "a core instance"),
    ("adapter", "an instance of an adapter module, with its adapters"),
    ("trampoline", "functions of the runtime: lowered ones of the host, and builtins"),
    ("slot", "a slot: a memory, table or function that is kept"),
    ("resource", "a resource"),
    ("import", "an import of the root"),
    ("export", "an export of the root"),
)


def escaped(text):
    """A text as Graphviz reads it in a label, cut where it is long."""
    if len(text) > LONGEST:
        text = text[:LONGEST - 1] + "\u2026"
    text = "".join(c if c.isprintable() else "\\x%02x" % ord(c) for c in text)
    return text.replace("&", "&amp;").replace("<", "&lt;").replace(">", "&gt;").replace('"', "&quot;")


def small(text):
    return '<font point-size="9" color="%s">%s</font>' % (GREY, text)


def step_of(each):
    return small("step %d" % (each.step + 1))


def numbers(found):
    """Ascending numbers, those that follow each other as a range."""
    pieces = []
    for n in sorted(set(found)):
        if pieces and pieces[-1][1] == n - 1:
            pieces[-1][1] = n
        else:
            pieces.append([n, n])
    return ", ".join(str(a) if a == b else "%d%s%d" % (a, ", " if b == a + 1 else "\u2013", b) for a, b in pieces)


def items_text(items):
    """Items on an arrow, each kind once with its numbers."""
    kinds = {}
    for kind, number in items:
        kinds.setdefault(kind if number is not None else None, []).append(kind if number is None else number)
    texts = []
    for kind, found in kinds.items():
        if kind is None:
            texts += [escaped('"%s"' % name) for name in dict.fromkeys(found)]
        else:
            texts.append(escaped("%s %s" % (kind, numbers(found))))
    shown = texts[:4] + (["and %d more" % (len(texts) - 4)] if len(texts) > 4 else [])
    return "<br/>".join(shown)


def rest_row(all_, what):
    """A row for those that have none of their own."""
    return [small("and %d more %s" % (len(all_) - MOST_ROWS, what))] if len(all_) > MOST_ROWS else []


class Picture:
    """The boxes and arrows of a plan."""

    def __init__(self, plan):
        self.plan = plan
        self.frames = {}                      # component instance, "host" or None -> lines
        self.arrows = {}                      # from, to, style -> items
        self.shown_flags, self.helpers = {}, {}
        self.groups = self.grouped_trampolines()
        self.add_imports()
        self.add_instances()
        self.add_slots()
        self.add_resources()
        self.add_trampolines()
        self.add_exports()

    def box(self, frame, name, kind, rows, shape="box"):
        """A box in a frame, with rows of text."""
        fill, edge = COLOURS[kind]
        align = "left" if shape == "box" else "center"
        cells = "".join('<tr><td align="%s">%s</td></tr>' % (align, text) for text in rows)
        table = '<table border="0" cellborder="0" cellspacing="0" cellpadding="2">%s</table>' % cells
        self.frames.setdefault(frame, []).append(
            '%s [shape=%s style="filled%s" fillcolor="%s" color="%s" label=<%s>]'
            % (name, shape, ",rounded" if shape == "box" and kind != "export" else "", fill, edge, table))

    def arrow(self, start, end, item=None, style="solid"):
        self.arrows.setdefault((start, end, style), []).append(item)

    # what a definition is drawn as

    def uses(self, definition, end):
        """Arrows for a definition that is given to a box."""
        if definition is None:
            return
        if definition.kind == "export":
            self.arrow("i%d" % definition.number, end, definition.item)
        elif definition.kind == "intrinsic":
            self.arrow('n_%s' % definition.number.replace("-", "_"), end)
        elif definition.kind == "trampoline" and definition.number in self.groups:
            self.arrow(self.groups[definition.number], end)

    def uses_slots(self, slots, end):
        for kind, number in slots:
            self.arrow(slot_name(kind, number), end, None, "dashed")

    def grouped_trampolines(self):
        """The box of each trampoline but helpers, which stand in the box of what is given them. Those share a box that
        are alike but for what they lower, and go to the same places."""
        plan, goes = self.plan, {}
        for n, each in enumerate(plan.instances):
            self.note_places(goes, each.arguments, "i%d" % n)
        for kind, slots in plan.slots.items():
            for n, each in enumerate(slots):
                self.note_places(goes, [each.definition], slot_name(kind, n))
        for n, each in enumerate(plan.resources):
            self.note_places(goes, [each.destructor], "r%d" % n)
        for n, each in enumerate(plan.exports):
            self.note_places(goes, [each.definition], "x%d" % n)
        names, groups = {}, {}
        for n, each in enumerate(plan.trampolines):
            if each.lowering is None and each.component is None:
                self.helpers[n] = each
                continue
            alike = (each.component, self.effect_of(each), tuple(each.slots), tuple(sorted(goes.get(n, ()))))
            groups[n] = names.setdefault(alike, "t%d" % n)
        return groups

    def effect_of(self, trampoline):
        """What tells apart the box of a trampoline: its options, and whether it is lowered."""
        options = None if trampoline.options is None else self.plan.options[trampoline.options].options
        return (trampoline.lowering is not None, options)

    @staticmethod
    def note_places(goes, definitions, end):
        for definition in definitions:
            if definition is not None and definition.kind == "trampoline":
                goes.setdefault(definition.number, set()).add(end)

    def owner(self, definition):
        """The frame of what a definition stands for."""
        if definition is None:
            return None
        if definition.kind == "export":
            return self.plan.instances[definition.number].component
        if definition.kind == "trampoline":
            return self.component_of(self.plan.trampolines[definition.number])
        return None

    def component_of(self, trampoline):
        if trampoline.component is not None or trampoline.options is None:
            return trampoline.component
        return self.plan.options[trampoline.options].options.component

    # boxes

    def add_imports(self):
        plan = self.plan
        used = {}
        for each in plan.imports:
            used.setdefault(each.type, []).append(each)
        for n, each in enumerate(plan.import_types):
            self.box("host", "h%d" % n, "import", [escaped(each.name), small("%s import" % each.kind)])
        for n, each in enumerate(plan.imported_resources):
            self.box("host", "q%d" % n, "resource", ["resource %d" % n], "hexagon")
            source = plan.imports[each.source]
            self.arrow("h%d" % source.type, "q%d" % n, self.name_item(source.names))

    @staticmethod
    def name_item(names):
        return (" ".join(names), None) if names else None

    def add_instances(self):
        plan = self.plan
        adapters = {}
        for each in plan.adapters:
            adapters.setdefault(each.module, []).append(each)
        for n, each in enumerate(plan.instances):
            name = "i%d" % n
            if plan.is_adapter_module(each):
                has = adapters.get(each.module, [])
                rows = ["<b>core instance %d</b>, adapter module %d" % (n, each.module)]
                rows += [self.adapter_text(adapter) for adapter in has[:MOST_ROWS]] + rest_row(has, "adapters")
                self.box(each.component, name, "adapter", rows + self.helper_rows(each) + [step_of(each)])
            else:
                what = "module %d" % each.module if each.module is not None else "an imported module"
                self.box(each.component, name, "instance", ["<b>core instance %d</b>" % n, what, step_of(each)])
            if each.source is not None:
                source = plan.imports[each.source]
                self.arrow("h%d" % source.type, name, self.name_item(source.names))
            for argument in each.arguments:
                self.uses(argument, name)
                if argument.kind == "trampoline" and argument.number in self.helpers:
                    self.uses_slots(self.helpers[argument.number].slots, name)

    @staticmethod
    def adapter_text(adapter):
        return "adapter %d (func %d): component %d calls %d" % (
            adapter.number, adapter.function, adapter.lower.component, adapter.lift.component)

    def helper_rows(self, instance):
        """What an adapter module is given beside core items and flags."""
        words = {}
        for argument in instance.arguments:
            if argument.kind == "trampoline" and argument.number in self.helpers:
                words[self.helper_word(self.helpers[argument.number])] = None
        words, rows = list(words), []
        for at in range(0, len(words), 3):
            more = "," if at + 3 < len(words) else ""
            rows.append(small(("with " if at == 0 else "") + ", ".join(words[at:at + 3]) + more))
        return rows

    @staticmethod
    def helper_word(helper):
        transcoder = re.fullmatch(r"component-transcode-(\w+)-m(\d+)-m(\d+)", helper.symbol)
        return transcoder.group(1).replace("_", " ") if transcoder else helper.symbol.replace("component-", "")

    def add_slots(self):
        for kind, slots in self.plan.slots.items():
            for n, each in enumerate(slots):
                name = slot_name(kind, n)
                self.box(self.owner(each.definition), name, "slot", ["%s %d" % (kind, n), step_of(each)], "ellipse")
                self.uses(each.definition, name)

    def add_resources(self):
        for n, each in enumerate(self.plan.resources):
            number = n + len(self.plan.imported_resources)
            self.box(each.component, "r%d" % n, "resource", ["resource %d" % number, step_of(each)], "hexagon")
            self.uses(each.destructor, "r%d" % n)

    def add_trampolines(self):
        members = {}
        for n, name in self.groups.items():
            members.setdefault(name, []).append(n)
        for name, group in members.items():
            first = self.plan.trampolines[group[0]]
            rows = ["<b>%s</b>" % ("lowered" if first.lowering is not None else "builtins")]
            rows += [self.trampoline_text(n) for n in group[:MOST_ROWS]] + rest_row(group, "functions")
            if first.options is not None:
                options = self.plan.options[first.options].options
                rows.append(small(options_text(options)))
                self.uses_slots(slots_of(options), name)
            self.uses_slots(first.slots, name)
            self.box(self.component_of(first), name, "trampoline", rows)
            for n in group:
                lowering = self.plan.trampolines[n].lowering
                if lowering is not None:
                    source = self.plan.imports[self.plan.lowerings[lowering].source]
                    self.arrow("h%d" % source.type, name)
        for word in self.plan.intrinsics:
            self.box(None, "n_%s" % word.replace("-", "_"), "trampoline", [escaped(word), small("intrinsic")])

    def trampoline_text(self, number):
        each = self.plan.trampolines[number]
        if each.lowering is None:
            return "%d: %s" % (number, " ".join([each.symbol.replace("component-", "")] + each.words))
        lowering = self.plan.lowerings[each.lowering]
        path = escaped(" ".join(self.plan.import_path(lowering.source)))
        return "%d: %s %s" % (number, path, step_of(lowering))

    def add_exports(self):
        roots = {}
        for each in self.plan.exports:
            if len(each.path) == 1:
                name = "x%d" % len(roots)
                roots[name] = []
            roots[name].append(each)
            self.export_arrows(each, name)
        for name, exports in roots.items():
            self.box(None, name, "export", self.export_rows(exports))

    def export_rows(self, exports):
        rows = []
        for each in exports[:MOST_ROWS]:
            text = "&nbsp;&nbsp;&nbsp;" * (len(each.path) - 1) + escaped(each.path[-1])
            rows.append(("<b>%s</b>" if not rows else "%s") % text + small(" " + self.export_text(each)))
        return rows + rest_row(exports, "names")

    def export_text(self, each):
        if each.kind == "lifted":
            options = self.plan.options[each.number].options
            return "%s, %s" % (self.definition_text(each.definition), options_text(options))
        if each.kind == "module-static":
            return "module %d" % each.number
        return {"instance": "", "imported": "a function of the host", "module-import": "a module of the host",
                "type": "a type"}[each.kind]

    @staticmethod
    def definition_text(definition):
        if definition.kind == "export":
            return "%s of instance %d" % (items_text([definition.item]), definition.number)
        return "%s %s" % (definition.kind, definition.number)

    def export_arrows(self, each, end):
        if each.kind == "lifted":
            self.uses(each.definition, end)
            self.uses_slots(slots_of(self.plan.options[each.number].options), end)
        elif each.kind in ("imported", "module-import"):
            source = self.plan.imports[each.number]
            self.arrow("h%d" % source.type, end, self.name_item(source.names))

    # text

    def title(self):
        plan = self.plan
        pieces = [("core module", plan.static_modules), ("adapter module", plan.adapter_modules),
                  ("core instance", len(plan.instances)), ("component instance", plan.counts["component instances"])]
        return "a plan of " + ", ".join("%d %s%s" % (n, what, "" if n == 1 else "s") for what, n in pieces if n)

    def legend(self):
        """What the colours and arrows mean that the picture has."""
        colours = dict(COLOURS, frame=FRAME["component"])
        kinds = {kind for kind in COLOURS for boxes in self.frames.values() for box in boxes
                 if 'fillcolor="%s"' % COLOURS[kind][0] in box}
        if any(isinstance(frame, int) for frame in self.frames):
            kinds.add("frame")
        cells = ['<td bgcolor="%s" border="1" color="%s" width="18"></td><td align="left">%s</td>'
                 % (*colours[kind], text) for kind, text in LEGEND if kind in kinds]
        cells.append('<td>\u2192</td><td align="left">is given to</td>')
        if any(style == "dashed" for _, _, style in self.arrows):
            cells.append('<td>\u21e2</td><td align="left">is used by</td>')
        if len(cells) % 2:
            cells.append("<td></td><td></td>")
        return ["<tr>%s</tr>" % "<td></td>".join(pair) for pair in zip(cells[::2], cells[1::2])]

    def caption(self, title, legend):
        rows = ['<tr><td colspan="5">%s</td></tr>' % (escaped(title) if title else self.title())]
        rows += self.legend() if legend else []
        return '<table border="0" cellborder="0" cellspacing="3" cellpadding="2">%s</table>' % "".join(rows)

    def text(self, title=None, legend=True):
        lines = ["digraph plan {",
                 '  graph [fontname="%s" fontsize=10 fontcolor="%s" nodesep=0.3 ranksep=0.45 labelloc=b label=<%s>]'
                 % (FONT, INK, self.caption(title, legend)),
                 '  node [fontname="%s" fontsize=11 fontcolor="%s" margin="0.08,0.05"]' % (FONT, INK),
                 '  edge [fontname="%s" fontsize=9 fontcolor="%s" color="%s" arrowsize=0.7]' % (FONT, GREY, GREY)]
        for frame, boxes in sorted(self.frames.items(), key=lambda pair: frame_order(pair[0])):
            lines += self.frame_lines(frame, boxes)
        for (start, end, style), items in self.arrows.items():
            named = [item for item in items if item is not None]
            label = " label=<%s>" % items_text(named) if named else ""
            lines.append("  %s -> %s [style=%s%s]" % (start, end, style, label))
        return "\n".join(lines) + "\n}\n"

    @staticmethod
    def frame_lines(frame, boxes):
        if frame is None:
            return ["  " + box for box in boxes]
        fill, edge = FRAME["host" if frame == "host" else "component"]
        label = "the host" if frame == "host" else "component instance %d" % frame
        return ["  subgraph cluster_%s {" % frame,
                '    graph [style="filled,rounded" fillcolor="%s" color="%s"' % (fill, edge)
                + ' fontsize=11 labelloc=t labeljust=l label="%s"]' % label] + ["    " + box for box in boxes] + ["  }"]


def frame_order(frame):
    return (0, 0) if frame == "host" else (2, 0) if frame is None else (1, frame)


def slot_name(kind, number):
    return "s_%s_%d" % (kind.replace("-", "_"), number)


def options_text(options):
    words = [options.encoding] + (["async"] if options.flag == "async" else []) + (["gc"] if options.gc else [])
    return ", ".join(words)


def drawn(data, title=None, legend=True):
    """Graphviz text of the text of a plan."""
    return Picture(Plan(data)).text(title, legend)


# Tests.

HEAD = "plan 1\nmodules 2 1\ncounts 3 3 1 1 1 1 1 1 2 0 0 0\n"
# A plan with a line of each kind.
WHOLE = HEAD + r"""import-type 0 "log" func
import-type 1 "a:b/c" instance implements "a:b/d" id "e"
import-type 2 "m \"x\"\\\n" module
import 0 0
import 1 1 "f" "g"
import 2 2
imported-resource 0 1
init static 0 1 []
init lower 0 0
init static 2 - [export(0 func 0), flags(2), flags(1), trampoline(4), trampoline(2)]
init memory 0 export(0 memory 0)
init table 0 export(0 "t")
init realloc 0 export(1 func 3)
init callback 0 trampoline(0)
init post-return 0 intrinsic(u8-native-load)
init resource 0 i32 export(0 func 1) 2
init import 2 2 ["m" "n" export(0 func 2), "m" "o" trampoline(3)]
options 0 1 utf8 sync - - - -
options 1 2 compact-utf16 async 0 0 0 0
options 2 2 utf16 sync - - gc
trampoline 0 component-lower-import[0] 0 1
trampoline 1 component-resource-drop[7] 2
trampoline 2 trap-1
trampoline 3 thread-new-indirect 2 5 0
trampoline 4 component-transcode-utf8_to_latin1-m32-m64 0 0
trampoline 5 component-start-call - 0
trampoline 6 stream-cancel-read 1 async
trampoline 7 stream-read 1 2
intrinsic u8-native-load
adapter 2 0 3 0 lift 1 utf8 sync - - 3 4 lower 2 utf8 sync - - - -
export "run" lifted export(0 func 0) options 1 id "r"
export "i" instance
export "i" "j" instance
export "i" "j" "k" imported 1
export "i" "l" type
export "m" module-static 0
export "n" module-import 2
"""

# Texts that are no plan, and the line of the fault.
FAULTS = [
    ("", 1),
    ("plan 2\n", 1),
    ("plan 1", 1),
    ("plan 1\n", 2),
    ("fault not-json\n", 1),
    (HEAD[:-1], 3),
    (HEAD.replace("modules 2 1", "modules 02 1"), 2),
    (HEAD.replace(" 0\n", "\n"), 3),
    (HEAD.replace("2 1", "4294967296 1"), 2),
    (HEAD + "\n", 4),
    (HEAD + "import-type 1 \"a\" func\n", 4),
    (HEAD + "import-type 0 \"a func\n", 4),
    (HEAD + "import-type 0 \"a\\q\" func\n", 4),
    (HEAD + "import 0 0\n", 4),
    (HEAD + "init static 3 0 []\n", 4),
    (HEAD + "init static 0 3 []\n", 4),
    (HEAD + "init static 0 0 [flags(0),flags(0)]\n", 4),
    (HEAD + "init static 0 0 [export(0 func 0)]\n", 4),
    (HEAD + "init static 0 0 [trampoline(0)]\n", 4),
    (HEAD + "init static 0 0 []\ninit memory 1 export(0 memory 0)\n", 5),
    (HEAD + "options 0 0 utf8 sync - - 0 -\n", 4),
    (HEAD + "options 0 0 utf7 sync - - - -\n", 4),
    (HEAD + "trampoline 0 trap-\n", 4),
    (HEAD + "trampoline 0 stream-sip 0\n", 4),
    (HEAD + "adapter 1 0 0 0 lift 0 utf8 sync - - - - lower 0 utf8 sync - - - -\n", 4),
    (HEAD + "export \"a\" \"b\" type\n", 4),
    (HEAD + "export \"a\" type\nexport \"a\" \"b\" type\n", 5),
    (HEAD + "export \"a\" type\ninit static 0 0 []\n", 5),
]

# Boxes that an arrow of the whole plan joins.
ARROWS = """i0 i1, s_memory_0 i1, i0 s_memory_0, i0 s_table_0, i1 s_realloc_0, t0 s_callback_0, n_u8_native_load
    s_post_return_0, i0 r0, i0 i2, t3 i2, h2 i2, s_table_0 t3, s_memory_0 t0, s_realloc_0 t0, s_callback_0 t0,
    s_post_return_0 t0, h0 t0, h1 q0, i0 x0, s_memory_0 x0, s_realloc_0 x0, s_callback_0 x0, s_post_return_0 x0, h1
    x1, h2 x3"""


def test():
    """Ends with the first check that fails."""
    picture = Picture(Plan(WHOLE.encode()))
    arrows = {(start, end) for start, end, _ in picture.arrows}
    expected = {tuple(pair.split()) for pair in ARROWS.split(",")}
    assert arrows == expected, "arrows: %s" % sorted(arrows ^ expected)
    text = picture.text()
    assert text.count("<table") == text.count("</table>") and text.count("{") == text.count("}")
    assert 'm &quot;x&quot;\\\\x0a' in text, "the bytes of a name"
    legend = "".join(picture.legend())
    assert all(kind in legend for kind in ("core instance", "adapter", "slot", "resource", "import", "export"))
    for fault, line in FAULTS:
        try:
            Plan(fault.encode())
        except NotAPlan as found:
            assert found.line == line, "%r: %s" % (fault, found)
        else:
            raise AssertionError("%r is read as a plan" % fault)
    assert items_text([("func", 3), ("func", 1), ("func", 2), ("t", None)]) == "func 1\u20133<br/>&quot;t&quot;"
    for path in sorted((Path(__file__).resolve().parent.parent / "docs" / "examples").glob("*.plan")):
        assert drawn(path.read_bytes()) == drawn(path.read_bytes()), path
    print("draw.py: ok")


def main():
    parser = argparse.ArgumentParser(description="Draws the text of a plan: writes Graphviz text.")
    parser.add_argument("plan", nargs="?", metavar="FILE", help="the text of a plan (default: standard input)")
    parser.add_argument("-o", metavar="FILE", dest="out", help="where to write (default: standard output)")
    parser.add_argument("--title", help="what stands above the picture (default: what the plan has)")
    parser.add_argument("--no-legend", action="store_true", help="leaves out what the colours mean")
    parser.add_argument("--test", action="store_true", help="runs the tests of this file, which need no Graphviz")
    args = parser.parse_args()
    if args.test:
        return test()
    try:
        data = Path(args.plan).read_bytes() if args.plan else sys.stdin.buffer.read()
        text = drawn(data, args.title, not args.no_legend)
        if args.out:
            Path(args.out).write_text(text, encoding="utf-8")
        else:
            sys.stdout.buffer.write(text.encode())
    except (NotAPlan, OSError) as fault:
        sys.exit("draw.py: %s" % fault)


if __name__ == "__main__":
    main()
