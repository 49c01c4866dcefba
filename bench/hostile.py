#!/usr/bin/env python3
"""Large and hostile inputs for the program `plan`.

    hostile.py PROGRAM [--mib N] [--seconds N] [--gib N] [--word WORD] [--keep FOLDER] [FAMILY ..]

Makes one input of at most N MiB (64) for each family, and no more than the total of its inputs lets it have
(`MOST_MIB`), runs PROGRAM on it with one word, which is `translate`, or `facts` for a family that is made for it, and
prints the exit status, the first line written, the time of the processor, the peak memory, and the time for each MiB of
input. A time that grows with the square of the input shows when two sizes are compared. It ends with status 1 where a
run passed the time limit (60 seconds of a processor), was killed, or ended with another status than its family names.
A run finds at most N GiB of memory (8), so one that wants more ends with status 5.
"""
import argparse
import os
import resource
import subprocess
import sys
import tempfile

MODULE = '{"module":{"ty":0,"imports":%s,"funcs":%s,"tables":0,"memories":[],"globals":%s,"tags":0,"exports":%s}}'
ONE_FUNC = MODULE % ("[]", "[0]", "0", '[["f","func",0]]')
INSTANCE = '{"instances":[{"instantiate":[0,[]]}]}'
ALIAS = '{"aliases":[{"core-export":["func",0,"f"]}]}'
PLAIN_TYPES = '{"core":[[[],[]]],"types":[{"module":[[],[]]},{"func":{"params":[],"result":null,"async":false}}]}'
BASE = ['"version"', ONE_FUNC, INSTANCE, ALIAS]


def types_and_payloads(types, payloads):
    """Types and payloads in pieces, up to the end of the payload list."""
    yield from [types] if isinstance(types, str) else types
    yield ',"payloads":['
    first = True
    for payload in payloads:
        if not first:
            yield ","
        first = False
        yield from [payload] if isinstance(payload, str) else payload


def document(types, payloads, limit=1, intrinsics="null"):
    """An input in pieces, from its types and the pieces of its payload list."""
    yield '{"limit":%d,"intrinsics":%s,"types":' % (limit, intrinsics)
    yield from types_and_payloads(types, payloads)
    yield "]}"


def listed(begin, piece, end, room):
    """A list of piece(0), piece(1), .. of about so many bytes."""
    yield begin
    used, n = 0, 0
    while used < room:
        text = piece(n) if n == 0 else "," + piece(n)
        used += len(text)
        n += 1
        yield text
    yield end


def repeated(piece, room):
    """piece(0), piece(1), .. of about so many bytes, commas included."""
    used, n = 0, 0
    while used < room:
        text = piece(n)
        used += len(text) + 1
        n += 1
        yield text


def canon(piece, room):
    return listed('{"canon":[', piece, "]}", room)


def exports(piece, room):
    return listed('{"exports":[', piece, "]}", room)


LIFT = '["lift",0,1,0,[]]'


def many_lifts(room):
    """One function is lifted over and over."""
    return document(PLAIN_TYPES, BASE + [canon(lambda n: LIFT, room), '"end"'])


def many_exports(room):
    """Half of the bytes are lifts, half exports of them, under names that begin alike."""
    per_lift, per_export = len(LIFT) + 1, len('["name-000000000","func",1000000],')
    count = room // (per_lift + per_export)
    return document(PLAIN_TYPES, BASE + [
        canon(lambda n: LIFT, count * per_lift), exports(lambda n: '["name-%09d","func",%d]' % (n, n), count * per_export - 40), '"end"'])


def of_form_two(names, types, payloads, limit=1):
    """An input of form 2, as `document` makes one, from the pieces of its names too."""
    yield '{"form":2,"limit":%d,"intrinsics":null,"types":' % limit
    yield from types_and_payloads(types, payloads)
    yield '],"names":['
    yield from names
    yield "]}"


ONE_FUNC_BY_NUMBER = MODULE % ("[]", "[0]", "0", '[[0,"func",0]]')
BASE_BY_NUMBER = ['"version"', ONE_FUNC_BY_NUMBER, '{"instances":{"instantiate":[0,[]]}}', '{"aliases":{"core-export":["func",0,0]}}']


def many_lifts_of_form_two(room):
    """One function is lifted over and over, each lift in a section of its own."""
    return of_form_two(['"f"'], PLAIN_TYPES, BASE_BY_NUMBER + list(repeated(lambda n: '{"canon":%s}' % LIFT, room)) + ['"end"'])


def many_exports_of_form_two(room):
    """A third of the bytes are names, which stand behind the exports that name them by number."""
    per_name, per_export = len('"name-000000000",'), len('{"exports":[1000000,"func",0]},')
    count = room // (per_name + per_export)
    names = ['"f"'] + [',"name-%09d"' % n for n in range(count)]
    payloads = BASE_BY_NUMBER + ['{"canon":%s}' % LIFT] + ['{"exports":[%d,"func",0]}' % (n + 1) for n in range(count)] + ['"end"']
    return of_form_two(names, PLAIN_TYPES, payloads)


def aliases_of_a_long_name_of_form_two(room):
    """Half of the bytes are one name, under which a function is aliased over and over, by the number of the name: the
    product."""
    payloads = BASE_BY_NUMBER[:-1] + list(repeated(lambda n: BASE_BY_NUMBER[-1], room // 2)) + ['"end"']
    return of_form_two(['"%s"' % name_of(room, 2)], PLAIN_TYPES, payloads)


def an_export_twice(room):
    """The last of all names is the first one again."""
    tail = '{"exports":[["e0","func",0]]}'
    return document(PLAIN_TYPES, BASE + ['{"canon":[%s]}' % LIFT, exports(lambda n: '["e%d","func",0]' % n, room), tail, '"end"'])


def small_payloads(room):
    """Sections without content."""
    return document(PLAIN_TYPES, ['"version"'] + list(repeated(lambda n: '"custom"', room)) + ['"end"'])


def empty_sections(room):
    """Lists without items."""
    return document(PLAIN_TYPES, ['"version"'] + list(repeated(lambda n: '{"canon":[]}', room)) + ['"end"'])


def many_modules(room):
    """Core modules, each instantiated once."""
    return document(PLAIN_TYPES, ['"version"'] + list(repeated(
        lambda n: ONE_FUNC if n % 2 == 0 else '{"instances":[{"instantiate":[%d,[]]}]}' % (n // 2), room)) + ['"end"'])


def chain_of_modules(room):
    """Each core instance takes the one before it as argument."""
    types = '{"core":[[[],[]]],"types":[{"module":[[],[]]},{"module":[[["a","f",["func",0]]],[]]}]}'
    link = '{"module":{"ty":1,"imports":[["a","f",["func",0]]],"funcs":[],"tables":0,"memories":[],"globals":0,"tags":0,"exports":[["f","func",0]]}}'
    return document(types, ['"version"', ONE_FUNC, link, INSTANCE] + list(repeated(
        lambda n: '{"instances":[{"instantiate":[1,[["a",%d]]]}]}' % n, room)) + ['"end"'])


def chain_of_exports(room, entity, has):
    """Each core instance is of a module of its own, which exports what it imports: what the one before it exports."""
    kind = entity[2:entity.index('"', 2)]
    first = '{"module":{"ty":0,"imports":[],%s,"tags":0,"exports":[["f","%s",0]]}}' % (has, kind)
    link = MODULE % ('[["a","f",%s]]' % entity, "[]", "0", '[["f","%s",0]]' % kind)
    piece = link + ',{"instances":[{"instantiate":[%d,[["a",%d]]]}]}'
    return document(PLAIN_TYPES, ['"version"', first, INSTANCE] + list(repeated(lambda n: piece % (n + 1, n), room)) + ['"end"'])


def chain_of_functions(room):
    """A function that is exported by the module that defines it, and again by very many others, one after the other."""
    return chain_of_exports(room, '["func",0]', '"funcs":[0],"tables":0,"memories":[],"globals":0')


def chain_of_memories(room):
    """The same of a memory."""
    return chain_of_exports(room, '["memory",false]', '"funcs":[],"tables":0,"memories":[false],"globals":0')


def records_of_many_globals(room):
    """Modules whose records say that they define a million globals each, four thousand million together. Their facts
    are as many lines, so this one isn't for the word `facts`."""
    wide = MODULE % ("[]", "[]", "1000000", "[]") + ',{"instances":[{"instantiate":[%d,[]]}]}'
    count = min(room // (len(wide % 1000000) + 1), 4000)
    return document(PLAIN_TYPES, ['"version"', *[wide % n for n in range(count)], '"end"'])


def wide_module(room):
    """One core module with many exports, all aliased."""
    per_export, per_alias = len('["e0000000","func",1000000],'), len('{"core-export":["func",0,"e0000000"]},')
    count = room // (per_export + per_alias + 2)
    module = ['{"module":{"ty":0,"imports":[],"funcs":['] + [",".join(["0"] * count)] + ['],"tables":0,"memories":[],"globals":0,"tags":0,"exports":[']
    module += [",".join('["e%07d","func",%d]' % (n, n) for n in range(count))] + ["]}}"]
    aliases = ['{"aliases":['] + [",".join('{"core-export":["func",0,"e%07d"]}' % n for n in range(count))] + ["]}"]
    return document(PLAIN_TYPES, ['"version"', module, INSTANCE, aliases, '"end"'])


def wide_imports(room):
    """One core module with many imports, and an argument that has them all."""
    count = room // (3 * len('["a","e0000000",["func",0]],') + 6)
    types = ['{"core":[[[],[]]],"types":[{"module":[[],[]]},{"module":[[', ",".join('["a","e%07d",["func",0]]' % n for n in range(count)), "],[]]}]}"]
    giver = ['{"module":{"ty":0,"imports":[],"funcs":[', ",".join(["0"] * count), '],"tables":0,"memories":[],"globals":0,"tags":0,"exports":[',
             ",".join('["e%07d","func",%d]' % (n, n) for n in range(count)), "]}}"]
    taker = ['{"module":{"ty":1,"imports":[', ",".join('["a","e%07d",["func",0]]' % n for n in range(count)),
             '],"funcs":[],"tables":0,"memories":[],"globals":0,"tags":0,"exports":[]}}']
    return document(types, ['"version"', giver, taker, INSTANCE, '{"instances":[{"instantiate":[1,[["a",0]]]}]}', '"end"'])


def many_arguments(room):
    """One core module, instantiated with very many arguments of which it needs none."""
    return document(PLAIN_TYPES, ['"version"', ONE_FUNC, INSTANCE,
                                  listed('{"instances":[{"instantiate":[0,[', lambda n: '["a%d",0]' % n, "]]}]}", room), '"end"'])


def long_signature(room):
    """One core signature with very many parameters, under very many lifts."""
    params = room // 3 // 6
    types = ['{"core":[[[', ",".join(['"i32"'] * params), '],[]]],"types":[{"module":[[],[]]},{"func":{"params":[],"result":null,"async":false}}]}']
    return document(types, BASE + [canon(lambda n: LIFT, room - params * 6), '"end"'])


def long_function_type(room):
    """One function type with very many parameters, under very many lifts."""
    params = room // 3 // len('["a0000000","u8"],')
    types = ['{"core":[[[],[]]],"types":[{"module":[[],[]]},{"func":{"params":[', ",".join('["a%07d","u8"]' % n for n in range(params)),
             '],"result":null,"async":false}}]}']
    return document(types, BASE + [canon(lambda n: LIFT, room - room // 3), '"end"'])


def many_functions(room):
    """Each lift has a function type of its own."""
    entry = '{"func":{"params":[["a%d","u8"]],"result":null,"async":false}}'
    count = room // (len(entry) + 7 + len('["lift",0,1000000,0,[]],'))
    types = ['{"core":[[[],[]]],"types":[{"module":[[],[]]},', ",".join(entry % n for n in range(count)), "]}"]
    return document(types, BASE + [['{"canon":[', ",".join('["lift",0,%d,0,[]]' % (n + 1) for n in range(count)), "]}"], '"end"'])


def shared_parameters(room):
    """Many function types with equal parameters under other names of equal length, each lifted."""
    entry = '{"func":{"params":[["a%07d","u8"],["b","string"],["c","f64"]],"result":"u8","async":false}}'
    count = room // (len(entry) + 7 + len('["lift",0,1000000,0,[]],'))
    types = ['{"core":[[[],[]]],"types":[{"module":[[],[]]},', ",".join(entry % n for n in range(count)), "]}"]
    return document(types, BASE + [['{"canon":[', ",".join('["lift",0,%d,0,[]]' % (n + 1) for n in range(count)), "]}"], '"end"'])


def long_name(room):
    """One export name of nearly the whole input, with a quote and a line feed in each eight bytes."""
    piece = 'abcd\\"\\n'
    return document(PLAIN_TYPES, BASE + ['{"canon":[%s]}' % LIFT, ['{"exports":[["', piece * (room // len(piece)), '","func",0]]}'], '"end"'])


def long_escapes(room):
    """A name of escapes alone."""
    return document(PLAIN_TYPES, BASE + ['{"canon":[%s]}' % LIFT, ['{"exports":[["', "\\u00e9" * (room // 6), '","func",0]]}'], '"end"'])


def names_that_share_a_front(room):
    """Names of 4,096 bytes that differ in the last places."""
    front = "n" * 4089
    return document(PLAIN_TYPES, BASE + ['{"canon":[%s]}' % LIFT, exports(lambda n: '["%s%07d","func",0]' % (front, n), room), '"end"'])


def deep_json(room):
    """Brackets that open and never close."""
    yield "[" * room


def deepest_json(room):
    """The deepest nesting that is read, over and over."""
    yield "["
    one = "[" * 126 + "]" * 126
    yield ",".join([one] * (room // (len(one) + 1)))
    yield "]"


def wide_json(room):
    """One array of numbers."""
    yield "["
    yield ",".join(["0"] * (room // 2))
    yield "]"


def widest_record(room):
    """A record type with very many fields."""
    return document(listed('{"core":[],"types":[{"record":[', lambda n: '["f%d","u8"]' % n, "]}]}", room), ['"version"', '"end"'])


def many_entries(room):
    """Type after type, each a list of the one before."""
    return document(listed('{"core":[],"types":["resource",', lambda n: '{"option":"u8"}' if n == 0 else '{"list":%d}' % n, "]}", room),
                    ['"version"', '"end"'])


def doubling_tuples(room):
    """Each tuple holds the one before it twice: a tree of two to the power of their number."""
    return document(listed('{"core":[],"types":[{"tuple":["u8"]},', lambda n: '{"tuple":[%d,%d]}' % (n, n), "]}", room), ['"version"', '"end"'])


def entry_names_itself(room):
    """The last entry of a long table names itself."""
    entries = room // len('{"option":"u8"},')
    return document(['{"core":[],"types":[', '{"option":"u8"},' * entries, '{"list":%d}]}' % entries], ['"version"', '"end"'])


def nested_components(room):
    """Components within components, each with its version and end."""
    depth = room // len('"component","version","end",')
    return document(PLAIN_TYPES, ['"version"', ",".join(['"component","version"'] * depth), ",".join(['"end"'] * depth), '"end"'])


def components_in_a_row(room):
    """Components side by side."""
    return document(PLAIN_TYPES, ['"version"'] + list(repeated(lambda n: '"component","version","end"', room)) + ['"end"'])


def open_components(room):
    """Components that begin and never end."""
    return document(PLAIN_TYPES, ['"version"'] + list(repeated(lambda n: '"component","version"', room)))


LEVELS = 1000


def nested(inside, depth):
    """A component in which others nest so deep, with what stands in the innermost."""
    return ['"version"', ",".join(['"component","version"'] * depth), inside, ",".join(['"end"'] * depth), '"end"']


def aliases(piece, room):
    return listed('{"aliases":[', piece, "]}", room)


def aliases_across_levels(room):
    """One module of the root, named over and over from a thousand levels further in."""
    room -= LEVELS * len('"component","version","end",')
    return document(PLAIN_TYPES, nested(aliases(lambda n: '{"outer":["core-module",%d,0]}' % LEVELS, room), LEVELS))


def things_across_levels(room):
    """Many modules of the root, each named once from ten levels further in."""
    return document(PLAIN_TYPES, nested(aliases(lambda n: '{"outer":["core-module",10,%d]}' % n, room - 1000), 10))


def aliases_at_each_level(room):
    """Components within components, and in each an alias of one module of the root."""
    depth = room // len('"component","version",{"aliases":[{"outer":["core-module",1000000,0]}]},"end",')
    levels = ",".join('"component","version",{"aliases":[{"outer":["core-module",%d,0]}]}' % (n + 1) for n in range(depth))
    return document(PLAIN_TYPES, ['"version"', levels, ",".join(['"end"'] * depth), '"end"'])


def names_in_a_bag(room):
    """One core instance of very many items, each under a name of its own."""
    return document(PLAIN_TYPES, BASE + [listed('{"instances":[{"exports":[', lambda n: '["name-%d","func",0]' % n, "]}]}", room), '"end"'])


def names_of_arguments(room):
    """One instance of a component with very many arguments."""
    types = '{"core":[[[],[]]],"types":[{"module":[[],[]]},{"instance":[]}]}'
    return document(types, ['"version"', '"component","version","end"', listed(
        '{"component-instances":[{"instantiate":[0,[', lambda n: '["name-%d","func",0]' % n, "],1]}]}", room), '"end"'])


def fill(begin, piece, end, count):
    """A list of piece(0), piece(1), .. of so many."""
    return [begin, ",".join(piece(n) for n in range(count)), end]


def bag(count, index):
    """A core instance of so many functions, the n-th by index(n)."""
    return fill('{"instances":[{"exports":[', lambda n: '["e%07d","func",%d]' % (n, index(n)), "]}]}", count)


def core_module(imports, funcs, items):
    """A core module with these imports, so many functions, and these exports."""
    return MODULE % ("[%s]" % imports, "[%s]" % ",".join(["0"] * funcs), "0", "[%s]" % items)


def taker(count):
    """A core module that imports so many functions from one place."""
    return core_module(",".join('["a","e%07d",["func",0]]' % n for n in range(count)), 0, "")


def giver(count):
    """A core module that exports so many functions."""
    return core_module("", count, ",".join('["e%07d","func",%d]' % (n, n) for n in range(count)))


def given(count):
    """Aliases of the functions of a giver."""
    return fill('{"aliases":[', lambda n: '{"core-export":["func",0,"e%07d"]}' % n, "]}", count)


def take(core, instance):
    """A core module, instantiated with what another instance has."""
    return '{"instances":[{"instantiate":[%d,[["a",%d]]]}]}' % (core, instance)


IMPORT = '{"imports":[["i",["func",1]]]}'
LOWER = '["lower",0,1,0,[]]'
LOWERED = ['"version"', IMPORT, '{"canon":[%s]}' % LOWER]
PER_IMPORT = len('["a","e0000000",["func",0]],')
PER_EXPORT = len('["e0000000","func",1000000],0,')
PER_ITEM = len('["e0000000","func",1000000],')
PER_ALIAS = len('{"core-export":["func",0,"e0000000"]},')

# so many imports of one kind a core module may have
MOST = 1000000


def bag_of_arguments(room):
    """A core instance of very many items, and one instance that takes them all."""
    count = min(room // (PER_IMPORT + PER_ITEM), MOST)
    return document(PLAIN_TYPES, BASE + [taker(count), bag(count, lambda n: 0), take(1, 1), '"end"'])


# so many arguments of all instances together, since a plan's text has each of them
ARGUMENTS = 4000000


def bag_taken(room, times):
    """The same with so many instances that take them all."""
    count = min((room - times * len(take(1, 1) + ",")) // (PER_IMPORT + PER_ITEM), MOST, ARGUMENTS // times)
    return document(PLAIN_TYPES, BASE + [taker(count), bag(count, lambda n: 0)] + [take(1, 1)] * times + ['"end"'])


def bag_taken_twice(room):
    """A core instance of very many items, and two instances that take them all."""
    return bag_taken(room, 2)


def bag_taken_often(room):
    """The same with a thousand instances."""
    return bag_taken(room, 1000)


def many_homes(room, orders):
    """Very many core instances, a bag of a function of each, and an instance that takes the bag, for each order."""
    per_home = len('{"instantiate":[0,[]]},') + PER_ALIAS + PER_IMPORT + len(orders) * PER_ITEM
    count = min(room // per_home, MOST)
    made = fill('{"instances":[', lambda n: '{"instantiate":[0,[]]}', "]}", count)
    named = fill('{"aliases":[', lambda n: '{"core-export":["func",%d,"f"]}' % n, "]}", count)
    taken = []
    for place, order in enumerate(orders):
        taken += [bag(count, lambda n: order(n, count)), take(1, count + 2 * place)]
    return document(PLAIN_TYPES, ['"version"', ONE_FUNC, taker(count), made, named, *taken, '"end"'])


def imports_of_many_homes(room):
    """A core module of very many imports, each of which is given a function of another instance."""
    return many_homes(room, [lambda n, count: n])


def imports_of_shared_homes(room):
    """The same with three instances, which are given the functions by pairs, by other pairs, and from behind."""
    return many_homes(room, [lambda n, count: n // 2, lambda n, count: (n + 1) // 2, lambda n, count: count - 1 - n // 2])


def bag_of_aliases(room):
    """A core instance of very many items, each another function, and one instance that takes them all."""
    count = room // (PER_IMPORT + PER_ITEM + PER_EXPORT + PER_ALIAS)
    return document(PLAIN_TYPES, ['"version"', giver(count), taker(count), INSTANCE, given(count),
                                  bag(count, lambda n: n), take(1, 1), '"end"'])


def small_bags(room):
    """Core instances of one item, and one that takes the first of them."""
    one = '{"exports":[["e0000000","func",0]]}'
    bags = listed('{"instances":[', lambda n: one, "]}", room)
    return document(PLAIN_TYPES, BASE + [taker(1), bags, take(1, 1), '"end"'])


def many_instances(room):
    """Each of very many core instances takes a bag of one item of its own."""
    two = '{"exports":[["e0000000","func",0]]},{"instantiate":[1,[["a",%d]]]}'
    instances = listed('{"instances":[', lambda n: two % (2 * n + 1), "]}", room)
    return document(PLAIN_TYPES, BASE + [taker(1), instances, '"end"'])


def instances_with_a_long_name(room):
    """A core module whose one import has a very long name, and very many instances of it."""
    name = "n" * (room // 3)
    has = '{"instances":[{"exports":[["%s","func",0]]}]}' % name
    instances = listed('{"instances":[', lambda n: '{"instantiate":[1,[["a",1]]]}', "]}", room // 3)
    return document(PLAIN_TYPES, BASE + [core_module('["a","%s",["func",0]]' % name, 0, ""), has, instances, '"end"'])


def aliases_of_one_export(room):
    """One export of one core instance, aliased over and over."""
    return document(PLAIN_TYPES, BASE + [aliases(lambda n: '{"core-export":["func",0,"f"]}', room), '"end"'])


def aliases_of_each_kind(room):
    """Core items of each kind, aliased over and over, and a core instance that takes one of each."""
    kinds = ["func", "table", "memory", "global", "tag"]
    rest = {"func": ",0", "memory": ",false"}
    needs = ",".join('["a","%s",["%s"%s]]' % (kind, kind, rest.get(kind, "")) for kind in kinds)
    items = ",".join('["%s","%s",0]' % (kind, kind) for kind in kinds)
    has = '{"module":{"ty":0,"imports":[],"funcs":[0],"tables":1,"memories":[false],'
    has += '"globals":1,"tags":1,"exports":[%s]}}'
    named = aliases(lambda n: '{"core-export":["%s",0,"%s"]}' % (kinds[n % 5], kinds[n % 5]), room)
    return document(PLAIN_TYPES, ['"version"', has % items, core_module(needs, 0, ""), INSTANCE, named,
                                  '{"instances":[{"exports":[%s]}]}' % items, take(1, 1), '"end"'])


def equal_lowerings(room):
    """One import is lowered over and over, always alike."""
    return document(PLAIN_TYPES, LOWERED + [canon(lambda n: LOWER, room), '"end"'])


# so many functions stand in either of two slots
SIDE = 1000


def apart(n):
    """A lowering whose options no other has."""
    return '["lower",0,1,0,[["realloc",%d],["post-return",%d]]]' % (n // SIDE % SIDE, n % SIDE)


def lowerings_apart(room):
    """One import is lowered over and over, and no two of the options are equal."""
    lowered = canon(apart, room - 2 * SIDE * PER_ALIAS)
    return document(PLAIN_TYPES, ['"version"', IMPORT, giver(SIDE), INSTANCE, given(SIDE), lowered, '"end"'])


def used_lowerings(room):
    """The same, and one core instance takes them all."""
    count = (room - 2 * SIDE * PER_ALIAS) // (len(apart(SIDE * SIDE - 1)) + 1 + PER_IMPORT + PER_ITEM)
    lowered = fill('{"canon":[', apart, "]}", count)
    return document(PLAIN_TYPES, ['"version"', IMPORT, giver(SIDE), taker(count), INSTANCE, given(SIDE), lowered,
                                  bag(count, lambda n: SIDE + n), take(1, 1), '"end"'])


LINK = '["lower",0,1,0,[["realloc",%d]]]'
PER_LINK = len(LINK % 1000000) + 1


def chain_of_lowerings(room):
    """Each lowering has the one before it as realloc, and the last is lifted and exported."""
    count = room // PER_LINK
    chain = fill('{"canon":[', lambda n: LINK % n, ',["lift",%d,1,0,[]]]}' % count, count)
    return document(PLAIN_TYPES, LOWERED + [chain, '{"exports":[["e","func",1]]}', '"end"'])


def chain_of_arguments(room):
    """The same chain, and one core instance takes all of it, the last link first."""
    count = room // (PER_LINK + PER_IMPORT + PER_ITEM)
    chain = fill('{"canon":[', lambda n: LINK % n, "]}", count)
    links = bag(count, lambda n: count - n)
    return document(PLAIN_TYPES, LOWERED + [taker(count), chain, links, take(0, 0), '"end"'])


LIFTS = '{"canon":[' + LIFT + ']}'
LIFTED = BASE + [LIFTS]


def equal_adapters(room):
    """One lifted function is lowered over and over, always alike: one adapter."""
    return document(PLAIN_TYPES, LIFTED + [canon(lambda n: LOWER, room), '"end"'])


def adapters_apart(room):
    """One lifted function is lowered over and over, and no two of the options are equal: one module has all."""
    lowered = canon(apart, room - 2 * SIDE * PER_ALIAS)
    return document(PLAIN_TYPES, ['"version"', giver(SIDE), INSTANCE, given(SIDE), LIFTS, lowered, '"end"'])


def used_adapters(room):
    """The same, and one core instance takes them all."""
    count = (room - 2 * SIDE * PER_ALIAS) // (len(apart(SIDE * SIDE - 1)) + 1 + PER_IMPORT + PER_ITEM)
    lowered = fill('{"canon":[', apart, "]}", count)
    return document(PLAIN_TYPES, ['"version"', giver(SIDE), taker(count), INSTANCE, given(SIDE), LIFTS, lowered,
                                  bag(count, lambda n: SIDE + n), take(1, 1), '"end"'])


def chain_of_adapters(room):
    """Each adapter has the one before it as realloc, so each is in a module of its own; the last is exported."""
    count = room // PER_LINK
    chain = fill('{"canon":[', lambda n: LINK % n, ',["lift",%d,1,0,[]]]}' % count, count)
    return document(PLAIN_TYPES, LIFTED + [chain, '{"exports":[["e","func",1]]}', '"end"'])


def chain_of_unused_adapters(room):
    """The same chain, and nothing uses its last link."""
    chain = fill('{"canon":[', lambda n: LINK % n, "]}", room // PER_LINK)
    return document(PLAIN_TYPES, LIFTED + [chain, '"end"'])


def adapters_in_two_layers(room):
    """Adapters of their own, and as many again, each of which has one of the first as realloc: two modules."""
    count = (room - 2 * SIDE * PER_ALIAS) // (len(apart(SIDE * SIDE - 1)) + 1 + PER_LINK)
    first = fill('{"canon":[', apart, "]}", count)
    second = fill('{"canon":[', lambda n: LINK % (SIDE + n), "]}", count)
    return document(PLAIN_TYPES, ['"version"', giver(SIDE), INSTANCE, given(SIDE), LIFTS, first, second, '"end"'])


def an_adapter_of_many_instances(room):
    """One adapter, which each of very many core instances takes."""
    has = '{"canon":[%s]},{"instances":[{"exports":[["e0000000","func",1]]}]}' % LOWER
    takes = listed('{"instances":[', lambda n: '{"instantiate":[1,[["a",1]]]}', "]}", room)
    return document(PLAIN_TYPES, LIFTED + [taker(1), has, takes, '"end"'])


def adapters_of_a_long_type(room):
    """One function type with very many parameters, under very many adapters."""
    params = fill('{"core":[[[],[]]],"types":[{"module":[[],[]]},{"func":{"params":[', lambda n: '["a%07d","u8"]' % n,
                  '],"result":null,"async":false}}]}', room // 3 // len('["a0000000","u8"],'))
    lowered = canon(apart, room - room // 3 - 2 * SIDE * PER_ALIAS)
    return document(params, ['"version"', giver(SIDE), INSTANCE, given(SIDE), LIFTS, lowered, '"end"'])


def adapters_of_many_types(room):
    """Adapters, each of a function type of its own, which takes a tuple in a tuple, and so on."""
    entry = '{"tuple":[%s]},{"func":{"params":[["a",%d]],"result":null,"async":false}}'
    both = '["lift",0,%d,0,[]],["lower",%d,%d,0,[]]'
    count = room // (len(entry % (1000000, 1000000)) + len(both % (1000000, 1000000, 1000000)) + 2)
    types = fill(PLAIN_TYPES[:-2] + ",", lambda n: entry % (2 * n if n else '"u8"', 2 * n + 2), "]}", count)
    return document(types, BASE + [fill('{"canon":[', lambda n: both % (2 * n + 3, n, 2 * n + 3), "]}", count), '"end"'])


def adapters_of_adapters(room):
    """Each adapter is lifted and lowered again, and the last is exported."""
    both = '["lower",%d,1,0,[]],["lift",%d,1,0,[]]'
    count = room // (len(both % (1000000, 1000000)) + 1)
    chain = fill('{"canon":[', lambda n: both % (n, n + 1), "]}", count)
    return document(PLAIN_TYPES, LIFTED + [chain, '{"exports":[["e","func",%d]]}' % count, '"end"'])


# a component that lowers what it is given, has a core instance take that, and lifts what the instance exports
RELAY = ('"component","version",' + IMPORT + ',{"canon":[' + LOWER + "]},"
         + core_module('["a","e",["func",0]]', 1, '["f","func",1]')
         + ',{"instances":[{"exports":[["e","func",0]]},{"instantiate":[0,[["a",0]]]}]}'
         + ',{"aliases":[{"core-export":["func",1,"f"]}]},{"canon":[["lift",1,1,0,[]]]},{"exports":[["f","func",1]]},"end"')


def chain_of_relays(room):
    """Very many instances of a component, each of which lowers the function that the one before it lifts."""
    piece = '{"component-instances":[{"instantiate":[0,[["i","func",%d]],2]}]},{"aliases":[{"export":["func",%d,"f"]}]}'
    count = min(room // (len(piece % (1000000, 1000000)) + 1), MOST - 1)
    types = PLAIN_TYPES[:-2] + ',{"instance":[["f",["func",1]]]}]}'
    links = ",".join(piece % (n, n) for n in range(count))
    return document(types, LIFTED + [RELAY, links, '"end"'], MOST)


def destructors_that_are_adapters(room):
    """Very many resources, each with an adapter of its own as destructor."""
    declared = '{"resource":[2,"i32",%d]}'
    count = (room - 2 * SIDE * PER_ALIAS) // (len(apart(SIDE * SIDE - 1)) + len(declared % 1000000) + 2)
    lowered = fill('{"canon":[' + LIFT + ',', apart, "]}", count)
    types = PLAIN_TYPES[:-2] + ',"resource"]}'
    return document(types, ['"version"', giver(SIDE), INSTANCE, given(SIDE), lowered,
                            fill('{"types":[', lambda n: declared % (SIDE + n), "]}", count), '"end"'])


STRINGS = '{"core":[[[],[]]],"types":[{"module":[[],[]]},{"func":{"params":[["s","string"]],"result":"string","async":false}}]}'


def memories(count):
    """A core module with so many memories behind one function, and aliases of them."""
    items = ",".join('["e%07d","memory",%d]' % (n, n) for n in range(count))
    has = '{"module":{"ty":0,"imports":[],"funcs":[0],"tables":0,"memories":[%s],"globals":0,"tags":0,"exports":[["f","func",0],%s]}}'
    return has % (",".join(["false"] * count), items), fill(
        '{"aliases":[{"core-export":["func",0,"f"]},', lambda n: '{"core-export":["memory",0,"e%07d"]}' % n, "]}", count)


def lowered_strings(room, last):
    """A function of strings is lowered over and over, each time with a memory of its own, and then what is last."""
    lowered = '["lower",0,1,0,["compact-utf16",["memory",%d],["realloc",0]]]'
    count = room // (len(lowered % 1000000) + 1 + PER_ALIAS + PER_EXPORT + 8)
    module, aliased = memories(count)
    lift = '{"canon":[["lift",0,1,0,["utf16",["memory",0],["realloc",0]]]]}'
    return document(STRINGS, ['"version"', module, INSTANCE, aliased, lift,
                              fill('{"canon":[', lambda n: lowered % n, last + "]}", count), '"end"'])


def adapters_of_strings(room):
    """A function of strings is lowered over and over, each time with a memory of its own."""
    return lowered_strings(room, "")


# a type with a string and with a handle of each kind, and a resource that it names
WIDE = '{"core":[[[],[]]],"types":[{"module":[[],[]]},"resource",{"own":1},{"borrow":1},{"future":"u8"},{"stream":"u8"},'
WIDE += '{"func":{"params":[["s","string"],["o",2],["b",3],["f",4],["t",5],["e","error-context"]],"result":"string","async":false}}]}'


def adapters_with_many_imports(room):
    """One lifted function is lowered over and over; each adapter has every option, and helpers of each kind."""
    options = '["compact-utf16",["memory",0],["realloc",%d],["post-return",%d]]]'
    lowered = '["lower",0,6,0,' + options
    count = (room - 2 * SIDE * PER_ALIAS) // (len(lowered % (SIDE, SIDE)) + 1)
    has = giver(SIDE).replace('"memories":[]', '"memories":[false]').replace('"exports":[', '"exports":[["m","memory",0],')
    lift = '{"canon":[["lift",0,6,0,' + options % (0, 0) + "]}"
    return document(WIDE, ['"version"', '{"types":[{"resource":[1,"i32",null]}]}', has, INSTANCE, given(SIDE),
                           '{"aliases":[{"core-export":["memory",0,"m"]}]}', lift,
                           fill('{"canon":[', lambda n: lowered % (n // SIDE % SIDE, n % SIDE), "]}", count), '"end"'])


def an_adapter_without_memory(room):
    """The same, and the last one lacks its memory."""
    return lowered_strings(room, "," + LOWER)


def adapters_over_wide_records(room):
    """A memory behind very many imported ones, on one side of very many adapters."""
    half = room // 2
    count = min(half // (len('["a","e0000000",["memory",false]],') + PER_ITEM), MOST)
    needs = ",".join('["a","e%07d",["memory",false]]' % n for n in range(count))
    one = '{"module":{"ty":0,"imports":[],"funcs":[0],"tables":0,"memories":[false],"globals":0,"tags":0,"exports":[["f","func",0],["m","memory",0]]}}'
    wide = '{"module":{"ty":0,"imports":[%s],"funcs":[],"tables":0,"memories":[true],"globals":0,"tags":0,"exports":[["m","memory",%d]]}}'
    items = fill('{"exports":[', lambda n: '["e%07d","memory",0]' % n, "]}", count)
    begin = ['"version"', one, INSTANCE, '{"aliases":[{"core-export":["func",0,"f"]},{"core-export":["memory",0,"m"]}]}']
    made = ['{"instances":[' + "".join(items) + ',{"instantiate":[1,[["a",1]]]}]}',
            '{"aliases":[{"core-export":["memory",2,"m"]}]}', LIFTS]
    link = '["lower",0,1,0,[["memory",1],["realloc",%d]]]'
    chain = fill('{"canon":[', lambda n: link % n, "]}", half // (len(link % 1000000) + 1) // 2)
    return document(PLAIN_TYPES, begin + [wide % (needs, count)] + made + [chain, '"end"'])


def unused_imports(room):
    """Imports of functions that nothing uses."""
    imports = listed('{"imports":[', lambda n: '["i%d",["func",1]]' % n, "]}", room)
    return document(PLAIN_TYPES, ['"version"', imports, '"end"'])


def used_imports(room):
    """Imports, each lowered once, and one core instance that takes them all."""
    count = room // (len('["i1000000",["func",1]],["lower",1000000,1,0,[]],') + PER_IMPORT + PER_ITEM)
    imports = fill('{"imports":[', lambda n: '["i%d",["func",1]]' % n, "]}", count)
    lowered = fill('{"canon":[', lambda n: '["lower",%d,1,0,[]]' % n, "]}", count)
    return document(PLAIN_TYPES, ['"version"', imports, taker(count), lowered,
                                  bag(count, lambda n: n), take(0, 0), '"end"'])


def long_signature_lowered(room):
    """One core signature with very many parameters, under very many lowerings."""
    params = room // 3 // 6
    types = PLAIN_TYPES.replace("[[[],[]]]", "[[[%s],[]]]" % ",".join(['"i32"'] * params))
    return document(types, LOWERED + [canon(lambda n: LOWER, room - params * 6), '"end"'])


def equal_builtins(room):
    """One builtin over and over."""
    return document(PLAIN_TYPES, ['"version"', canon(lambda n: '["backpressure.inc",0]', room), '"end"'])


TABLE = '{"module":{"ty":0,"imports":[],"funcs":[],"tables":1,"memories":[],"globals":0,"tags":0,"exports":[["t","table",0]]}}'
ITS_TABLE = '{"aliases":[{"core-export":["table",0,"t"]}]}'


def thread(n):
    """A builtin whose start type no other has."""
    return '["thread.new-indirect",0,%d,0]' % n


def builtins_apart(room):
    """One builtin over and over, no two alike."""
    return document(PLAIN_TYPES, ['"version"', TABLE, INSTANCE, ITS_TABLE, canon(thread, room), '"end"'])


def used_builtins(room):
    """The same, and one core instance takes them all."""
    count = room // (len(thread(1000000)) + 1 + PER_IMPORT + PER_ITEM)
    return document(PLAIN_TYPES, ['"version"', TABLE, taker(count), INSTANCE, ITS_TABLE,
                                  fill('{"canon":[', thread, "]}", count), bag(count, lambda n: n), take(1, 1), '"end"'])


def results_of_tasks(room):
    """Ends of tasks, each with a result of a type of its own: a tuple in a tuple, and so on."""
    count = room // len('{"tuple":[1000000]},["task.return",0,1000000,[]],')
    types = fill(PLAIN_TYPES[:-2] + ',', lambda n: '{"tuple":[%s]}' % (n + 1 if n else '"u8"'), "]}", count)
    return document(types, ['"version"', fill('{"canon":[', lambda n: '["task.return",0,%d,[]]' % (n + 2), "]}", count),
                            '"end"'])


def context_slots(room):
    """Reads and writes of the two slots."""
    return document(PLAIN_TYPES, ['"version"', canon(lambda n: '["context.%s",0,"i32",%d]' % (("get", "set")[n % 2], n // 2 % 2),
                                                     room), '"end"'])


LOAD = '{"core":[[["i64"],["i32"]]],"types":[{"func":{"params":[["a","u64"]],"result":"u8","async":false}},'
LOAD += '{"instance":[["u8-native-load",["func",0]]]}]}'


def lowered_intrinsics(room):
    """An unsafe intrinsic is aliased and lowered over and over."""
    count = room // len('{"export":["func",0,"u8-native-load"]},["lower",1000000,0,0,[]],')
    named = fill('{"aliases":[', lambda n: '{"export":["func",0,"u8-native-load"]}', "]}", count)
    lowered = fill('{"canon":[', lambda n: '["lower",%d,0,0,[]]' % n, "]}", count)
    return document(LOAD, ['"version"', '{"imports":[["i",["instance",1]]]}', named, lowered, '"end"'], 1, '"i"')


def builtins_of_one_resource(room):
    """The three builtins of one resource, over and over."""
    asked = canon(lambda n: '["resource.%s",0,0]' % ("new", "rep", "drop")[n % 3], room)
    declared = '{"types":[{"resource":[0,"i32",null]}]}'
    return document('{"core":[[[],[]]],"types":["resource"]}', ['"version"', declared, asked, '"end"'])


def builtins_of_many_resources(room):
    """A builtin of each of very many resources."""
    count = room // len('"resource",{"resource":[1000000,"i32",null]},["resource.drop",0,1000000],')
    types = fill('{"core":[[[],[]]],"types":[', lambda n: '"resource"', "]}", count)
    declared = fill('{"types":[', lambda n: '{"resource":[%d,"i32",null]}' % n, "]}", count)
    dropped = fill('{"canon":[', lambda n: '["resource.drop",0,%d]' % n, "]}", count)
    return document(types, ['"version"', declared, dropped, '"end"'])


def reads_of_many_streams(room):
    """A read of each of very many streams: one of tuples of tuples, and so on."""
    pair = '{"tuple":[%s]},{"stream":%d}'
    count = room // len(pair % (1000000, 1000000) + ',["stream.read",0,1000000,[]],')
    types = fill(PLAIN_TYPES[:-2] + ',', lambda n: pair % (2 * n if n else '"u8"', 2 * n + 2), "]}", count)
    read = fill('{"canon":[', lambda n: '["stream.read",0,%d,[]]' % (2 * n + 3), "]}", count)
    return document(types, ['"version"', read, '"end"'])


def reads_of_a_long_type(room):
    """A stream of the last of very many types, read over and over."""
    entries = room // 2 // len('{"tuple":[1000000]},')
    end = ',{"stream":%d}]}' % (entries + 1)
    types = fill(PLAIN_TYPES[:-2] + ',', lambda n: '{"tuple":[%s]}' % (n + 1 if n else '"u8"'), end, entries)
    read = canon(lambda n: '["stream.read",0,%d,[]]' % (entries + 2), room // 2)
    return document(types, ['"version"', read, '"end"'])


MEMORY = TABLE.replace('"tables":1,"memories":[]', '"tables":0,"memories":[false]')
MEMORY = MEMORY.replace('"t","table"', '"m","memory"')
ITS_MEMORY = '{"aliases":[{"core-export":["memory",0,"m"]}]}'


def waits_on_one_memory(room):
    """Waitable sets are waited for and polled, all with one memory."""
    asked = canon(lambda n: '["waitable-set.%s",0,0]' % ("wait", "poll")[n % 2], room)
    return document(PLAIN_TYPES, ['"version"', MEMORY, INSTANCE, ITS_MEMORY, asked, '"end"'])


def used_waits(room):
    """Waits on memories of their own, which one core instance takes."""
    one = len(INSTANCE + ITS_MEMORY + '["waitable-set.wait",0,1000000],') + 16
    count = room // (one + PER_IMPORT + PER_ITEM)
    made = fill('{"instances":[', lambda n: '{"instantiate":[0,[]]}', "]}", count)
    named = fill('{"aliases":[', lambda n: '{"core-export":["memory",%d,"m"]}' % n, "]}", count)
    asked = fill('{"canon":[', lambda n: '["waitable-set.wait",0,%d]' % n, "]}", count)
    taken = [bag(count, lambda n: n), take(1, count)]
    return document(PLAIN_TYPES, ['"version"', MEMORY, taker(count), made, named, asked, *taken, '"end"'])


def threads_in_children(room):
    """Instances of a component that makes threads of the functions of its table, and asks for its slots."""
    asked = '{"canon":[["thread.new-indirect",0,0,0],["context.get",0,"i32",0],["thread.index",0]]}'
    child = ",".join(['"component","version"', TABLE, INSTANCE, ITS_TABLE, asked, '"end"'])
    count = min(room // (len(ONE_CHILD) + 1), MOST - 1)
    return nesting(child, fill('{"component-instances":[', lambda n: ONE_CHILD, "]}", count))


def long_result_in_children(room):
    """Instances of a component that ends tasks with the last of very many types."""
    entries = room // 2 // len('{"tuple":[1000000]},')
    types = fill(NEST_TYPES[:-2] + ",", lambda n: '{"tuple":[%s]}' % (n + 3 if n else '"u8"'), "]}", entries)
    child = '"component","version",{"canon":[["task.return",0,%d,[]]]},"end"' % (entries + 3)
    count = min(room // 2 // (len(ONE_CHILD) + 1), MOST - 1)
    return over(types, child, fill('{"component-instances":[', lambda n: ONE_CHILD, "]}", count))


def long_result_of_handles_in_children(room):
    """The same over types that each component instance has anew, since a stream stands in them: the product."""
    entries = room // 2 // len('{"tuple":[1000000]},')
    count = min(room // 2 // (len(ONE_CHILD) + 1), MOST - 1)
    types = fill(NEST_TYPES[:-2] + ",", lambda n: '{"tuple":[%d]}' % (n + 3) if n else '{"stream":"u8"}', "]}", entries)
    child = '"component","version",{"canon":[["task.return",0,%d,[]]]},"end"' % (entries + 3)
    return over(types, child, fill('{"component-instances":[', lambda n: ONE_CHILD, "]}", count))


def an_unknown_intrinsic(room):
    """Members of the unsafe intrinsics, the last of which isn't one."""
    end = ',{"export":["func",0,"u8"]}]}'
    named = listed('{"aliases":[', lambda n: '{"export":["func",0,"u8-native-load"]}', end, room)
    return document(LOAD, ['"version"', '{"imports":[["i",["instance",1]]]}', named, '"end"'], 1, '"i"')


def exported(lift, count):
    """So many lifts, each exported."""
    return [fill('{"canon":[', lift, "]}", count),
            fill('{"exports":[', lambda n: '["e%07d","func",%d]' % (n, n), "]}", count)]


def lifts_with_post_return(room):
    """One function is lifted over and over with a function that runs after it, and each is exported."""
    lift = '["lift",0,1,0,[["post-return",0]]]'
    return document(PLAIN_TYPES, BASE + exported(lambda n: lift, room // (len(lift) + 1 + PER_ITEM)) + ['"end"'])


def options_in_one_slot(room):
    """Exported functions whose options differ in one slot alone."""
    lift = '["lift",0,1,0,["utf8","async",["post-return",%d]]]'
    count = room // (len(lift % 1000000) + 1 + PER_EXPORT + PER_ALIAS + PER_ITEM)
    lifts = exported(lambda n: lift % n, count)
    return document(PLAIN_TYPES, ['"version"', giver(count), INSTANCE, given(count)] + lifts + ['"end"'])


def options_of_one_function(room):
    """Many exports of one core function, and no two of their options are equal."""
    lift = '["lift",0,1,0,[["realloc",%d],["post-return",%d]]]'
    count = (room - 2 * SIDE * PER_ALIAS) // (len(lift % (SIDE, SIDE)) + 1 + PER_ITEM)
    lifts = exported(lambda n: lift % (n // SIDE % SIDE, n % SIDE), count)
    return document(PLAIN_TYPES, ['"version"', giver(SIDE), INSTANCE, given(SIDE)] + lifts + ['"end"'])


def repeated_options(room):
    """One lift whose options are written over and over."""
    words = ['"utf8"', '"utf16"', '["post-return",0]', '["realloc",0]']
    lift = listed('{"canon":[["lift",0,1,0,[', lambda n: words[n % 4], "]]]}", room)
    return document(PLAIN_TYPES, BASE + [lift, '{"exports":[["e","func",0]]}', '"end"'])


def versions_of_one_name(room):
    """Exports under versions of one name."""
    names = exports(lambda n: '["a:b/c@1.%d.0","func",0]' % n, room)
    return document(PLAIN_TYPES, BASE + ['{"canon":[%s]}' % LIFT, names, '"end"'])


# Names of 32 bytes with one hash under the hasher that an `IndexMap` has where it is given none: its seed is fixed, and
# their third eight bytes make a product zero there, those of `ALIKE` in a name that is hashed alone, and those of
# `ALIKE_IN_LIST` in a list of one.
ALIKE = "one-name00270480BevjgZAf%08d"
ALIKE_IN_LIST = "one-name00054250dsiPK-Gm%08d"


def exports_that_hash_alike(room):
    """Exports under names of one hash."""
    names = exports(lambda n: '["%s","func",0]' % (ALIKE % n), room)
    return document(PLAIN_TYPES, BASE + ['{"canon":[%s]}' % LIFT, names, '"end"'])


def module_names_that_hash_alike(room):
    """One core module whose exports have names of one hash."""
    begin = '{"module":{"ty":0,"imports":[],"funcs":[0],"tables":0,"memories":[],"globals":0,"tags":0,"exports":['
    module = listed(begin, lambda n: '["%s","func",0]' % (ALIKE % n), "]}}", room)
    return document(PLAIN_TYPES, ['"version"', module, '"end"'])


def bag_that_hashes_alike(room):
    """One core instance of very many items, under names of one hash."""
    items = listed('{"instances":[{"exports":[', lambda n: '["%s","func",0]' % (ALIKE % n), "]}]}", room)
    return document(PLAIN_TYPES, BASE + [items, '"end"'])


def arguments_that_hash_alike(room):
    """One core module, instantiated with very many arguments under names of one hash."""
    args = listed('{"instances":[{"instantiate":[0,[', lambda n: '["%s",0]' % (ALIKE % n), "]]}]}", room)
    return document(PLAIN_TYPES, BASE + [args, '"end"'])


def imports_that_hash_alike(room):
    """Imports under names of one hash."""
    imports = listed('{"imports":[', lambda n: '["%s",["func",1]]' % (ALIKE % n), "]}", room)
    return document(PLAIN_TYPES, ['"version"', imports, '"end"'])


def types_that_hash_alike(room):
    """Each lift has a function type of its own, and the names of their parameters have one hash."""
    entry = '{"func":{"params":[["%s","u8"]],"result":null,"async":false}}'
    count = room // (len(entry % (ALIKE_IN_LIST % 0)) + 1 + len('["lift",0,1000000,0,[]],'))
    begin = '{"core":[[[],[]]],"types":[{"module":[[],[]]},'
    types = fill(begin, lambda n: entry % (ALIKE_IN_LIST % n), "]}", count)
    lifts = fill('{"canon":[', lambda n: '["lift",0,%d,0,[]]' % (n + 1), "]}", count)
    return document(types, BASE + [lifts, '"end"'])


# types of an instance and of a component beside those of `PLAIN_TYPES`
NEST_TYPES = PLAIN_TYPES[:-2] + ',{"instance":[]},{"component":[[],[]]}]}'
CHILD = '"component","version","end"'
CHILD_ITSELF = '{"component-instances":[{"instantiate":[0,[["c","component",0]],2]}]}'
ONE_CHILD = '{"instantiate":[0,[],2]}'
BEGINS_CHILD = '{"component-instances":[%s]}' % ONE_CHILD
# how long a member of an instance is, with the alias of it
MEMBER = len('["e0000000","func",0],{"export":["func",0,"e0000000"]},')


def nesting(*payloads):
    """An input of these pieces of its root, in which as many component instances may begin as the limit allows."""
    return document(NEST_TYPES, ['"version"', *payloads, '"end"'], MOST)


def many_children(room):
    """Instances of a component without content."""
    count = min(room // (len(ONE_CHILD) + 1), MOST - 1)
    return nesting(CHILD, fill('{"component-instances":[', lambda n: ONE_CHILD, "]}", count))


# a component that makes an instance of module 0 and lifts its function under the type with this number
LIFTING_CHILD = ('"component","version",{"aliases":[{"outer":["core-module",1,0]}]},' + INSTANCE + "," + ALIAS
                 + ',{"canon":[["lift",0,%d,0,[]]]},"end"')


def lifting_children(room, entry, func):
    """Many instances of a component that lifts a function, over as long a table of entries and a last function."""
    entries = room // 2 // (len(entry(1000000)) + 1)
    filled = fill(NEST_TYPES[:-2] + ",", lambda n: entry(n + 4), ",%s]}" % (func % (entries + 3)), entries)
    count = min(room // 2 // (len(ONE_CHILD) + 1), MOST - 1)
    begins = fill('{"component-instances":[', lambda n: ONE_CHILD, "]}", count)
    return document(filled, ['"version"', ONE_FUNC, LIFTING_CHILD % (entries + 4), begins, '"end"'], MOST)


def children_over_a_long_table(room):
    """Instances that lift a function over one entry of a long table."""
    return lifting_children(room, lambda n: '{"list":"u8"}', '{"func":{"params":[["a",%d]],"result":null,"async":false}}')


def children_with_a_long_type(room):
    """Instances that lift a function over the last of very many types, each a list of the one before."""
    return lifting_children(room, lambda n: '{"list":"u8"}' if n == 4 else '{"list":%d}' % (n - 1),
                            '{"func":{"params":[["a",%d]],"result":null,"async":false}}')


def children_in_children(room):
    """Components within components, each instantiated by the one around it."""
    opened, close = '"component","version"', '"end",' + BEGINS_CHILD
    depth = min(room // len(opened + "," + close + ","), MOST - 1)
    return nesting(",".join([opened] * depth), ",".join([close] * depth))


def child_of_itself(room):
    """A component that is given itself and instantiates it, until as many have begun as the limit."""
    child = '"component","version",{"imports":[["c",["component",3]]]},%s,"end"' % CHILD_ITSELF
    return nesting(child, CHILD_ITSELF)


def children_with_arguments(room):
    """One component, instantiated over and over with a hundred arguments."""
    piece = '{"instantiate":[0,[%s],2]}' % ",".join('["a%d","func",0]' % n for n in range(100))
    return nesting(IMPORT, CHILD, listed('{"component-instances":[', lambda n: piece, "]}", room))


def child_with_imports(room):
    """A component with very many imports, and one instance that is given them all."""
    count = room // len('["a0000000",["func",1]],["a0000000","func",0],')
    imports = fill('{"imports":[', lambda n: '["a%07d",["func",1]]' % n, "]}", count)
    given = fill('{"component-instances":[{"instantiate":[0,[', lambda n: '["a%07d","func",0]' % n, "],2]}]}", count)
    return nesting(IMPORT, '"component","version"', imports, '"end"', given)


def members(begin, end, count):
    """So many functions under names in a list that begins and ends so, and an alias of each, by its name."""
    named = fill(begin, lambda n: '["e%07d","func",0]' % n, end, count)
    taken = fill('{"aliases":[', lambda n: '{"export":["func",0,"e%07d"]}' % n, "]}", count)
    return named, taken


def exports_of_a_child(room):
    """A component with very many exports, each of which is taken out of one instance of it."""
    exports, taken = members('{"exports":[', "]}", room // MEMBER)
    begins = '{"component-instances":[{"instantiate":[0,[["f","func",0]],2]}]}'
    child = '"component","version",{"imports":[["f",["func",1]]]}'
    return nesting(IMPORT, child, exports, '"end"', begins, taken)


def items_of_an_instance(room):
    """An instance from very many items, each of which is taken out of it."""
    items, taken = members('{"component-instances":[{"exports":[[', "],2]}]}", room // MEMBER)
    return nesting(IMPORT, items, taken)


def instances_of_instances(room):
    """Instances from items, each of which has the one before it twice."""
    twice = '{"exports":[[["a","instance",%d],["b","instance",%d]],2]}'
    return nesting(listed('{"component-instances":[{"exports":[[],2]},', lambda n: twice % (n, n), "]}", room))


def aliases_of_one_member(room):
    """One item of an instance, taken out over and over."""
    made = '{"component-instances":[{"exports":[[["f","func",0]],2]}]}'
    return nesting(IMPORT, made, aliases(lambda n: '{"export":["func",0,"f"]}', room))


def captures_of_a_child(room):
    """Very many components, and one that captures them all and is instantiated."""
    count = room // (len(CHILD) + 1 + len('{"outer":["component",1,1000000]},'))
    capturing = fill('{"aliases":[', lambda n: '{"outer":["component",1,%d]}' % n, "]}", count)
    begins = '{"component-instances":[{"instantiate":[%d,[],2]}]}' % count
    return nesting(",".join([CHILD] * count), '"component","version"', capturing, '"end"', begins)


def captures_at_each_level(room):
    """Components within components, each of which captures one module of the root and is instantiated."""
    opened, close = '"component","version",{"aliases":[{"outer":["core-module",%d,0]}]}', '"end",' + BEGINS_CHILD
    depth = min(room // len(opened % 1000000 + "," + close + ","), MOST - 1)
    levels = ",".join(opened % (n + 1) for n in range(depth))
    return nesting(ONE_FUNC, levels, ",".join([close] * depth))


def resources(count):
    """A type table with so many resources behind its four other types."""
    return fill(NEST_TYPES[:-2] + ",", lambda n: '"resource"', "]}", count)


def over(types, *payloads):
    """An input over this type table, in which as many component instances may begin as the limit allows."""
    return document(types, ['"version"', *payloads, '"end"'], MOST)


def children_with_a_long_name(room):
    """Very many instances of a component that exports something under a very long name."""
    child = '"component","version",{"component-instances":[{"exports":[[],2]}]},{"exports":[["%s","instance",0]]},"end"'
    count = min(room // 2 // (len(ONE_CHILD) + 1), MOST - 1)
    begins = fill('{"component-instances":[', lambda n: ONE_CHILD, "]}", count)
    return nesting(child % ("n" * (room // 2)), begins)


def children_of_items(room, begin, piece):
    """Instances of a component, for half of the room, whose body has very many items."""
    body = "".join(listed(begin, lambda n: piece, "]}", room // 2))
    return children_of(room, '"component","version",%s,"end"' % body)


def children_of_many_instances(room):
    """Instances of a component that makes very many instances of no items: the product, in memory too."""
    return children_of_items(room, '{"component-instances":[', '{"exports":[[],2]}')


def children_of_many_builtins(room):
    """Instances of a component that asks for one builtin over and over: the product."""
    return children_of_items(room, '{"canon":[', '["backpressure.inc",0]')


def captures_in_children(room):
    """Instances of a component in which another one captures very many that stand around both: the product in memory."""
    count = room // 2 // len(CHILD + ',{"outer":["component",2,1000000]},')
    captured = "".join(fill('{"aliases":[', lambda n: '{"outer":["component",2,%d]}' % n, "]}", count))
    child = '"component","version","component","version",%s,"end","end"' % captured
    return children_of(room, child, root=[",".join([CHILD] * count)], begins='{"instantiate":[%d,[],2]}' % count)


def name_of(room, parts=3):
    """A name that takes one of so many parts of the room."""
    return "n" * (room // parts)


def children_of(room, child, types=NEST_TYPES, root=(), begins=ONE_CHILD, most=MOST - 1):
    """Instances of a component behind these pieces of the root, for what is left of the room."""
    left = room - len(types) - len(child) - sum(len(piece) for piece in root)
    count = min(left // (len(begins) + 1), most)
    return over(types, *root, child, fill('{"component-instances":[', lambda n: begins, "]}", count))


# an import that the root has too, and an instance of a child that is given it
GIVEN = '{"imports":[["i",["instance",%d]]]}'
GIVEN_CHILD = '{"instantiate":[0,[["i","instance",0]],2]}'


def children_with_a_long_argument(room):
    """Instances of a component that gives another one an argument under a very long name."""
    name = name_of(room)
    inner = '"component","version",{"imports":[["%s",["instance",2]]]},"end"' % name
    made = '{"component-instances":[{"exports":[[],2]},{"instantiate":[0,[["%s","instance",0]],2]}]}' % name
    return children_of(room, '"component","version",%s,%s,"end"' % (inner, made), most=(MOST - 1) // 2)


def children_with_a_long_alias(room):
    """Instances of a component that takes something of a very long name out of an instance."""
    name = name_of(room)
    made = '{"component-instances":[{"exports":[[],2]},{"exports":[[["%s","instance",0]],2]}]}' % name
    taken = '{"aliases":[{"export":["instance",1,"%s"]}]}' % name
    return children_of(room, '"component","version",%s,%s,"end"' % (made, taken))


def children_with_a_long_bag(room):
    """Instances of a component that gives a core module what it imports under a very long name."""
    name = name_of(room, 6)
    takes = core_module('["%s","%s",["func",0]]' % (name, name), 0, "")
    taken = '{"aliases":[{"outer":["core-module",1,0]},{"outer":["core-module",1,1]}]}'
    made = '{"instances":[{"exports":[["%s","func",0]]},{"instantiate":[1,[["%s",1]]]}]}' % (name, name)
    found = '{"aliases":[{"core-export":["func",1,"%s"]}]}' % name
    child = ",".join(['"component","version"', taken, INSTANCE, ALIAS, made, found, '"end"'])
    return children_of(room, child, root=[ONE_FUNC, takes])


def children_with_a_long_core_export(room):
    """Instances of a component that takes a function of a very long name out of a core instance."""
    name = name_of(room)
    captured, taken = '{"aliases":[{"outer":["core-module",1,0]}]}', '{"aliases":[{"core-export":["func",0,"%s"]}]}' % name
    child = ",".join(['"component","version"', captured, INSTANCE, taken, '"end"'])
    return children_of(room, child, root=[core_module("", 1, '["%s","func",0]' % name)])


def children_with_a_long_host_name(room):
    """Instances of a component that takes a function of a very long name out of an imported instance."""
    name = name_of(room)
    types = NEST_TYPES[:-2] + ',{"instance":[["%s",["func",1]]]}]}' % name
    child = '"component","version",%s,{"aliases":[{"export":["func",0,"%s"]}]},"end"' % (GIVEN % 4, name)
    return children_of(room, child, types, [GIVEN % 4], GIVEN_CHILD)


def children_with_a_long_resource(room):
    """Instances of a component that are given a resource under a very long name."""
    types = NEST_TYPES[:-2] + ',"resource",{"instance":[["%s",["type",4]]]}]}' % name_of(room)
    return children_of(room, '"component","version",%s,"end"' % (GIVEN % 5), types, [GIVEN % 5], GIVEN_CHILD)


def children_with_a_long_label(room):
    """Instances of a component that lifts a function of a stream, whose parameter has a very long name."""
    entries = ',{"stream":"u8"},{"func":{"params":[["%s",4]],"result":null,"async":false}}]}' % name_of(room)
    return children_of(room, LIFTING_CHILD % 5, NEST_TYPES[:-2] + entries, [ONE_FUNC])


def children_with_a_wide_type(room):
    """Instances of a component that lifts a function of a stream and of very many numbers: the product, in memory too."""
    params = listed('["s",4],', lambda n: '["e%07d","u8"]' % n, "", room // 3)
    entries = ',{"stream":"u8"},{"func":{"params":[%s],"result":null,"async":false}}]}' % "".join(params)
    return children_of(room, LIFTING_CHILD % 5, NEST_TYPES[:-2] + entries, [ONE_FUNC])


# the entities of core modules that are exported here
A_FUNC, A_MEMORY = '["func",0]', '["memory",false]'


def module_types(*exports):
    """A type table whose entry 4 is the type of a module with these exports, each by its name and its entity."""
    return NEST_TYPES[:-2] + ',{"module":[[],[%s]]}]}' % ",".join('["%s",%s]' % export for export in exports)


# the memory of core instance 0 under this name, and the import of a module of the type of entry 4
MEMORY_OF = '{"aliases":[{"core-export":["memory",0,"%s"]}]}'
IMPORTED_MODULE = '{"imports":[["m",["module",4]]]}'


def children_with_a_long_host_memory(room):
    """Instances of a component that takes a memory of a very long name out of an instance of an imported module, and
    lowers a function of the host with it."""
    name = name_of(room)
    child = ('"component","version",{"imports":[["i",["func",1]]]},{"aliases":[{"outer":["core-module",1,0]}]},'
             + INSTANCE + "," + MEMORY_OF % name + ',{"canon":[["lower",0,1,0,[["memory",0]]]]},"end"')
    root = [IMPORTED_MODULE, '{"imports":[["i",["func",1]]]}']
    return children_of(room, child, module_types((name, A_MEMORY)), root, '{"instantiate":[0,[["i","func",0]],2]}')


def children_with_a_long_adapter(room):
    """Instances of a component that takes a function and a memory of very long names out of an instance of an imported
    module, lifts the one with the other and lowers it again."""
    names = [kind + name_of(room, 6) for kind in ("f", "m")]
    types = module_types((names[0], A_FUNC), (names[1], A_MEMORY))
    taken = '{"aliases":[{"core-export":["func",0,"%s"]},{"core-export":["memory",0,"%s"]}]}' % tuple(names)
    child = ('"component","version",{"aliases":[{"outer":["core-module",1,0]}]},' + INSTANCE + "," + taken
             + ',{"canon":[["lift",0,1,0,[["memory",0]]],["lower",0,1,0,[["memory",0]]]]},"end"')
    return children_of(room, child, types, [IMPORTED_MODULE])


def adapters_of_a_long_host_memory(room):
    """Functions of very many core instances, each lifted with a memory that an instance of an imported module has under
    a very long name, and lowered again."""
    name = name_of(room, 4)
    made, took = '{"instantiate":[1,[]]}', '{"core-export":["func",%d,"f"]}'
    lift, lower = '["lift",%d,1,0,[["memory",0]]]', '["lower",%d,1,0,[["memory",0]]]'
    count = room // 3 // len(",".join((made, took, lift, lower)) + "1000000" * 3)
    taken = MEMORY_OF[:-2] % name + "".join("," + took % (n + 1) for n in range(count)) + "]}"
    made = '{"instances":[{"instantiate":[0,[]]}' + ("," + made) * count + "]}"
    canons = [fill('{"canon":[', lambda n: text % n, "]}", count) for text in (lift, lower)]
    return over(module_types((name, A_MEMORY)), IMPORTED_MODULE, ONE_FUNC, made, taken, *canons)


def long_host_item(room, entity):
    """The types and the root's first pieces: what an imported module exports under a very long name is aliased."""
    name = name_of(room)
    kind = entity[2:entity.index('"', 2)]
    types = module_types((name, entity))
    taken = '{"aliases":[{"core-export":["%s",0,"%s"]}]}' % (kind, name)
    return types, ['{"imports":[["m",["module",4]],["i",["func",1]]]}', INSTANCE, taken]


def then_lowered(room, types, root, lower):
    """The same, with one lowering over and over for what is left of the room."""
    return over(types, *root, canon(lambda n: lower, room - len(types) - sum(len(piece) for piece in root)))


def lowerings_over_a_long_host_memory(room):
    """One function is lowered over and over with an imported module's memory of a very long name."""
    return then_lowered(room, *long_host_item(room, A_MEMORY), '["lower",0,1,0,[["memory",0]]]')


def equal_adapters_of_a_long_host_function(room):
    """An imported module's function of a very long name is lifted, and that is lowered over and over: one adapter."""
    types, root = long_host_item(room, A_FUNC)
    return then_lowered(room, types, root + [LIFTS], '["lower",1,1,0,[]]')


def equal_adapters_of_many_aliases(room):
    """A function and a memory of an imported module have long names and many aliases each. The functions are lifted,
    and each is lowered with each of the memories: one adapter for all pairs."""
    lower = '["lower",1000,1,0,[["memory",1000]]],'
    count = int((room // 2 // len(lower)) ** 0.5) + 1
    names = [kind + "n" * (room // 4 // count) for kind in ("f", "m")]
    types = module_types((names[0], A_FUNC), (names[1], A_MEMORY))
    aliases = ['["func",0,"%s"]' % names[0], '["memory",0,"%s"]' % names[1]]
    taken = [fill('{"aliases":[', lambda n: '{"core-export":%s}' % alias, "]}", count) for alias in aliases]
    lifted = fill('{"canon":[', lambda n: '["lift",%d,1,0,[]]' % n, "]}", count)
    pairs = '["lower",%d,1,0,[["memory",%d]]]'
    lowered = fill('{"canon":[', lambda n: pairs % (n // count, n % count), "]}", count * count)
    return over(types, IMPORTED_MODULE, INSTANCE, *taken, lifted, lowered)


def equal_adapters_of_own_aliases(room):
    """An imported module's function of a very long name is lifted, and that is lowered with each of very many aliases
    of one memory of a module of the root's: one adapter."""
    name = name_of(room, 4)
    alias, lower = ',{"core-export":["memory",1,"m"]}', '["lower",0,1,0,[["memory",%d]]]'
    count = (room - 2 * len(name)) // len(alias + lower + "10000")
    memory = MODULE.replace('"memories":[]', '"memories":[false]') % ("[]", "[]", "0", '[["m","memory",0]]')
    taken = '{"aliases":[{"core-export":["func",0,"%s"]}' % name + alias * count + "]}"
    made = '{"instances":[{"instantiate":[0,[]]},{"instantiate":[1,[]]}]}'
    lowered = fill('{"canon":[', lambda n: lower % n, "]}", count)
    return over(module_types((name, A_FUNC)), IMPORTED_MODULE, memory, made, taken, LIFTS, lowered)


def equal_adapters_of_equal_lowerings(room):
    """A host's function is lowered over and over, and each of these is lifted with an imported module's memory of a very
    long name, and lowered again: one adapter, but its name is compared for each of them: the product."""
    types, root = long_host_item(room // 2, A_MEMORY)
    texts = '["lower",0,1,0,[]]', '["lift",%d,1,0,[["memory",0]]]', '["lower",%d,1,0,[]]'
    count = room // 2 // len(",".join(texts) + "1000000")
    canons = [fill('{"canon":[', lambda n: texts[0], "]}", count),
              fill('{"canon":[', lambda n: texts[1] % n, "]}", count),
              fill('{"canon":[', lambda n: texts[2] % (n + 1), "]}", count)]
    return over(types, *root, *canons)


def many_resources(room):
    """The root declares very many resources, each of its own."""
    count = room // len('"resource",{"resource":[1000000,"i32",null]},')
    return over(resources(count), fill('{"types":[', lambda n: '{"resource":[%d,"i32",null]}' % (n + 4), "]}", count))


def resources_with_destructors(room):
    """The root declares one resource over and over, each time with a destructor."""
    declared = listed('{"types":[', lambda n: '{"resource":[4,"i32",0]}', "]}", room)
    return over(resources(1), ONE_FUNC, INSTANCE, ALIAS, declared)


def imported_resources(room):
    """The root imports very many resources, each of its own."""
    count = room // len('"resource",["a0000000",["type",1000000]],')
    return over(resources(count), fill('{"imports":[', lambda n: '["a%07d",["type",%d]]' % (n, n + 4), "]}", count))


def one_resource_imported_often(room):
    """The root imports one resource under very many names."""
    return over(resources(1), listed('{"imports":[', lambda n: '["a%07d",["type",4]]' % n, "]}", room))


def children_with_a_resource(room):
    """Instances of a component that declares a resource."""
    child = '"component","version",{"types":[{"resource":[4,"i32",null]}]},"end"'
    count = min(room // (len(ONE_CHILD) + 1), MOST - 1)
    return over(resources(1), child, fill('{"component-instances":[', lambda n: ONE_CHILD, "]}", count))


def children_given_a_resource(room):
    """Instances of a component that imports a resource, each given that of the root."""
    child = '"component","version",{"imports":[["r",["type",5]]]},"end"'
    given = '{"instantiate":[0,[["r","type",4]],2]}'
    count = min(room // (len(given) + 1), MOST - 1)
    begins = fill('{"component-instances":[', lambda n: given, "]}", count)
    return over(resources(2), '{"imports":[["r",["type",4]]]}', child, begins)


def resources_between(room, first, front, known, width=1, declared=lambda r: '"resource"', used=lambda n, r: ""):
    """Imports of resources, each its own, and after each one of a function over the last of very many lists.

    `declared` gives `width` entries for each, of which it is the first, and `used` imports in front of its own.
    """
    entries = room // 4 // len('{"list":1000000},')
    pair = '["r%07d",["type",%d]],["f%07d",["func",%d]]'
    count = room // 2 // len("%s,%s%s," % (declared(1000000), used(0, 1000000), pair % (0, 1000000, 0, 1000000)))
    last = entries + 3 + len(front)
    lists = fill("".join([NEST_TYPES[:-2] + ",", *front]),
                 lambda n: '{"list":%s}' % first if n == 0 else '{"list":%d}' % (n + 3 + len(front)), "", entries)
    long_type = ',{"func":{"params":[["a",%d]],"result":null,"async":false}}' % last

    def number(n):
        return last + 2 + width * n
    types = [*lists, long_type, *fill(",", lambda n: declared(number(n)), "]}", count)]
    imports = fill('{"imports":[' + known,
                   lambda n: used(n, number(n)) + pair % (n, number(n), n, last + 1), "]}", count)
    return over(types, imports)


def resources_between_long_types(room):
    """Imports of resources, with uses between them of a type that needs very many entries."""
    return resources_between(room, '"u8"', [], "")


# entries that lead to a resource, which is imported first
LONG_HANDLES = ["5", ['"resource",', '{"own":4},'], '["h",["type",4]],']


def resources_between_long_handles(room):
    """The same where these entries lead to a resource, so that they are of this component instance."""
    return resources_between(room, *LONG_HANDLES)


def resources_known_after_use(room):
    """The same where in front of each resource a function that takes it is imported: its type is another one then."""
    return resources_between(
        room, *LONG_HANDLES, 3,
        lambda r: '"resource",{"own":%d},{"func":{"params":[["a",%d]],"result":null,"async":false}}' % (r, r + 1),
        lambda n, r: '["g%07d",["func",%d]],' % (n, r + 2))


def doubling_instance(room, depth):
    """Imports of an instance type that has the one before it twice, so deep, down to one resource."""
    levels = fill(',{"instance":[["r",["type",4]]]},',
                  lambda n: '{"instance":[["a",["instance",%d]],["b",["instance",%d]]]}' % (n + 5, n + 5), "]}", depth)
    types = "".join([NEST_TYPES[:-2], ',"resource"', *levels])
    return over(types, listed('{"imports":[', lambda n: '["i%07d",["instance",%d]]' % (n, depth + 5), "]}", room))


def doubling_instance_imported(room):
    """Seven deep: each import has 382 names."""
    return doubling_instance(room, 7)


def deep_doubling_instance_imported(room):
    """Forty deep: the names of one import are too many."""
    return doubling_instance(room, 40)


def host_instance(room, entity):
    """An imported instance of very many exports, an alias of each by its name, and the list of these exports."""
    kind = entity[2:entity.index('"', 2)]
    count = room // len('["e0000000",%s],{"export":["%s",0,"e0000000"]},' % (entity, kind))
    types = fill(NEST_TYPES[:-2] + ',{"instance":[', lambda n: '["e%07d",%s]' % (n, entity), "]}]}", count)
    taken = fill('{"aliases":[', lambda n: '{"export":["%s",0,"e%07d"]}' % (kind, n), "]}", count)
    return over(types, '{"imports":[["i",["instance",4]]]}', taken)


def functions_of_a_host_instance(room):
    """An imported instance of very many functions, each taken out of it."""
    return host_instance(room, '["func",1]')


def instances_of_a_host_instance(room):
    """An imported instance of very many instances, each taken out of it."""
    return host_instance(room, '["instance",2]')


def chain_of_host_instances(room):
    """An imported instance with one in it, and so on, each taken out of the one before."""
    count = room // len('{"instance":[["a",["instance",1000000]]]},{"export":["instance",1000000,"a"]},')
    types = fill(NEST_TYPES[:-2] + ",", lambda n: '{"instance":[["a",["instance",%d]]]}' % (n + 3 if n else 2), "]}", count)
    taken = fill('{"aliases":[', lambda n: '{"export":["instance",%d,"a"]}' % n, "]}", count)
    return over(types, '{"imports":[["i",["instance",%d]]]}' % (count + 3), taken)


def host_modules(room):
    """Very many imported modules, each instantiated."""
    count = room // len('["m0000000",["module",0]],{"instantiate":[1000000,[]]},')
    imports = fill('{"imports":[', lambda n: '["m%07d",["module",0]]' % n, "]}", count)
    return nesting(imports, fill('{"instances":[', lambda n: '{"instantiate":[%d,[]]}' % n, "]}", count))


def wide_host_module(room):
    """An imported module of very many exports, with an alias of each, and as many imports."""
    count = room // len('["e0000000",["func",0]],["a","e0000000",["func",0]],["e0000000","func",0],'
                        '{"core-export":["func",2,"e0000000"]},')
    taken = fill('', lambda n: '["a","e%07d",["func",0]]' % n, "],[", count)
    given = fill('', lambda n: '["e%07d",["func",0]]' % n, "]]}]}", count)
    types = ['{"core":[[[],[]]],"types":[{"module":[[],[]]},{"module":[['] + list(taken) + list(given)
    bag = fill('{"instances":[{"exports":[', lambda n: '["e%07d","func",0]' % n, ']},{"instantiate":[0,[["a",1]]]}]}', count)
    aliased = fill('{"aliases":[', lambda n: '{"core-export":["func",2,"e%07d"]}' % n, "]}", count)
    return over(types, '{"imports":[["m",["module",1]]]}', ONE_FUNC,
                '{"instances":[{"instantiate":[1,[]]}]}', ALIAS, bag, aliased)


def exported_instance(room):
    """An instance from very many items, which the root exports."""
    items = listed('{"component-instances":[{"exports":[[', lambda n: '["e%07d","func",0]' % n, "],2]}]}", room)
    return nesting(IMPORT, items, '{"exports":[["i","instance",0]]}')


def exported_instances(room):
    """Very many instances from items, each of which the root exports."""
    count = room // len('{"exports":[[["f","func",0]],2]},["e0000000","instance",1000000],')
    made = fill('{"component-instances":[', lambda n: '{"exports":[[["f","func",0]],2]}', "]}", count)
    return nesting(IMPORT, made, fill('{"exports":[', lambda n: '["e%07d","instance",%d]' % (n, n), "]}", count))


def exported_host_instance(room):
    """An imported instance of very many functions, which the root exports."""
    types = listed(NEST_TYPES[:-2] + ',{"instance":[', lambda n: '["e%07d",["func",1]]' % n, "]}]}", room)
    return over(types, '{"imports":[["i",["instance",4]]]}', '{"exports":[["i","instance",0]]}')


# instances from items, the last of which, number 27, has a quarter of a billion nodes: each has the one before it twice
DOUBLED = ",".join(['{"exports":[[],2]}'] + ['{"exports":[[["a","instance",%d],["b","instance",%d]],2]}' % (n, n) for n in range(27)])


def refusal_in_a_tree(room):
    """An export of a quarter of a billion nodes, then of very many functions, and of a component, which is refused."""
    items = listed('{"component-instances":[' + DOUBLED + ',{"exports":[[["t","instance",27],',
                   lambda n: '["e%07d","func",0]' % n, ',["c","component",0]],2]}]}', room)
    return nesting(IMPORT, CHILD, items, '{"exports":[["x","instance",28]]}')


def refusal_behind_a_tree(room):
    """An export of a quarter of a billion nodes, very many others, and then a component, which is refused."""
    exported = listed('{"exports":[["x","instance",27],', lambda n: '["e%07d","func",0]' % n, ',["c","component",0]]}', room)
    return nesting(IMPORT, CHILD, '{"component-instances":[' + DOUBLED + "]}", exported)


def refusal_in_a_host_tree(room):
    """An imported instance of as many nodes and then of a component, which the root exports."""
    levels = fill(",", lambda n: '{"instance":[["a",["instance",%d]],["b",["instance",%d]]]}' % (n + 3 if n else 2, n + 3 if n else 2), "", 27)
    types = listed(NEST_TYPES[:-2] + "".join(levels) + ',{"instance":[["t",["instance",30]],',
                   lambda n: '["e%07d",["func",1]]' % n, ',["c",["component",3]]]}]}', room)
    return over(types, '{"imports":[["i",["instance",31]]]}', '{"exports":[["x","instance",0]]}')


def exported_types(room):
    """The root exports one type under very many names."""
    return nesting(listed('{"exports":[', lambda n: '["e%07d","type",1]' % n, "]}", room))


def exported_modules(room):
    """The root exports one module under very many names."""
    return nesting(ONE_FUNC, listed('{"exports":[', lambda n: '["e%07d","module",0]' % n, "]}", room))


def deep_export_of_a_module(room):
    """Instances from items, each of which has the one before it, down to a core module; the root exports the last."""
    made = '{"exports":[[["i","instance",%d]],2]}'
    count = min(room // (len(made % 1000000) + 1), 100000)
    items = fill('{"component-instances":[{"exports":[[["m","module",0]],2]},', lambda n: made % n, "]}", count)
    return nesting(ONE_FUNC, INSTANCE, items, '{"exports":[["i","instance",%d]]}' % count)


def many_ends(room):
    """Ends of what never began."""
    return document(PLAIN_TYPES, ['"version"'] + list(repeated(lambda n: '"end"', room)))


def not_utf8(room):
    """White space, and a byte that is no UTF-8 at the end."""
    yield " " * room
    yield b"\xff"


# the status that a run on each family has
FAMILIES = {
    many_lifts: 0, many_exports: 0, many_lifts_of_form_two: 0, many_exports_of_form_two: 0,
    aliases_of_a_long_name_of_form_two: 0, an_export_twice: 1,
    small_payloads: 0, empty_sections: 0, many_modules: 0,
    chain_of_modules: 0, chain_of_functions: 0, chain_of_memories: 0, records_of_many_globals: 0, wide_module: 0,
    wide_imports: 0, many_arguments: 0, long_signature: 0, long_function_type: 0,
    many_functions: 0, shared_parameters: 0, long_name: 0, long_escapes: 0, names_that_share_a_front: 0, deep_json: 1,
    deepest_json: 1, wide_json: 1, widest_record: 0, many_entries: 0, doubling_tuples: 0, entry_names_itself: 1,
    nested_components: 0, components_in_a_row: 0, open_components: 1, aliases_across_levels: 1, things_across_levels: 1,
    aliases_at_each_level: 1, names_in_a_bag: 0, names_of_arguments: 1, bag_of_arguments: 0, bag_taken_twice: 0,
    bag_taken_often: 0, imports_of_many_homes: 0, imports_of_shared_homes: 0, bag_of_aliases: 0,
    small_bags: 0, many_instances: 0, instances_with_a_long_name: 0, aliases_of_one_export: 0, aliases_of_each_kind: 0,
    equal_lowerings: 0, lowerings_apart: 0, used_lowerings: 0, chain_of_lowerings: 0, chain_of_arguments: 0,
    equal_adapters: 0, adapters_apart: 0, used_adapters: 0, chain_of_adapters: 0, chain_of_unused_adapters: 0,
    adapters_in_two_layers: 0, an_adapter_of_many_instances: 0, adapters_of_a_long_type: 0, adapters_of_many_types: 0,
    adapters_of_adapters: 0, chain_of_relays: 0, destructors_that_are_adapters: 0, adapters_of_strings: 0,
    adapters_with_many_imports: 0, an_adapter_without_memory: 1, adapters_over_wide_records: 0, unused_imports: 0, used_imports: 0, long_signature_lowered: 0, equal_builtins: 0, builtins_apart: 0,
    used_builtins: 0, results_of_tasks: 0, context_slots: 0, lowered_intrinsics: 0,
    builtins_of_one_resource: 0, builtins_of_many_resources: 0, reads_of_many_streams: 0, reads_of_a_long_type: 0,
    waits_on_one_memory: 0, used_waits: 0, threads_in_children: 0, long_result_in_children: 0,
    long_result_of_handles_in_children: 0, an_unknown_intrinsic: 1, lifts_with_post_return: 0, options_in_one_slot: 0,
    options_of_one_function: 0, repeated_options: 0, versions_of_one_name: 0, exports_that_hash_alike: 0,
    module_names_that_hash_alike: 0, bag_that_hashes_alike: 0, arguments_that_hash_alike: 0, imports_that_hash_alike: 0,
    types_that_hash_alike: 0, many_children: 0, children_over_a_long_table: 0, children_with_a_long_type: 0,
    children_in_children: 0, child_of_itself: 1, children_with_arguments: 0, child_with_imports: 0,
    exports_of_a_child: 0, items_of_an_instance: 0, instances_of_instances: 0, aliases_of_one_member: 0,
    captures_of_a_child: 0, captures_at_each_level: 0, children_with_a_long_name: 0, children_with_a_long_argument: 0,
    children_with_a_long_alias: 0, children_with_a_long_bag: 0, children_with_a_long_core_export: 0,
    children_with_a_long_host_name: 0, children_with_a_long_resource: 0, children_with_a_long_label: 0,
    children_with_a_wide_type: 0, lowerings_over_a_long_host_memory: 0, equal_adapters_of_a_long_host_function: 0,
    equal_adapters_of_many_aliases: 0, equal_adapters_of_own_aliases: 0, equal_adapters_of_equal_lowerings: 0,
    children_with_a_long_host_memory: 0, children_with_a_long_adapter: 0, adapters_of_a_long_host_memory: 0,
    children_of_many_instances: 0, children_of_many_builtins: 0, captures_in_children: 0,
    many_resources: 0, resources_with_destructors: 0,
    imported_resources: 0, one_resource_imported_often: 0, children_with_a_resource: 0, children_given_a_resource: 0,
    resources_between_long_types: 0, resources_between_long_handles: 0, resources_known_after_use: 0,
    doubling_instance_imported: 0,
    deep_doubling_instance_imported: 1,
    functions_of_a_host_instance: 0, instances_of_a_host_instance: 0, chain_of_host_instances: 0, host_modules: 0, wide_host_module: 0, exported_instance: 0, exported_instances: 0,
    exported_host_instance: 0, refusal_in_a_tree: 1, refusal_behind_a_tree: 1, refusal_in_a_host_tree: 1,
    exported_types: 0, exported_modules: 0, deep_export_of_a_module: 0, many_ends: 1, not_utf8: 1,
}


# The most MiB of the families whose total grows with the square of the input: a larger input of these comes to
# 4294967295, so it is refused: before anything is read, or, with very many instances of a component, once so many have
# begun. A type number weighs three times the entries of the table, and an instance of a core module weighs the most
# imports of one. Of the last one, no total counts the parameters of a function type: with one MiB it takes 8 GiB.
MOST_MIB = {
    many_functions: 3, shared_parameters: 4, imports_of_many_homes: 7, imports_of_shared_homes: 10,
    adapters_of_many_types: 2.5, results_of_tasks: 1.5, builtins_of_many_resources: 1.5, reads_of_many_streams: 1.5,
    reads_of_a_long_type: 1.5, used_waits: 11, long_result_in_children: 1, types_that_hash_alike: 4,
    long_result_of_handles_in_children: 1.5, children_of_many_instances: 0.6, children_of_many_builtins: 1.1,
    children_over_a_long_table: 1, children_with_a_long_type: 1, many_resources: 1.5, imported_resources: 1,
    resources_between_long_types: 1.5, resources_between_long_handles: 1.5, resources_known_after_use: 1.5,
    children_with_a_wide_type: 0.5,
}


# the families that are made for another word than `translate`: the plan's text of this one has each path in full
WORDS = {deep_export_of_a_module: "facts"}


def write(family, size, path):
    """Writes an input of at most so many bytes."""
    with open(path, "wb") as out:
        for piece in family(size - 65536):
            out.write(piece if isinstance(piece, bytes) else piece.encode())
    length = os.path.getsize(path)
    if length > size:
        sys.exit("%s: %d bytes, more than %d" % (family.__name__, length, size))
    return length


def make(family, mib, path):
    """Makes an input of a family, of at most so many MiB or of as many as its total lets it have: how many it has."""
    most = min(mib, MOST_MIB.get(family, mib))
    return write(family, int(most * (1 << 20)), path) / (1 << 20)


def measured(command, path, out, limits=None):
    """The status of a command that reads a file, the seconds of processor time and the MiB at the peak."""
    with open(path, "rb") as src:
        child = subprocess.Popen(command, stdin=src, stdout=out, stderr=subprocess.DEVNULL, preexec_fn=limits)
        _, code, used = os.wait4(child.pid, 0)
        child.returncode = os.waitstatus_to_exitcode(code)
    return child.returncode, used.ru_utime + used.ru_stime, used.ru_maxrss / 1024


def run(program, word, path, seconds, gib):
    """The status, the first line, the seconds of processor time and the MiB at the peak."""
    def limits():
        resource.setrlimit(resource.RLIMIT_CPU, (seconds, seconds + 1))
        resource.setrlimit(resource.RLIMIT_AS, (gib << 30, gib << 30))
    with tempfile.TemporaryFile() as out:
        status, time, peak = measured([program, word], path, out, limits)
        out.seek(0)
        line = out.readline(60).decode(errors="replace").rstrip("\n")
        return status, line, time, peak


def main():
    parser = argparse.ArgumentParser(description="Runs the program on large and hostile inputs.")
    parser.add_argument("program")
    parser.add_argument("families", nargs="*", metavar="FAMILY")
    parser.add_argument("--mib", type=float, default=64)
    parser.add_argument("--seconds", type=int, default=60)
    parser.add_argument("--gib", type=int, default=8)
    parser.add_argument("--word", help="the word for all families")
    parser.add_argument("--keep", metavar="FOLDER", help="keep the inputs there")
    args = parser.parse_intermixed_args()
    chosen = [f for f in FAMILIES if not args.families or f.__name__ in args.families]
    folder = args.keep or tempfile.mkdtemp()
    os.makedirs(folder, exist_ok=True)
    worse = 0
    print("%-38s %6s %7s %8s %9s %8s  %s" % ("family", "status", "MiB", "seconds", "peak MiB", "s/MiB", "first line"))
    for family in chosen:
        path = os.path.join(folder, family.__name__ + ".json")
        word = args.word or WORDS.get(family, "translate")
        size = make(family, args.mib, path)
        status, line, seconds, peak = run(os.path.abspath(args.program), word, path, args.seconds, args.gib)
        wrong = "" if status == FAMILIES[family] else "   <- expected status %d" % FAMILIES[family]
        worse += bool(wrong)
        figures = (family.__name__, status, size, seconds, peak, seconds / size, line, wrong)
        print("%-38s %6d %7.1f %8.2f %9.0f %8.3f  %s%s" % figures, flush=True)
        if not args.keep:
            os.remove(path)
    sys.exit(1 if worse else 0)


if __name__ == "__main__":
    main()
