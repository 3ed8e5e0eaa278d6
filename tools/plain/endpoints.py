"""Endpoint files of a source's projection, changes of them, and linking, as docs/LANGUAGE.md says under "Linked programs".

A unit is a pair: the words of its name, the first of which is its kind, and what it is. A channel is its active roles and its
service roles, a procedure its sessions and its code, a service or a process its code. Codes are lists of nodes, as
lib/endpoint_text.py reads them.
"""
from lib.endpoint_text import Reader as EndpointReader
from plain.projection import Projection

KINDS = ("channel", "procedure", "service", "process")


def shown(term):
    """An expression as it is written, with parentheses around each operand that has operands."""
    if isinstance(term, bool):
        return "true" if term else "false"
    if not isinstance(term, tuple):
        return str(term)
    if term[0] in ("text", "variable"):
        return term[1]
    operands = [f"({shown(each)})" if isinstance(each, tuple) and each[0] not in ("text", "variable") else shown(each) for each in term[1:]]
    return term[0] + operands[0] if len(operands) == 1 else f" {term[0]} ".join(operands)


def node_text(node):
    kind, *rest = node
    if kind == "join":
        return "join {}[{}]({});".format(*rest)
    if kind == "branch":
        session, role, arms = rest
        return f"branch {session} {role} {{ {' '.join(f'{label} {block_text(arm)}' for label, arm in arms.items())} }}"
    if kind == "if":
        condition, first, second = rest
        return f"if {shown(condition)} {block_text(first)} else {block_text(second)}"
    if kind == "host":
        variable, function, left, right = rest
        return f"host {variable} {function}({shown(left)}, {shown(right)});"
    if kind == "call":
        name, parameter, sessions = rest
        return f"call {name} {parameter} ({', '.join(sessions)})"
    return "end" if kind == "end" else " ".join([kind, *map(shown, rest)]) + ";"


def block_text(code):
    return f"{{ {' '.join(map(node_text, code))} }}"


def unit_name(name):
    kind, *words = name
    return f"service {words[0]}[{words[1]}]" if kind == "service" else " ".join(name)


def unit_text(unit):
    name, what = unit
    if name[0] == "channel":
        active, services = what
        return f"{unit_name(name)} ({', '.join(active)}{' | ' + ', '.join(services) if services else ''});"
    if name[0] == "procedure":
        sessions, code = what
        return f"{unit_name(name)} ({', '.join(sessions)}) {block_text(code)}"
    return f"{unit_name(name)} {block_text(what)}"


def file_text(units):
    return "\n".join(["endpoints 1;", *map(unit_text, units), ""])


def projected(source):
    """The units of a source's projection, as they are read from their text."""
    projection = Projection(source)
    started = {node[1] for block in blocks(source) for node in block if node[0] == "start"}
    units = [(("channel", name), roles) for name, roles in source.channels.items() if name in started]
    for name, (parameters, declared, body) in source.procedures.items():
        for each in parameters:
            sessions = [session for session, holders in declared if each in holders]
            units.append((("procedure", name, each), (sessions, projection.code(body, each))))
    units += [(("service", *name), code) for name, code in projection.services.items()]
    units += [(("process", each), projection.code(source.main, each)) for each in source.processes]
    return read(file_text(units))


def blocks(source):
    """All blocks of a source, those of its conditionals too."""
    found = [source.main, *(body for _, _, body in source.procedures.values())]
    for block in found:
        if block[-1][0] == "if":
            found += block[-1][3:]
    return found


def read(text):
    programs = EndpointReader(text).programs()
    return [
        *((("channel", name), what) for name, what in programs.channels.items()),
        *((("procedure", *name), what) for name, what in programs.procedures.items()),
        *((("service", *name), what) for name, what in programs.services.items()),
        *((("process", name), what) for name, what in programs.processes),
    ]


def needed(units, names):
    """The units of these names, and all that must be in a file with them: the channels that they name with their services, and the
    procedures that they call."""
    kept, found = set(), list(names)
    while found:
        name = found.pop()
        if name in kept:
            continue
        kept.add(name)
        what = dict(units)[name]
        if name[0] == "channel":
            found += [("service", name[1], role) for role in what[1]]
            continue
        found += [("channel", name[1])] if name[0] == "service" else []
        for node in all_nodes(code_of((name, what))):
            found += [("channel", node[1])] if node[0] == "join" else []
            found += [("procedure", node[1], node[2])] if node[0] == "call" else []
    return [unit for unit in units if unit[0] in kept]


def code_of(unit):
    name, what = unit
    return what[1] if name[0] == "procedure" else what


def with_code(unit, code):
    name, what = unit
    return name, (what[0], code) if name[0] == "procedure" else code


def ways_on(node):
    """The codes of a node with which its process may go on, by what they are called."""
    if node[0] == "branch":
        return node[3]
    return {"first": node[2], "second": node[3]} if node[0] == "if" else {}


def with_ways_on(node, ways):
    if node[0] == "branch":
        return (*node[:3], ways)
    return (*node[:2], *ways.values()) if node[0] == "if" else node


def all_nodes(code):
    for node in code:
        yield node
        for way in ways_on(node).values():
            yield from all_nodes(way)


def changes(code, change):
    """Each code with one branch changed, by each of its changes, and what the change is."""
    for place, node in enumerate(code):
        fresh = list(change(node)) if node[0] == "branch" else []
        for label, way in ways_on(node).items():
            fresh += [(what, with_ways_on(node, {**ways_on(node), label: each})) for what, each in changes(way, change)]
        yield from ((what, [*code[:place], each, *code[place + 1 :]]) for what, each in fresh)


def changed(code, change):
    """The code with all its branches changed."""
    fresh = []
    for node in code:
        node = with_ways_on(node, {label: changed(way, change) for label, way in ways_on(node).items()})
        fresh.append(change(node) if node[0] == "branch" else node)
    return fresh


def is_above(code, base):
    """Whether the code offers at least the branches of the base, and is like it in all else."""
    if len(code) != len(base):
        return False
    return all(is_node_above(node, other) for node, other in zip(code, base))


def is_node_above(node, base):
    if node[0] == base[0] == "branch":
        return node[:3] == base[:3] and all(label in node[3] and is_above(node[3][label], arm) for label, arm in base[3].items())
    if node[0] == base[0] == "if":
        return node[1] == base[1] and is_above(node[2], base[2]) and is_above(node[3], base[3])
    return node == base


def suits(unit, base):
    name, what = unit
    if name[0] == "channel":
        return what == base
    if name[0] == "procedure":
        return what[0] == base[0] and is_above(what[1], base[1])
    return is_above(what, base)


def link_fault(units, base):
    """The rule that the first unit violates which can't take its place among those of the base, and its name, if there is one."""
    places = dict(base)
    for unit in sorted(units, key=lambda unit: KINDS.index(unit[0][0])):
        if unit[0] not in places:
            return f"K2 {unit_name(unit[0])}"
        if not suits(unit, places[unit[0]]):
            return f"K1 {unit_name(unit[0])}"
    return None
