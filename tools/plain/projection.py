"""What each process does by itself, as docs/LANGUAGE.md says under "Endpoint programs"."""
import sys

from plain.reader import ENDS


class Projection:
    """The code of each process: a list of nodes, the last of which ends it."""

    def __init__(self, source):
        self.source = source
        self.services = {}
        for block in [source.main, *(body for _, _, body in source.procedures.values())]:
            self.put_services(block)

    def put_services(self, block):
        for place, statement in enumerate(block):
            if statement[0] == "start":
                _, channel, session, _, new = statement
                for process, role in new:
                    code = self.code(block[place + 1 :], process, {session: channel})
                    known = self.services.get((channel, role))
                    self.services[channel, role] = self.merged(known, code) if known else code
            elif statement[0] == "if":
                self.put_services(statement[3])
                self.put_services(statement[4])

    def code(self, block, process, names=None):
        """The code of a process, whose sessions bear other names where `names` says so."""
        names = names or {}
        statement, *rest = block
        if statement[0] in ENDS:
            return self.last(statement, process, names)
        node = self.node(statement, process, lambda session: names.get(session, session))
        if node is None:
            return self.code(rest, process, names)
        if node[0] == "branch":
            return [(*node[:3], {node[3]: self.code(rest, process, names)})]
        return [node, *self.code(rest, process, names)]

    def node(self, statement, process, named):
        if statement[0] == process:
            return statement[1:]
        if statement[0] == "start":
            _, channel, session, active, _ = statement
            return next((("join", channel, role, named(session)) for each, role in active if each == process), None)
        if statement[0] == "message":
            _, (sender, own), (receiver, other), session, sent, received = statement
            if process in (sender, receiver):
                (kind, what), partner = (sent, other) if process == sender else (received, own)
                return kind, named(session), partner, named(what) if kind in ("give", "gain") else what
        return None

    def last(self, statement, process, names):
        if statement[0] == "if":
            _, decider, condition, *blocks = statement
            first, second = (self.code(block, process, names) for block in blocks)
            return [("if", condition, first, second)] if process == decider else self.merged(first, second)
        if statement[0] == "call" and process in statement[2]:
            _, name, processes, sessions = statement
            parameters, declared, _ = self.source.procedures[name]
            parameter = parameters[processes.index(process)]
            passed = [names.get(each, each) for each, (_, holders) in zip(sessions, declared) if parameter in holders]
            return [("call", name, parameter, passed)]
        return [("end",)]

    def merged(self, left, right):
        if left == right:
            return left
        (first, *rest), (second, *other) = left, right
        if first == second:
            return [first, *self.merged(rest, other)]
        if first[:3] == second[:3] and first[0] == "branch":
            arms = dict(first[3])
            for label, code in second[3].items():
                arms[label] = self.merged(arms[label], code) if label in arms else code
            return [(*first[:3], arms)]
        if first[:2] == second[:2] and first[0] == "if":
            return [(*first[:2], *map(self.merged, first[2:], second[2:]))]
        sys.exit(f"plain_run: {first} and {second} don't merge")
