"""A network of endpoint programs: what each process waits for, and which events can come next. It only proposes: the program's
`replay` says whether an event may follow."""
from dataclasses import dataclass, field
from itertools import product

from lib.program import fail
from lib.values import HOSTS, number_of, text_of, truth_of, value_of


@dataclass
class Process:
    """`code` is what it has still to do; `sessions` says which session it is in by each of its names, and in which role."""
    name: str
    code: list
    variables: dict = field(default_factory=dict)
    sessions: dict = field(default_factory=dict)


@dataclass
class Move:
    """An event that can come next, and what it does to the network."""
    text: str
    act: object


class Network:
    def __init__(self, programs, capacity=None):
        self.programs, self.capacity = programs, capacity
        self.processes = [Process(name, self.entered(code, {})[0]) for name, code in programs.processes]
        self.queues = {}
        self.started = 0

    def entered(self, code, sessions):
        """The code with the body in the place of a call that it begins with, and the sessions that the body has."""
        while code and code[0][0] == "call":
            _, name, parameter, passed = code[0]
            names, body = self.programs.procedures[name, parameter]
            code, sessions = body, dict(zip(names, (sessions[each] for each in passed)))
        return code, sessions

    def go_on(self, process, code):
        process.code, process.sessions = self.entered(code, process.sessions)

    def moves(self):
        """All events that can come next, in the order of the processes; a start is listed at its first process."""
        found = []
        for process in self.processes:
            word, *parts = process.code[0]
            found += getattr(self, f"moves_{word}")(process, *parts)
        return found

    def lane(self, process, session, other, is_sender):
        number, role = process.sessions[session]
        return (number, role, other) if is_sender else (number, other, role)

    def move(self, process, text, code=None, act=lambda: None):
        """A move of one process, after which it goes on with the code, or with what follows its first node."""
        def done():
            act()
            self.go_on(process, process.code[1:] if code is None else code)
        return [Move(text, done)]

    def moves_end(self, process):
        return []

    def moves_set(self, process, variable, expression):
        value = value_of(expression, process.variables)
        return self.move(process, f"set {process.name} {variable} {text_of(value)}", act=lambda: process.variables.update({variable: value}))

    def moves_show(self, process, expression):
        return self.move(process, f"show {process.name} {text_of(value_of(expression, process.variables))}")

    def moves_if(self, process, condition, first, second):
        is_true = truth_of(value_of(condition, process.variables))
        return self.move(process, f"test {process.name} {text_of(is_true)}", code=first if is_true else second)

    def moves_host(self, process, variable, function, left, right):
        if function not in HOSTS:
            fail(f"this tool doesn't know what the host function {function} answers")
        a, b = (number_of(value_of(each, process.variables)) for each in (left, right))
        value = HOSTS[function](a, b)
        text = f"host {process.name} {variable} {function} {a} {b} {value}"
        return self.move(process, text, act=lambda: process.variables.update({variable: value}))

    def is_full(self, lane):
        return self.capacity is not None and len(self.queues.get(lane, [])) >= self.capacity

    def put(self, process, kind, session, other, load, act=lambda: None):
        lane = self.lane(process, session, other, True)
        if self.is_full(lane):
            return []

        def done():
            self.queues.setdefault(lane, []).append(load)
            act()
        return self.move(process, f"{kind} {process.name} {written(lane)} {load_text(load)}", act=done)

    def moves_send(self, process, session, other, expression):
        return self.put(process, "send", session, other, ("value", value_of(expression, process.variables)))

    def moves_pick(self, process, session, other, label):
        return self.put(process, "pick", session, other, ("label", label))

    def moves_give(self, process, session, other, given):
        return self.put(process, "give", session, other, ("role", process.sessions[given]), act=lambda: process.sessions.pop(given))

    def taken(self, process, session, other, kind):
        """The first message of a queue, where it is of the kind that is asked."""
        lane = self.lane(process, session, other, False)
        load = self.queues.get(lane, [None])[0] if self.queues.get(lane) else None
        return (lane, load) if load and load[0] == kind else (lane, None)

    def moves_recv(self, process, session, other, variable):
        lane, load = self.taken(process, session, other, "value")
        return self.take(process, "recv", lane, load, lambda: process.variables.update({variable: load[1]})) if load else []

    def moves_gain(self, process, session, other, name):
        lane, load = self.taken(process, session, other, "role")
        return self.take(process, "gain", lane, load, lambda: process.sessions.update({name: load[1]})) if load else []

    def moves_branch(self, process, session, other, arms):
        lane, load = self.taken(process, session, other, "label")
        return self.take(process, "branch", lane, load, lambda: None, arms[load[1]]) if load and load[1] in arms else []

    def take(self, process, kind, lane, load, act, code=None):
        def done():
            self.queues[lane].pop(0)
            act()
        return self.move(process, f"{kind} {process.name} {written(lane)} {load_text(load)}", code, done)

    def joiners(self, channel, role):
        return [each for each in self.processes if each.code[0][:3] == ("join", channel, role)]

    def moves_join(self, process, channel, role, _):
        """Each way to start a session of the channel with this process; it is said at who joins in the first role."""
        active, services = self.programs.channels[channel]
        if role != active[0]:
            return []
        others = product(*(self.joiners(channel, each) for each in active[1:]))
        return [self.start(channel, (process, *each), active, services) for each in others]

    def start(self, channel, joined, active, services):
        number = self.started
        made = [Process(f"%{len(self.processes) + place}", []) for place in range(len(services))]
        roles = [*zip(active, joined), *zip(services, made)]

        def done():
            self.started += 1
            for role, process in zip(active, joined):
                process.sessions[process.code[0][3]] = (number, role)
                self.go_on(process, process.code[1:])
            for role, process in zip(services, made):
                self.processes.append(process)
                process.sessions[channel] = (number, role)
                self.go_on(process, self.programs.services[channel, role])
        return Move(f"start {channel} #{number} {' '.join(f'{role}={process.name}' for role, process in roles)}", done)

    def has_ended(self):
        return all(process.code[0][0] == "end" for process in self.processes)

    def situation(self, process):
        """What a process does next, or waits for."""
        word, *parts = process.code[0]
        if word == "end":
            return "has ended"
        if word == "join":
            absent = [role for role in self.programs.channels[parts[0]][0] if role != parts[1] and not self.joiners(parts[0], role)]
            return f"joins channel {parts[0]} as {parts[1]}" + (f", waits for {', '.join(absent)}" if absent else "")
        if word in ("recv", "branch", "gain"):
            lane = self.lane(process, parts[0], parts[1], False)
            waiting = [load_text(load) for load in self.queues.get(lane, [])]
            return f"waits for a message {written(lane)}" if not waiting else f"has a message {written(lane)}: {', '.join(waiting)}"
        if word in ("send", "pick", "give"):
            lane = self.lane(process, parts[0], parts[1], True)
            return f"waits for room to send, {written(lane)}" if self.is_full(lane) else f"has a message to send, {written(lane)}"
        return {"if": "has to decide", "set": "sets a variable", "show": "shows a value", "host": "asks a host function"}[word]


def written(lane):
    return f"#{lane[0]} {lane[1]}>{lane[2]}"


def load_text(load):
    kind, content = load
    if kind == "role":
        return f"#{content[0]}.{content[1]}"
    return text_of(content) if kind == "value" else content
