"""Reads endpoint files: channels, and the code of processes, services and procedures. The program has checked them."""
import re
from dataclasses import dataclass, field

from lib.program import fail

TOKEN = re.compile(r'\s*(?://[^\n]*\s*)*([A-Za-z_][A-Za-z0-9_]*|[0-9]+|"(?:[^"\\\n]|\\.)*"|:=|->|==|!=|<=|&&|\|\||[{}()\[\],;:.=|@+\-*/<!])')
# The operators with two operands, from those that bind least; comparisons don't group.
OPERATORS = (("||",), ("&&",), ("==", "!=", "<", "<="), ("+", "-"), ("*", "/"))
COMPARISONS = 2
# How many names a node has after its first word, and whether an expression comes then.
NODES = {"send": (2, True), "recv": (3, False), "pick": (3, False), "give": (3, False), "gain": (3, False), "set": (1, True), "show": (0, True)}


@dataclass
class Programs:
    """`channels[a]` are the active roles and the service roles of channel a; `services[a, S]`, `procedures[F, p]`, the latter
    with the names of its sessions, and `processes` are codes: lists of nodes, of which each is a tuple that begins with its word."""
    channels: dict = field(default_factory=dict)
    services: dict = field(default_factory=dict)
    procedures: dict = field(default_factory=dict)
    processes: list = field(default_factory=list)


class Reader:
    def __init__(self, text):
        self.tokens, place = [], 0
        while found := TOKEN.match(text, place):
            self.tokens.append(found[1])
            place = found.end()
        self.place = 0

    def peek(self):
        return self.tokens[self.place] if self.place < len(self.tokens) else ""

    def take(self, wanted=None):
        token = self.peek()
        if wanted and token != wanted:
            fail(f"endpoint programs: `{wanted}` should come after `{' '.join(self.tokens[max(self.place - 6, 0):self.place])}`")
        self.place += 1
        return token

    def takes(self, token):
        return self.peek() == token and bool(self.take())

    def names(self, end):
        """Names up to the token `end`, which is taken too."""
        found = []
        while not self.takes(end):
            found.append(self.take())
            self.takes(",")
        return found

    def programs(self):
        self.take("endpoints")
        self.take()
        self.take(";")
        found = Programs()
        while self.peek():
            self.unit(found)
        return found

    def unit(self, found):
        word, name = self.take(), self.take()
        if word == "channel":
            self.take("(")
            names = self.names(")")
            bar = names.index("|") if "|" in names else len(names)
            found.channels[name] = (names[:bar], names[bar + 1:])
            self.take(";")
        elif word == "procedure":
            parameter = self.take()
            self.take("(")
            found.procedures[name, parameter] = (self.names(")"), self.body())
        elif word == "service":
            self.take("[")
            role = self.take()
            self.take("]")
            found.services[name, role] = self.body()
        else:
            found.processes.append((name, self.body()))

    def body(self):
        self.take("{")
        nodes = []
        while not self.takes("}"):
            nodes.append(self.node())
            self.takes(";")
        return nodes

    def node(self):
        word = self.take()
        if word in NODES:
            names, has_expression = NODES[word]
            return (word, *(self.take() for _ in range(names)), *([self.expression()] if has_expression else []))
        return getattr(self, f"node_{word}")()

    def node_end(self):
        return ("end",)

    def node_join(self):
        channel, _, role, _, _, session, _ = (self.take() for _ in range(7))
        return ("join", channel, role, session)

    def node_host(self):
        variable, function, _ = self.take(), self.take(), self.take("(")
        left, _, right, _ = self.expression(), self.take(","), self.expression(), self.take(")")
        return ("host", variable, function, left, right)

    def node_branch(self):
        session, role, _, arms = self.take(), self.take(), self.take("{"), {}
        while not self.takes("}"):
            label = self.take()
            arms[label] = self.body()
        return ("branch", session, role, arms)

    def node_if(self):
        condition, first, _ = self.expression(), self.body(), self.take("else")
        return ("if", condition, first, self.body())

    def node_call(self):
        name, parameter, _ = self.take(), self.take(), self.take("(")
        return ("call", name, parameter, self.names(")"))

    def expression(self, level=0):
        """A literal, (operator, operand) or (operator, left, right)."""
        if level == len(OPERATORS):
            return self.operand()
        left = self.expression(level + 1)
        while self.peek() in OPERATORS[level]:
            left = (self.take(), left, self.expression(level + 1))
            if level == COMPARISONS:
                break
        return left

    def operand(self):
        token = self.take()
        if token in ("-", "!"):
            return (token, self.operand())
        if token == "(":
            inner = self.expression()
            self.take(")")
            return inner
        return token


def read_programs(text):
    return Reader(text).programs()
