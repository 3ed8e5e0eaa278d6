"""Reads an accepted source, as docs/LANGUAGE.md says under "Sources" and "Expressions"."""
import re
import sys

SKIP = r"\s+|//[^\n]*"
TOKEN = r'"(?:\\.|[^"\\\n])*"|[A-Za-z_]\w*|\d+|:=|->|==|!=|<=|&&|\|\||[{}()\[\],;:.=|@+\-*/<!]'
LEVELS = (("||",), ("&&",), ("==", "!=", "<", "<="), ("+", "-"), ("*", "/"))
ENDS = ("end", "call", "if")


class Reader:
    """Reads a source. A statement is a tuple whose first word says what it is, and a block a list of these."""

    def __init__(self, text):
        self.tokens = [found[0] for found in re.finditer(f"{SKIP}|{TOKEN}", text) if not re.match(SKIP, found[0])]
        self.here = 0
        self.channels, self.procedures, self.capacity = {}, {}, None

    def look(self, ahead=0):
        return self.tokens[self.here + ahead]

    def take(self, wanted=None):
        token = self.look()
        if wanted not in (None, token):
            sys.exit(f"plain_run: {token} in the place of {wanted}")
        self.here += 1
        return token

    def has(self, token):
        if self.look() == token:
            self.here += 1
            return True
        return False

    def skip_past(self, last):
        while self.take() != last:
            pass

    def listed(self, item, last):
        """Items between commas, up to a token that comes after them."""
        items = []
        while self.look() not in last:
            items.append(item())
            self.has(",")
        return items

    def part(self):
        process = self.take()
        self.take("[")
        role = self.take()
        self.take("]")
        return process, role

    def header(self):
        """The first lines of a source that begins with `chor 2;`, and the capacity of its queues, if they declare one."""
        if self.has("chor"):
            self.skip_past(";")
            if self.has("capacity"):
                self.capacity = int(self.take())
                self.take(";")

    def source(self):
        self.header()
        while (unit := self.take()) != "main":
            if unit == "protocol":
                self.skip_past("{")
                self.skip_protocol()
            else:
                self.service() if unit == "service" else self.procedure()
        self.take("(")
        self.processes = self.listed(self.take, ")")
        self.take(")")
        self.main = self.block()
        return self

    def skip_protocol(self):
        depth = 1
        while depth:
            token = self.take()
            depth += (token == "{") - (token == "}")

    def service(self):
        name = self.take()
        self.skip_past("(")
        active = self.listed(self.take, "|)")
        new = self.listed(self.take, ")") if self.has("|") else []
        self.skip_past(";")
        self.channels[name] = active, new

    def procedure(self):
        name = self.take()
        self.take("(")
        parameters = self.listed(self.parameter, ";)")
        sessions = self.listed(self.session, ")") if self.has(";") else []
        self.take(")")
        self.procedures[name] = parameters, sessions, self.block()

    def parameter(self):
        name = self.take()
        if self.look() == "(":
            self.skip_past(")")
        return name

    def session(self):
        name = self.take()
        self.skip_past("{")
        holders = self.listed(lambda: (self.take(), self.take("="), self.take())[2], "}")
        self.take("}")
        return name, holders

    def block(self):
        self.take("{")
        statements = []
        while self.look() not in ENDS:
            statements.append(self.statement())
            self.take(";")
        statements.append(self.tail())
        self.take("}")
        return statements

    def tail(self):
        kind = self.take()
        if kind == "end":
            return (kind,)
        name = self.take()
        if kind == "call":
            self.take("(")
            processes = self.listed(self.take, ";)")
            sessions = self.listed(self.take, ")") if self.has(";") else []
            self.take(")")
            return kind, name, processes, sessions
        self.take(".")
        condition, first = self.expression(), self.block()
        self.take("else")
        return kind, name, condition, first, self.block()

    def statement(self):
        if self.has("start"):
            channel = self.take()
            self.take("(")
            session = self.take()
            self.skip_past(":")
            active = self.listed(self.part, ("new", ";"))
            return "start", channel, session, active, self.listed(self.part, ";") if self.has("new") else []
        return self.own() if self.look(1) in (".", "show") else self.message()

    def own(self):
        process = self.take()
        if self.has("show"):
            return process, "show", self.expression()
        self.take(".")
        variable = self.take()
        self.take(":=")
        if not self.has("host"):
            return process, "set", variable, self.expression()
        function = self.take()
        self.take("(")
        left, _, right, _ = self.expression(), self.take(","), self.expression(), self.take(")")
        return process, "host", variable, function, left, right

    def message(self):
        sender = self.part()
        value = self.expression() if self.has(".") else None
        self.take("->")
        receiver = self.part()
        if value is not None:
            self.take(".")
            variable, _, session = self.take(), self.take(":"), self.take()
            return "message", sender, receiver, session, ("send", value), ("recv", variable)
        self.take(":")
        session = self.take()
        if self.has("."):
            label = self.take()
            return "message", sender, receiver, session, ("pick", label), ("branch", label)
        self.take("(")
        (given, _), _ = self.part(), self.take(")")
        return "message", sender, receiver, session, ("give", given), ("gain", given)

    def expression(self, level=0):
        if level == len(LEVELS):
            return self.operand()
        left = self.expression(level + 1)
        while self.look() in LEVELS[level]:
            left = self.take(), left, self.expression(level + 1)
        return left

    def operand(self):
        token = self.take()
        if token in ("-", "!"):
            return token, self.operand()
        if token == "(":
            inner, _ = self.expression(), self.take(")")
            return inner
        if token.isdigit():
            return int(token)
        return token == "true" if token in ("true", "false") else ("text" if token[0] == '"' else "variable", token)
