"""Reads the protocols and channels of a source, and judges logs by them, straight from what the manual says of protocols, views
and logs: what a role knows of a session is the set of states in which it may be."""
import re
from dataclasses import dataclass, field

from lib.transcript import NAME, event_of

WORD = re.compile(rf"{NAME}|->|[^\s]")
CLOSES = re.compile(r"(end|limit) (0|[1-9][0-9]*)")


@dataclass
class Protocol:
    """The steps of each state. A step is the sender, the receiver, what is told of the content, and the state after it."""
    roles: list
    steps: dict
    first: str


@dataclass
class Session:
    """A session: its protocol, and for each role the states in which it may be."""
    protocol: Protocol
    name: str
    stands: dict = field(default_factory=dict)


def content_of(words):
    """What is told of a payload: its sort, or of an endpoint its protocol and its role. The words of the payload are taken."""
    first = words.pop(0)
    if first in ("int", "bool", "text"):
        return first
    del words[0:1]
    words.pop(0)
    del words[0:1]
    return f"{first}@{words.pop(0)}"


def steps_of(words):
    """The steps of a state; the words up to the semicolon are taken."""
    if words[0] == "end":
        del words[0:2]
        return []
    sender, receiver = words[0], words[2]
    del words[0:3]
    if words.pop(0) == ":":
        content = content_of(words)
        after = words[1]
        del words[0:3]
        return [(sender, receiver, content, after)]
    steps = []
    while words[0] != ";":
        steps.append((sender, receiver, f".{words[0]}", words[2]))
        del words[0:4]
    words.pop(0)
    return steps


def protocol_of(words):
    """A protocol, whose words after its name are taken."""
    roles = names_in(words, ")")
    words.pop(0)
    steps = {}
    while words[0] != "}":
        state = words[0]
        del words[0:2]
        steps[state] = steps_of(words)
    words.pop(0)
    return Protocol(roles, steps, next(iter(steps)))


def names_in(words, last):
    """The names in brackets that come first; they are taken."""
    place = words.index(last)
    names = [word for word in words[:place] if re.fullmatch(NAME, word)]
    del words[: place + 1]
    return names


class Log:
    """The protocols and channels of a source, and the sessions of a log of it."""

    def __init__(self, source):
        words = WORD.findall(re.sub(r"//[^\n]*", "", source))
        while words and words[0] in ("chor", "capacity"):
            del words[: words.index(";") + 1]
        self.protocols, self.channels = {}, {}
        while words and words[0] in ("protocol", "service"):
            kind, name = words[0], words[1]
            del words[0:2]
            if kind == "protocol":
                self.protocols[name] = protocol_of(words)
            else:
                protocol = words[1]
                del words[0:2]
                self.channels[name] = (protocol, names_in(words, ")"))
                words.pop(0)
        self.sessions, self.lanes = [], {}

    def still(self, protocol, role, states):
        """These states, and all to which others can go on without the role."""
        found, new = set(states), list(states)
        while new:
            for sender, receiver, _, after in protocol.steps[new.pop()]:
                if role not in (sender, receiver) and after not in found:
                    found.add(after)
                    new.append(after)
        return found

    def starts(self, event):
        """Whether a session may start so; then it does."""
        if event.channel not in self.channels or event.session != f"#{len(self.sessions)}":
            return False
        name, roles = self.channels[event.channel]
        if [role for role, _ in event.roles] != roles:
            return False
        protocol = self.protocols[name]
        stands = {role: self.still(protocol, role, {protocol.first}) for role in protocol.roles}
        self.sessions.append(Session(protocol, name, stands))
        return True

    def told(self, event):
        """What is told of what an event carries, or None."""
        if event.kind in ("pick", "branch"):
            return f".{event.load}"
        if event.kind in ("give", "gain"):
            session, role = event.load[1:].split(".")
            return f"{self.sessions[int(session)].name}@{role}" if int(session) < len(self.sessions) else None
        if event.load in ("true", "false"):
            return "bool"
        return "text" if event.load.startswith('"') else "int"

    def acts(self, event, role):
        """Whether a role may do this next in its session; then it does."""
        number, content = int(event.session[1:]), self.told(event)
        if number >= len(self.sessions) or content is None:
            return False
        session = self.sessions[number]
        step = (event.sender, event.receiver, content)
        after = {next_one for state in session.stands.get(role, ()) for *there, next_one in session.protocol.steps[state] if tuple(there) == step}
        if after:
            session.stands[role] = self.still(session.protocol, role, after)
        return bool(after)

    def may_follow(self, event):
        """Whether an event may come next; then it has come."""
        if event.kind == "start":
            return self.starts(event)
        if event.session is None:
            return True
        lane = self.lanes.setdefault((event.session, event.sender, event.receiver), [])
        if event.kind in ("send", "pick", "give"):
            is_fine = self.acts(event, event.sender)
            if is_fine:
                lane.append(event.load)
            return is_fine
        is_fine = lane[:1] == [event.load] and self.acts(event, event.receiver)
        if is_fine:
            lane.pop(0)
        return is_fine

    def has_ended(self):
        """Whether no role has anything more to do in any session."""
        return not any(
            role in (sender, receiver)
            for session in self.sessions
            for role, states in session.stands.items()
            for state in states
            for sender, receiver, _, _ in session.protocol.steps[state]
        )


def judged(source, lines):
    """What `conform` answers for a log with these lines."""
    log, count = Log(source), 0
    for place, line in enumerate(lines, 1):
        event = event_of(line)
        if event and event.number == place and line.split(" ")[0] == str(place):
            if not log.may_follow(event):
                return f"unmatched {place}"
            count += 1
            continue
        closing = CLOSES.fullmatch(line)
        is_closed = closing and place == len(lines) and int(closing[2]) == count
        if not is_closed or (closing[1] == "end" and not log.has_ended()):
            return f"unmatched {place}"
    return f"conforms {count}"


def labels_of(source):
    """The labels of the protocols of a source."""
    contents = {content for protocol in Log(source).protocols.values() for steps in protocol.steps.values() for _, _, content, _ in steps}
    return sorted(content[1:] for content in contents if content.startswith("."))
