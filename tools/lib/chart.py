"""A run as a chart: who takes part, which messages go from whom to whom, and which sessions there are."""
from __future__ import annotations

from dataclasses import dataclass, field

from lib.transcript import PUTS, Event

# Colours of sessions, one after another; they can be told apart by those who don't see all colours.
COLOURS = ("0, 114, 178", "213, 94, 0", "0, 158, 115", "204, 121, 167", "110, 80, 170", "86, 150, 200", "150, 110, 0")


@dataclass
class Participant:
    """A process, with the roles that it has had, in order."""
    process: str
    roles: list = field(default_factory=list)

    def add(self, role):
        if role not in self.roles:
            self.roles.append(role)


@dataclass
class Message:
    """A message by its two events. Either may be missing: what was never received, or received without having been sent."""
    sent: Event | None
    taken: Event | None
    # Who holds the receiver's role when the run ends, where the message isn't received.
    waiting_for: str | None = None

    def event(self):
        return self.taken or self.sent

    def label(self):
        event = self.event()
        return f"{event.session} {event.sender}>{event.receiver} {event.load}"

    def ends(self):
        """The sender and the receiver; None for an end that isn't known."""
        return self.sent and self.sent.process, self.taken.process if self.taken else self.waiting_for


@dataclass
class Session:
    """A session by its number, with its channel where its start is known, and the events that are drawn."""
    number: str
    channel: str | None = None
    events: list = field(default_factory=list)
    processes: set = field(default_factory=set)

    def colour(self):
        return COLOURS[int(self.number[1:]) % len(COLOURS)]

    def title(self):
        return f"{self.number} {self.channel}" if self.channel else self.number


class Chart:
    """What is drawn of a transcript: the events with numbers from `first` to `final`."""

    def __init__(self, events, last, first=None, final=None):
        self.events = [event for event in events if (first or 0) <= event.number <= (final or event.number)]
        self.last = last if self.events[-1:] == events[-1:] else None
        self.known = {}
        self.holders = {}
        self.messages = self.matched(events)
        self.sessions = self.sessions_of(events)
        drawn = self.drawn_processes()
        self.participants = [each for each in self.known.values() if each.process in drawn]

    def participant(self, process):
        return self.known.setdefault(process, Participant(process))

    def matched(self, events):
        """All messages, each queue first in, first out, of which one event at least is drawn."""
        queues, messages = {}, []
        for event in events:
            self.hold(event)
            lane = (event.session, event.sender, event.receiver)
            if event.kind in PUTS:
                queues.setdefault(lane, []).append(Message(event, None))
                messages.append(queues[lane][-1])
            elif event.sender and queues.get(lane):
                queues[lane].pop(0).taken = event
            elif event.sender:
                messages.append(Message(None, event))
        for message in messages:
            if not message.taken:
                message.waiting_for = self.holders.get((message.sent.session, message.sent.receiver))
        return [each for each in messages if self.is_drawn(each.sent) or self.is_drawn(each.taken)]

    def hold(self, event):
        """Keeps who has which role from this event on."""
        for process in event.processes():
            self.participant(process)
        for role, process in event.roles:
            self.participant(process).add(role)
            self.holders[event.session, role] = process
        if event.kind == "gain":
            session, role = event.load.split(".")
            self.participant(event.process).add(role)
            self.holders[session, role] = event.process

    def is_drawn(self, event):
        return bool(event and self.events and self.events[0].number <= event.number <= self.events[-1].number)

    def items(self):
        """Each event with what is drawn at it, where a message is drawn once: where it is received, or where it is sent if the
        other event isn't drawn. Of another event the message is None."""
        at = {id(each.taken if self.is_drawn(each.taken) else each.sent): each for each in self.messages}
        return [(event, at.get(id(event))) for event in self.events if not event.sender or id(event) in at]

    def sessions_of(self, events):
        found = {}
        for event in events:
            if event.session:
                session = found.setdefault(event.session, Session(event.session))
                session.channel = event.channel or session.channel
        for event in self.events:
            if event.session:
                found[event.session].events.append(event)
                found[event.session].processes.update(event.processes())
        for message in self.messages:
            found[message.event().session].processes.update(end for end in message.ends() if end)
        return {number: each for number, each in found.items() if each.events}

    def drawn_processes(self):
        """Who takes part in what is drawn."""
        drawn = {process for event in self.events for process in event.processes()}
        drawn.update(end for message in self.messages for end in message.ends() if end)
        if self.last and self.last.process:
            drawn.add(self.participant(self.last.process).process)
        return drawn


def places(count, spans, least, edge):
    """Positions of `count` columns, and the width of all. A span (left, right, need) asks that two columns be so far apart;
    where left is -1 or right is `count`, it asks so much room at the edge."""
    gaps = [edge] + [least] * (count - 1) + [edge]
    for left, right, need in sorted(spans, key=lambda span: span[1] - span[0]):
        lacking = need - sum(gaps[left + 1:right + 1])
        if lacking > 0:
            share = int(-(-lacking // (right - left)))
            for gap in range(left + 1, right + 1):
                gaps[gap] += share
    positions = [sum(gaps[:place + 1]) for place in range(count)]
    return positions, sum(gaps)
