"""Reads transcripts: a line for each event, and then perhaps a last line that says how the run ended."""
from __future__ import annotations

import re
from dataclasses import dataclass, field

from lib.measure import shortened
from lib.program import fail

NAME = r"[A-Za-z_][A-Za-z0-9_]*"
PROCESS = rf"(?:{NAME}|%[0-9]+)"
VALUE = r'(?:-?[0-9]+|true|false|"(?:[^"\\]|\\.)*")'
LANE = rf"(?P<session>#[0-9]+) (?P<sender>{NAME})>(?P<receiver>{NAME})"
# The load of each kind of message.
LOADS = {"send": VALUE, "pick": NAME, "give": rf"#[0-9]+\.{NAME}", "recv": VALUE, "branch": NAME, "gain": rf"#[0-9]+\.{NAME}"}
PUTS = ("send", "pick", "give")
FORMS = [
    rf"(?P<kind>start) (?P<channel>{NAME}) (?P<session>#[0-9]+)(?P<roles>(?: {NAME}={PROCESS})+)",
    *(rf"(?P<kind>{kind}) (?P<process>{PROCESS}) {LANE} (?P<load>{load})" for kind, load in LOADS.items()),
    rf"(?P<kind>test) (?P<process>{PROCESS}) (?P<load>true|false)",
    rf"(?P<kind>set) (?P<process>{PROCESS}) (?P<load>{NAME} {VALUE})",
    rf"(?P<kind>show) (?P<process>{PROCESS}) (?P<load>{VALUE})",
    rf"(?P<kind>host) (?P<process>{PROCESS}) (?P<load>{NAME} {NAME} {VALUE} {VALUE} {VALUE})",
]
EVENTS = [re.compile(rf"(?P<number>[0-9]+) {form}") for form in FORMS]
LAST = re.compile(
    rf"(?P<kind>end|limit) [0-9]+|(?P<stuck>stuck) [0-9]+ (?P<process>{PROCESS}) "
    rf"(?:(?P<why>empty|wrong|full) {LANE}|(?P<absent>absent) (?P<channel>{NAME}) (?P<role>{NAME}))"
)


@dataclass
class Event:
    """An event; what its kind doesn't have is None or empty."""
    number: int
    kind: str
    text: str
    process: str | None = None
    session: str | None = None
    channel: str | None = None
    sender: str | None = None
    receiver: str | None = None
    load: str | None = None
    roles: list = field(default_factory=list)

    def processes(self):
        return [process for _, process in self.roles] or [self.process]

    def short(self):
        """The event without its process."""
        return self.text if self.kind == "start" else f"{self.kind} {self.load}"


@dataclass
class Last:
    """The last line: its text, and for a stuck run the process that waits and the reason in words."""
    text: str
    process: str | None = None
    reason: str | None = None


def event_of(line):
    """The event of a line, or None."""
    for form in EVENTS:
        found = form.fullmatch(line)
        if found:
            parts = found.groupdict()
            parts["number"] = int(parts["number"])
            parts["roles"] = [tuple(part.split("=")) for part in (parts.get("roles") or "").split()]
            return Event(text=line.split(" ", 1)[1], **parts)
    return None


def last_of(line):
    """The meaning of a last line, or None."""
    found = LAST.fullmatch(line)
    if not found:
        return None
    lane = f"{found['sender']}>{found['receiver']} in session {found['session']}"
    reasons = {
        "empty": f"it waits for a message {lane}, and none is in the queue",
        "full": f"it waits to send {lane}, and the queue is full",
        "wrong": f"the first message {lane} isn't one that it can take",
        "absent": f"it waits on channel {found['channel']}, where nobody joins as {found['role']}",
    }
    return Last(line, found["process"], reasons.get(found["why"] or found["absent"]))


def read_transcript(text, name):
    """The events and the last line of a transcript; ends the tool at a line that is neither."""
    events, last = [], None
    lines = text.split("\n")
    if lines[-1] == "":
        lines.pop()
    for place, line in enumerate(lines, 1):
        event = event_of(line)
        if last:
            fail(f"{name}:{place}:1: a line after the last one, `{last.text}`")
        if event and events and event.number <= events[-1].number:
            fail(f"{name}:{place}:1: event {event.number} comes after event {events[-1].number}")
        if event:
            events.append(event)
            continue
        last = last_of(line)
        if not last:
            fail(f"{name}:{place}:1: this is no line of a transcript: {shortened(line, 60)}")
    return events, last
