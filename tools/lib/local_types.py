"""Reads local types, as `chor types` writes them: for each role of each protocol a table of states."""
import re
from dataclasses import dataclass, field

from lib.measure import shortened
from lib.program import fail
from lib.transcript import NAME

HEAD = re.compile(rf"local (?P<protocol>{NAME})@(?P<role>{NAME})")
LOAD = rf"(?:int|bool|text|{NAME}\.{NAME}@{NAME})"
STATE = re.compile(
    rf"(?P<number>[0-9]+): (?:end|(?P<kind>send|recv) (?P<other>{NAME}) (?P<load>{LOAD}) (?P<next>[0-9]+)"
    rf"|(?P<choice>pick|branch) (?P<partner>{NAME})(?P<arms>(?: {NAME} [0-9]+)+))"
)
SENDS = ("send", "pick")


@dataclass
class Machine:
    """What one role does: `steps[s]` are the steps from state s, each a label and the state after it. A state without steps is
    an end. A label is `B!int` where a number is sent to B, `B?yes` where the label yes is received from B."""
    name: str
    steps: list = field(default_factory=list)

    def edges(self):
        """Pairs of states with the labels of the steps between them, in order."""
        found = {}
        for state, steps in enumerate(self.steps):
            for label, after in steps:
                found.setdefault((state, after), []).append(label)
        return found


def steps_of(found):
    """The steps of a state's line."""
    if found["kind"]:
        mark = "!" if found["kind"] in SENDS else "?"
        return [(f"{found['other']}{mark}{found['load']}", int(found["next"]))]
    mark = "!" if found["choice"] in SENDS else "?"
    arms = (found["arms"] or "").split()
    return [(f"{found['partner']}{mark}{label}", int(after)) for label, after in zip(arms[::2], arms[1::2])]


def read_machines(text, name):
    """The machines of a text; ends the tool at a line that no local type has there."""
    machines = []
    for place, line in enumerate(text.splitlines(), 1):
        head, state = HEAD.fullmatch(line), STATE.fullmatch(line)
        if head:
            machines.append(Machine(f"{head['protocol']}@{head['role']}"))
        elif state and machines and int(state["number"]) == len(machines[-1].steps):
            machines[-1].steps.append(steps_of(state))
        else:
            fail(f"{name}:{place}:1: this is no line of local types: {shortened(line, 60)}")
    for machine in machines:
        if any(after >= len(machine.steps) for steps in machine.steps for _, after in steps) or not machine.steps:
            fail(f"{name}: local {machine.name} lacks a state")
    return machines
