"""Reads what `chor order` writes: for each event the events that it waits for."""
import re

from lib.measure import shortened
from lib.program import fail

LINE = re.compile(r"(?P<number>[0-9]+) (?:first|after(?P<causes>(?: [0-9]+)+))")


def read_order(text, name):
    """The causes of each event by its number; ends the tool at a line that no order has there."""
    causes, lines = {}, text.splitlines()
    for place, line in enumerate(lines, 1):
        if line == f"order {place - 1}" and place == len(lines):
            return causes
        found = LINE.fullmatch(line)
        listed = [int(cause) for cause in (found["causes"] or "").split()] if found else []
        if not found or int(found["number"]) != place or listed != sorted(set(listed)) or any(not 0 < each < place for each in listed):
            fail(f"{name}:{place}:1: this is no line of an order: {shortened(line, 60)}")
        causes[place] = listed
    return fail(f"{name}: this isn't the whole of what `chor order` writes")


def said(number, causes):
    """The line of an event."""
    return f"{number} after {' '.join(map(str, causes[number]))}" if causes[number] else f"{number} first"


def nearest(number, causes):
    """The causes of an event that don't stand before another cause of it: the others follow from these."""
    return [each for each in causes[number] if not any(stands_before(each, other, causes) for other in causes[number] if other > each)]


def stands_before(first, second, causes):
    """Whether an event stands before a later one."""
    seen, left = set(), [second]
    while left:
        event = left.pop()
        if event == first:
            return True
        more = [each for each in causes[event] if each >= first and each not in seen]
        seen.update(more)
        left += more
    return False
