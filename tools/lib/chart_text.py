"""A chart for a terminal. A message is one line, at the event that receives it."""
from lib.chart import places
from lib.measure import cells, shortened
from lib.order import said

LONGEST = 48


class Row:
    """One line of the picture, of cells which later text overwrites."""

    def __init__(self, positions=()):
        self.cells = [" "] * (max(positions, default=0) + 1)
        for position in positions:
            self.cells[position] = "│"

    def put(self, position, text):
        """Writes a text; a wide letter takes two cells, the second of which is empty."""
        for letter in text:
            wide = cells(letter)
            self.cells += [" "] * (position + wide - len(self.cells))
            if wide:
                self.cells[position:position + wide] = [letter] + [""] * (wide - 1)
            position += wide

    def centre(self, position, text):
        self.put(max(position - cells(text) // 2, 0), text)

    def fill(self, left, right, line):
        """Draws a line between two columns, over the columns between them."""
        for position in range(left + 1, right):
            self.cells[position] = "┼" if self.cells[position] == "│" else line

    def text(self):
        return "".join(self.cells).rstrip()


class TextChart:
    def __init__(self, chart, causes=None):
        self.chart = chart
        self.causes = causes
        self.place = {each.process: place for place, each in enumerate(chart.participants)}
        self.items = chart.items()
        self.positions = places(len(self.place), list(self.spans()), 12, 4)[0]
        # The left column holds the numbers of two events.
        self.margin = 2 * len(str(max((event.number for event, _ in self.items), default=0))) + 2
        self.lines, self.numbers = [], []

    def columns(self, processes):
        return sorted(self.place[process] for process in processes)

    def spans(self):
        """How far apart columns must be for what is written between them."""
        for place, each in enumerate(self.chart.participants):
            half = max(cells(line) for line in heading(each)) // 2 + 2
            yield from ((place - 1, place, half), (place, place + 1, half + 1))
        for session in self.chart.sessions.values():
            columns = self.columns(session.processes)
            yield columns[0], columns[1] if len(columns) > 1 else columns[0] + 1, cells(session.title()) + 8
        for event, message in self.items:
            if message:
                left, right = self.stretch(message)
                yield left, right, cells(label(message)) + 6
            elif event.kind != "start":
                half = cells(local(event)) // 2 + 2
                place = self.place[event.process]
                yield from ((place - 1, place, half), (place, place + 1, half))

    def stretch(self, message):
        """The columns that a message goes between; the next column where one of its ends isn't known."""
        ends = [self.place[end] for end in message.ends() if end]
        return (min(ends), max(ends)) if len(set(ends)) == 2 else (ends[0], ends[0] + 1)

    def row(self):
        return Row(self.positions)

    def add(self, row, *numbers):
        self.numbers.append(numbers)
        self.lines.append(f"{', '.join(map(str, numbers)):>{self.margin}}  {row.text()}".rstrip())

    def draw(self):
        for lines in zip(*map(heading, self.chart.participants)):
            row = Row()
            for position, line in zip(self.positions, lines):
                row.centre(position, line)
            self.add(row)
        self.add(self.row())
        last = {event.session: event for event, _ in self.items if event.session}
        first = {event.session: event for event, _ in reversed(self.items) if event.session}
        for event, message in self.items:
            session = self.chart.sessions.get(event.session)
            if session and (event.kind == "start" or first[event.session] is event):
                self.border(session, "═", event if event.kind == "start" else None)
            if message:
                self.arrow(message)
            elif event.kind != "start":
                self.note(event)
            if session and last[event.session] is event:
                self.border(session, "─")
        self.close()
        if self.causes:
            self.add_order()
        return "".join(f"{line}\n" for line in self.lines)

    def add_order(self):
        """Says right of each line what its events wait for."""
        width = max(map(cells, self.lines)) + 4
        for place, (line, numbers) in enumerate(zip(self.lines, self.numbers)):
            order = "   ".join(said(number, self.causes) for number in numbers)
            self.lines[place] = f"{line}{' ' * (width - cells(line))}{order}".rstrip()

    def border(self, session, line, start=None):
        """The upper or lower border of a session's box, with dots at those that start it."""
        columns = [self.positions[column] for column in self.columns(session.processes)]
        row = self.row()
        row.fill(columns[0], columns[-1], line)
        row.put(columns[0], "├")
        row.put(columns[-1], "┤")
        for process in start.processes() if start else ():
            row.put(self.positions[self.place[process]], "●")
        row.put(columns[0] + 3, f" {session.title() if line == '═' else session.number} ")
        self.add(row, *([start.number] if start else []))

    def note(self, event):
        row = self.row()
        row.centre(self.positions[self.place[event.process]], local(event))
        self.add(row, event.number)

    def arrow(self, message):
        """An arrow; it ends in a cross where nobody receives it, and begins in one where nobody has sent it."""
        row = self.row()
        left, right = self.stretch(message)
        begins = self.positions[left]
        ends = self.positions[right] if right < len(self.positions) else begins + cells(label(message)) + 6
        row.put(ends, row.cells[ends] if ends < len(row.cells) else " ")
        row.fill(begins, ends, "─" if message.sent and message.taken else "┄")
        row.centre((begins + ends) // 2, f" {label(message)} ")
        known = message.sent if message.sent else message.taken
        rightward = (self.place[known.process] == left) == bool(message.sent)
        head, tail = ("▶" if rightward else "◀") if message.taken else "✕", "─" if message.sent else "✕"
        row.put(ends - 1 if rightward else begins + 1, head)
        if not message.sent:
            row.put(begins + 1 if rightward else ends - 1, tail)
        self.add(row, *(each.number for each in (message.sent, message.taken) if each))

    def close(self):
        """The last line; where the run is stuck, a note at the process that waits."""
        last = self.chart.last
        if not last:
            return
        row = self.row()
        if last.process:
            row.put(self.positions[self.place[last.process]], f"✕ stuck: {last.reason}")
        self.add(row)
        row = Row()
        row.put(0, last.text)
        self.add(row)


def heading(participant):
    return shortened(", ".join(participant.roles), 24), participant.process


def label(message):
    return shortened(message.label(), LONGEST)


def local(event):
    return f"[{shortened(event.short(), LONGEST)}]"


def chart_text(chart, causes=None):
    """The chart; with the causes of each event they are written beside it."""
    return TextChart(chart, causes).draw()
