"""The order that all rearrangements of a run share, beside its chart: each event at the height that it has in the chart, and a line
from each event to those that wait for it and for nothing between."""
from lib.measure import shortened
from lib.order import nearest
from lib.svg import FAINT, INK, width_of

RADIUS, COLUMN, EDGE = 9, 34, 40


class OrderPicture:
    """`rows` says how far down each event is, `left` where the order begins."""

    def __init__(self, picture, chart, causes, rows, left):
        self.picture, self.chart, self.causes, self.rows = picture, chart, causes, rows
        self.columns = {each.process: left + EDGE + COLUMN * place for place, each in enumerate(chart.participants)}
        self.events = {event.number: event for event in chart.events}

    def draw(self, top):
        """Draws it, with the names of the processes at `top`; answers the place where it ends."""
        for process, x in self.columns.items():
            self.picture.text((x, top), shortened(process, 6), halo=False, fill=FAINT, font_size=11)
        for number in self.events:
            for cause in nearest(number, self.causes):
                if cause in self.events:
                    self.edge(cause, number)
        for event in self.chart.events:
            self.node(event)
        return max(self.columns.values(), default=0) + EDGE

    def edge(self, cause, number):
        """A line between the columns of a process that both have, or else between their first columns; then it is broken if no
        message goes there, as from one start to the next."""
        first, second = self.events[cause], self.events[number]
        shared = [process for process in first.processes() if process in second.processes()]
        ends = (shared[0], shared[0]) if shared else (first.processes()[0], second.processes()[0])
        start = (self.columns[ends[0]], self.rows[cause] + RADIUS)
        end = (self.columns[ends[1]], self.rows[number] - RADIUS)
        is_message = shared or second.sender
        self.picture.line(start, end, FAINT, stroke_width="1.4", stroke_dasharray=None if is_message else "5 4", title=f"{number} after {cause}")
        self.picture.head(end, start, FAINT)

    def node(self, event):
        """The number of an event in a circle, in the column of each of its processes."""
        y = self.rows[event.number]
        columns = [self.columns[process] for process in event.processes()]
        if len(columns) > 1:
            self.picture.line((min(columns), y), (max(columns), y), INK, stroke_width=2)
        for x in columns:
            width = max(2 * RADIUS, width_of(str(event.number), 11) + 8)
            self.picture.box((x - width / 2, y - RADIUS), (width, 2 * RADIUS), rx=RADIUS, fill="white", stroke=INK, title=event.text)
            self.picture.text((x, y + 4), str(event.number), halo=False, font_size=11)
