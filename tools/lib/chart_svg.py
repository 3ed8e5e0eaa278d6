"""A chart as a picture in SVG. Each event has a row, so that an arrow that slants shows how long a message was in its queue."""
from lib.chart import places
from lib.measure import shortened
from lib.order_svg import OrderPicture
from lib.svg import ALARM, FAINT, INK, Picture, width_of

ROW, TAB, TOP, HEAD = 26, 22, 16, 40
LONGEST = 48


class ChartPicture:
    def __init__(self, chart, causes=None):
        self.chart = chart
        self.causes = causes
        self.picture = Picture()
        self.place = {each.process: place for place, each in enumerate(chart.participants)}
        self.margin = width_of(str(max((event.number for event in chart.events), default=0))) + 16
        self.xs, self.width = places(len(self.place), list(self.spans()), 110, 70)
        self.xs = [self.margin + x for x in self.xs]
        self.rows, self.bottom = self.rows_of()

    def x(self, process):
        return self.xs[self.place[process]]

    def rows_of(self):
        """How far down each event is, and where the lines of the processes end. A session's first row has room for a title."""
        rows, y, opened = {}, TOP + HEAD + 4, set()
        for event in self.chart.events:
            y += ROW + (TAB if event.session and event.session not in opened else 0)
            opened.add(event.session)
            rows[event.number] = y
        return rows, y + ROW

    def spans(self):
        for place, each in enumerate(self.chart.participants):
            half = heading_width(each) / 2 + 8
            yield from ((place - 1, place, half), (place, place + 1, 2 * half))
        for event in self.chart.events:
            yield from self.role_spans(event)
            if not event.sender and event.kind != "start":
                place, half = self.place[event.process], width_of(short(event)) / 2 + 16
                yield from ((place - 1, place, half), (place, place + 1, half))
        for message in self.chart.messages:
            ends = sorted({self.place[end] for end in message.ends() if end})
            yield ends[0], ends[-1] if len(ends) > 1 else ends[0] + 1, width_of(label(message)) + 32

    def role_spans(self, event):
        """Room for the roles at a start: to the right of each process, and to the left of the last one."""
        begun = sorted((self.place[process], width_of(role, 11) + 18) for role, process in event.roles)
        for (left, room), (right, _) in zip(begun, begun[1:]):
            yield left, right, room + (begun[-1][1] if right == begun[-1][0] else 0)

    def draw(self):
        for slot, session in zip(slots(self.chart.sessions.values(), self.rows), self.chart.sessions.values()):
            self.frame(session, slot)
        for participant in self.chart.participants:
            self.lifeline(participant)
        for message in self.chart.messages:
            self.arrow(message)
        for event in self.chart.events:
            self.row(event)
        for participant in self.chart.participants:
            self.heading(participant)
        width, height = self.close()
        if self.causes:
            width = OrderPicture(self.picture, self.chart, self.causes, self.rows, width).draw(TOP + HEAD - 8)
        return self.picture.document(width, height, f"A run of {len(self.chart.events)} events")

    def frame(self, session, slot):
        """The box of a session, from its first event to its last one, with its title."""
        columns = [self.x(process) for process in session.processes]
        pad = max(26 - 5 * slot, 6)
        top = self.rows[session.events[0].number] - ROW / 2 - 2
        left, right, end = min(columns) - pad, max(columns) + pad, self.rows[session.events[-1].number] + ROW / 2 - 1
        colour = f"rgb({session.colour()})"
        self.picture.box((left, top), (right - left, end - top), rx=4, fill=colour, fill_opacity="0.07", stroke=colour)
        title = session.title()
        self.picture.box((left, top - 17), (width_of(title, 11) + 12, 17), rx=3, fill=colour, fill_opacity="0.85", title=title)
        self.picture.text((left + 6, top - 5), title, "start", halo=False, fill="white", font_weight="bold", font_size=11)

    def lifeline(self, participant):
        """A process's line, broken before a start has made it."""
        x = self.x(participant.process)
        made = next((event.number for event in self.chart.events if participant.process in event.processes()), None)
        born = self.rows[made] if participant.process.startswith("%") and self.is_made_at(made, participant.process) else TOP + HEAD
        self.picture.line((x, TOP + HEAD), (x, born), FAINT, stroke_dasharray="2 4")
        self.picture.line((x, born), (x, self.bottom), FAINT)

    def is_made_at(self, number, process):
        starts = [event for event in self.chart.events if event.number == number and event.kind == "start"]
        return any(process in event.processes() for event in starts)

    def arrow(self, message):
        """From the row at which a message is sent to that at which it is received, or from and to where the picture ends."""
        colour = f"rgb({self.chart.sessions[message.event().session].colour()})" if message.event().session in self.chart.sessions else INK
        start, end = self.ends_of(message)
        tip = f"{message.event().session} {message.event().sender}>{message.event().receiver}: " + "; ".join(
            f"{event.number} {event.text}" for event in (message.sent, message.taken) if event
        )
        self.picture.line(start, end, colour, stroke_width="1.6", stroke_dasharray=None if message.sent and message.taken else "5 4", title=tip)
        if message.taken:
            self.picture.head(end, start, colour)
        else:
            self.picture.cross(end)
        if not message.sent:
            self.picture.cross(start)
        rightward = end[0] > start[0]
        near, anchor = (start, rightward) if self.chart.is_drawn(message.sent) else (end, not rightward)
        self.picture.text((near[0] + (10 if anchor else -10), near[1] - 5), label(message), "start" if anchor else "end")

    def ends_of(self, message):
        sender, receiver = message.ends()
        room = width_of(label(message)) + 24
        from_x = self.x(sender) if sender else self.x(receiver) + room
        to_x = self.x(receiver) if receiver and receiver != sender else from_x + room
        first, final = TOP + HEAD + 2, self.bottom - 2
        from_y = self.rows.get(message.sent.number, first) if message.sent else self.rows[message.taken.number]
        to_y = self.rows.get(message.taken.number, final) if message.taken else self.rows[message.sent.number]
        if not message.taken:
            to_x -= 14 if to_x > from_x else -14
        return (from_x, from_y), (to_x, to_y)

    def row(self, event):
        """The number of an event, and what it is where it is no message."""
        y = self.rows[event.number]
        self.picture.text((self.margin - 8, y + 4), str(event.number), "end", halo=False, fill=FAINT, font_size=11)
        if event.kind == "start":
            self.start(event, y)
        elif event.sender:
            self.picture.dot((self.x(event.process), y), 2, fill=INK)
        else:
            text = short(event)
            width = width_of(text) + 12
            self.picture.box((self.x(event.process) - width / 2, y - 9), (width, 18), rx=9, fill="#f6f8fa", stroke=FAINT, title=event.text)
            self.picture.text((self.x(event.process), y + 4), text, halo=False)

    def start(self, event, y):
        colour = f"rgb({self.chart.sessions[event.session].colour()})"
        columns = [self.x(process) for process in event.processes()]
        self.picture.line((min(columns), y), (max(columns), y), colour, stroke_width=3, title=event.text)
        for role, process in event.roles:
            self.picture.dot((self.x(process), y), 5, fill=colour)
            is_last = len(columns) > 1 and self.x(process) == max(columns)
            place = (self.x(process) + (-9 if is_last else 9), y - 5)
            self.picture.text(place, role, "end" if is_last else "start", font_size=11, fill=colour)

    def heading(self, participant):
        x, width = self.x(participant.process), heading_width(participant)
        tip = f"process {participant.process}: {', '.join(participant.roles)}"
        self.picture.box((x - width / 2, TOP), (width, HEAD), rx=4, fill="white", stroke=INK, title=tip)
        self.picture.text((x, TOP + 16), roles(participant), halo=False, fill=FAINT, font_size=11)
        self.picture.text((x, TOP + 32), participant.process, halo=False, font_weight="bold")

    def close(self):
        """Draws the last line, or a note where the run is stuck; answers how wide and high the picture is."""
        last, width = self.chart.last, self.margin + self.width
        if last and last.process:
            x, lines = self.x(last.process), ["stuck: " + last.reason.split(", ")[0], *last.reason.split(", ")[1:]]
            across = max(map(width_of, lines)) + 16
            self.picture.cross((x, self.bottom))
            self.picture.box((x - 20, self.bottom + 10), (across, 16 * len(lines) + 8), rx=4, fill="#fdecea", stroke=ALARM, title=last.text)
            for place, line in enumerate(lines):
                self.picture.text((x - 12, self.bottom + 26 + 16 * place), line, "start", halo=False, fill=ALARM)
            width = max(width, x + across)
        foot = self.bottom + (60 if last and last.process else 18)
        if last:
            self.picture.text((self.margin, foot + 6), last.text, "start", halo=False, font_weight="bold")
        return max(width, 200), foot + 22


def slots(sessions, rows):
    """Numbers for the boxes, unlike where two boxes are side by side, so that their borders don't lie on each other."""
    given, ends = [], {}
    for session in sessions:
        first = rows[session.events[0].number]
        slot = next(place for place in range(len(ends) + 1) if ends.get(place, -1) < first)
        ends[slot] = rows[session.events[-1].number]
        given.append(slot)
    return given


def roles(participant):
    return shortened(", ".join(participant.roles), 24)


def heading_width(participant):
    return max(width_of(roles(participant), 11), width_of(participant.process)) + 16


def short(event):
    return shortened(event.short(), LONGEST)


def label(message):
    return shortened(message.label(), LONGEST)


def chart_svg(chart, causes=None):
    """The picture; with the causes of each event the order is drawn beside it."""
    return ChartPicture(chart, causes).draw()
