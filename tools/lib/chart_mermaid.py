"""A chart in the language of mermaid, which many places that show Markdown draw."""

def escaped(text):
    """Mermaid ends a text at a semicolon, reads # as the beginning of an entity, < as markup and %% as a comment."""
    return text.translate({ord("#"): "#35;", ord(";"): "#59;", ord("<"): "#lt;"}).replace("%%", "#37;#37;")


class Mermaid:
    def __init__(self, chart):
        self.chart = chart
        self.ids = {each.process: f"p{place}" for place, each in enumerate(chart.participants)}
        self.order = list(self.ids)
        self.lines = []

    def text(self):
        people = [
            f"participant {self.ids[each.process]} as {escaped(' '.join([', '.join(each.roles), each.process]).strip())}"
            for each in self.chart.participants
        ]
        self.draw_all(self.items())
        if self.chart.last:
            self.close(self.chart.last)
        head = ["sequenceDiagram", "%% drawn by tools/diagram, which is outside the proof"]
        return "\n".join([head[0], *(f"    {line}" for line in [head[1], *people, *self.lines])]) + "\n"

    def items(self):
        """What is drawn, in order, each with its session."""
        for event, message in self.chart.items():
            yield event.session, self.arrow(message) if message else self.note(event.processes(), event.short())

    def draw_all(self, items):
        """Writes the items, each session's from its first to its last in a box. Boxes that cross are cut in two."""
        items = list(items)
        last = {session: place for place, (session, _) in enumerate(items)}
        opened = []
        for place, (session, line) in enumerate(items):
            if session and session not in opened:
                self.open(opened, session)
            self.lines.append(line)
            if session and last[session] == place:
                above = opened[opened.index(session) + 1:]
                self.lines += ["end"] * (1 + len(above))
                del opened[opened.index(session):]
                for each in above:
                    self.open(opened, each)

    def open(self, opened, session):
        opened.append(session)
        # Faint, so that letters can be read on a light ground and on a dark one.
        self.lines.append(f"rect rgba({self.chart.sessions[session].colour()}, 0.12)")

    def arrow(self, message):
        sender, receiver = message.ends()
        sent = message.sent.number if message.sent else "not sent before"
        taken = message.taken.number if message.taken else "not received"
        arrow = "->>" if message.sent and message.taken else "-x"
        ends = f"{self.ids[sender or receiver]}{arrow}{self.ids[receiver or sender]}"
        return f"{ends}: {escaped(message.label())} ({sent}, {taken})"

    def note(self, processes, text):
        over = sorted(processes, key=self.order.index)
        ends = [self.ids[over[0]]] + [self.ids[over[-1]]] * (len(over) > 1)
        return f"Note over {','.join(ends)}: {escaped(text)}"

    def close(self, last):
        if last.process:
            self.lines.append(self.note([last.process], f"stuck: {last.reason}"))
        if self.order:
            self.lines.append(self.note([self.order[0], self.order[-1]][:len(self.order)], last.text))


def chart_mermaid(chart):
    return Mermaid(chart).text()
