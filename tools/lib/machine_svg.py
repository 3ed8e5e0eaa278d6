"""Machines as one picture in SVG: a row for each protocol, with the machines of its roles side by side."""
from itertools import groupby

from lib.layers import Layers
from lib.svg import FAINT, INK, Picture, number, width_of

RADIUS, LINE, GAP, TITLE, EDGE = 14, 15, 40, 30, 20
SENT, RECEIVED = "#0072b2", "#b34700"


class Drawing:
    """One machine: its layers, how far down each of them is, and how wide and high it is."""

    def __init__(self, machine):
        self.machine = machine
        self.edges = machine.edges()
        self.layers = Layers(machine, self.width_of_state, lambda edge: label_width(self.edges[edge]) + 18)
        self.ys, y = [], TITLE + 18
        for depth, layer in enumerate(self.layers.layers):
            height = self.height_of(depth, layer)
            self.ys.append(y + height / 2)
            y += height
        self.height = y + 8
        self.width = max(self.layers.width(), width_of(machine.name, 13) + 16) + 10

    def width_of_state(self, state):
        loop = self.edges.get((state, state))
        return 2 * RADIUS + 20 + (2 * (label_width(loop) + 22) if loop else 0)

    def height_of(self, depth, layer):
        if depth % 2 == 0:
            return 2 * RADIUS + 4
        return LINE * max((len(self.edges[point[:2]]) for point in layer if self.layers.has_label(point)), default=0) + 26

    def draw(self, picture, left, top):
        picture.box((left, top), (self.width, self.height), rx=6, fill="#fbfcfd", stroke="#d0d7de")
        picture.text((left + 12, top + 20), self.machine.name, "start", halo=False, font_weight="bold", font_size=13)
        self.origin = (left + (self.width - self.layers.width()) / 2, top)
        for edge, labels in self.edges.items():
            if edge[0] == edge[1]:
                self.loop(picture, edge[0], labels)
            else:
                self.line(picture, edge)
        for edge, labels in self.edges.items():
            if edge[0] != edge[1]:
                self.label(picture, self.at(self.layers.points(edge)[1]), labels)
        x, y = self.at(0)
        picture.line((x, y - RADIUS - 16), (x, y - RADIUS - 4))
        picture.head((x, y - RADIUS), (x, y - RADIUS - 16))
        for state, steps in enumerate(self.machine.steps):
            self.state(picture, state, not steps)

    def at(self, point):
        return self.origin[0] + self.layers.xs[point], self.origin[1] + self.ys[self.layers.depth_of(point)]

    def state(self, picture, state, is_end):
        picture.dot(self.at(state), RADIUS, fill="white", stroke=INK, stroke_width="1.4")
        if is_end:
            picture.dot(self.at(state), RADIUS - 4, fill="white", stroke=INK)
        picture.text((self.at(state)[0], self.at(state)[1] + 4), str(state), halo=False)

    def line(self, picture, edge):
        """A curve through the points of a line. One that leads upwards leaves and comes in at the right, beside the others."""
        points = [self.at(point) for point in self.layers.points(edge)]
        is_down = points[0][1] < points[-1][1]
        aside, border = (0, RADIUS) if is_down else (9, -RADIUS + 3)
        points[0] = (points[0][0] + aside, points[0][1] + border)
        points[-1] = (points[-1][0] + aside, points[-1][1] - border)
        way = curve(points)
        picture.add("path", d=way, fill="none", stroke=FAINT, stroke_width="1.4")
        picture.head(points[-1], (points[-1][0], points[-1][1] - (10 if is_down else -10)), FAINT)

    def loop(self, picture, state, labels):
        x, y = self.at(state)
        way = f"M {spot((x + 10, y - 10))} C {spot((x + 44, y - 26))} {spot((x + 44, y + 26))} {spot((x + 10, y + 10))}"
        picture.add("path", d=way, fill="none", stroke=FAINT, stroke_width="1.4")
        picture.head((x + 10, y + 10), (x + 20, y + 14), FAINT)
        self.label(picture, (x + 40 + label_width(labels) / 2, y), labels)

    def label(self, picture, centre, labels):
        for place, label in enumerate(labels):
            y = centre[1] + 4 + LINE * (place - (len(labels) - 1) / 2)
            picture.text((centre[0], y), label, fill=SENT if "!" in label else RECEIVED)


def curve(points):
    """A smooth way through points, which begins and ends upright."""
    slopes = [((after[0] - before[0]) / 6, (after[1] - before[1]) / 6) for before, after in zip(points, points[2:])]
    slopes = [(0, (points[1][1] - points[0][1]) / 2), *slopes, (0, (points[-1][1] - points[-2][1]) / 2)]
    way = "M " + spot(points[0])
    for place, (point, after) in enumerate(zip(points, points[1:])):
        out, into = slopes[place], slopes[place + 1]
        way += f" C {spot(point, out)} {spot(after, (-into[0], -into[1]))} {spot(after)}"
    return way


def spot(point, away=(0, 0)):
    return f"{number(point[0] + away[0])} {number(point[1] + away[1])}"


def label_width(labels):
    return max(map(width_of, labels))


def machines_svg(machines):
    """One picture of them all."""
    picture, width, top = Picture(), 0, EDGE
    for _, row in groupby(machines, key=lambda machine: machine.name.split("@")[0]):
        left, drawings = EDGE, [Drawing(machine) for machine in row]
        for drawing in drawings:
            drawing.draw(picture, left, top)
            left += drawing.width + GAP / 2
        width, top = max(width, left - GAP / 2 + EDGE), top + max(drawing.height for drawing in drawings) + GAP / 2
    picture.text((EDGE, top + 8), "B!x: x is sent to B", "start", halo=False, fill=SENT, font_size=11)
    picture.text((EDGE + 160, top + 8), "A?x: x is received from A", "start", halo=False, fill=RECEIVED, font_size=11)
    return picture.document(max(width, 380), top + 24, ", ".join(machine.name for machine in machines) or "no machines")
