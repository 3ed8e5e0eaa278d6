"""Places the states of a machine in layers, from its first state downwards, with its labels in layers between them. A step that
leads back is laid out as if it went down. Every line goes through points of its own, so that none runs over a state or a label."""


class Layers:
    """`layers[n]` are the points of layer n from left to right: a number is a state, (from, to, n) a point of the line of the
    steps between two states. States are in the even layers. `xs` says how far right each point is."""

    def __init__(self, machine, width_of_state, width_of_label):
        self.width_of_state, self.width_of_label = width_of_state, width_of_label
        self.depth = [2 * depth for depth in depths(machine)]
        self.layers = [[] for _ in range(max(self.depth) + 1)]
        for state, depth in enumerate(self.depth):
            self.layers[depth].append(state)
        self.above, self.below = {}, {}
        for edge in machine.edges():
            if edge[0] != edge[1]:
                self.thread(self.points(edge))
        self.order()
        self.xs = self.placed()

    def points(self, edge):
        """The points of a step's line, from its first state to the next one. The second point is where the label is."""
        low, high = self.depth[edge[0]], self.depth[edge[1]]
        inner = range(low + 1, high) if low < high else range(low - 1, high, -1)
        return [edge[0], *((*edge, depth) for depth in inner), edge[1]]

    def has_label(self, point):
        return isinstance(point, tuple) and self.points(point[:2])[1] == point

    def width_of_point(self, point):
        if self.has_label(point):
            return self.width_of_label(point[:2])
        return 20 if isinstance(point, tuple) else self.width_of_state(point)

    def thread(self, line):
        """Adds a line's inner points to the layers, and says what is above and below what."""
        for point in line[1:-1]:
            self.layers[self.depth_of(point)].append(point)
        for one, other in zip(line, line[1:]):
            high, low = (one, other) if self.depth_of(one) < self.depth_of(other) else (other, one)
            self.below.setdefault(high, []).append(low)
            self.above.setdefault(low, []).append(high)

    def depth_of(self, point):
        return point[2] if isinstance(point, tuple) else self.depth[point]

    def order(self):
        """Orders each layer by where the neighbours of its points are, down and up a few times."""
        rank = {point: place for layer in self.layers for point, place in ranks(layer)}
        for turn in range(8):
            neighbours = self.above if turn % 2 == 0 else self.below
            for layer in self.layers if turn % 2 == 0 else self.layers[::-1]:
                layer.sort(key=lambda point: mean([rank[each] for each in neighbours.get(point, [])], rank[point]))
                rank.update(ranks(layer))

    def placed(self):
        """Each point near its neighbours, as far as the order and the widths of the points allow."""
        xs = {}
        for layer in self.layers:
            x = -sum(map(self.width_of_point, layer)) / 2
            for point in layer:
                xs[point] = x + self.width_of_point(point) / 2
                x += self.width_of_point(point)
        for turn in range(24):
            for layer in self.layers if turn % 2 == 0 else self.layers[::-1]:
                wanted = {point: mean([xs[each] for each in self.above.get(point, []) + self.below.get(point, [])], xs[point]) for point in layer}
                xs.update(self.spread(layer, wanted))
        least = min(xs[point] - self.width_of_point(point) / 2 for point in xs)
        return {point: x - least for point, x in xs.items()}

    def spread(self, layer, wanted):
        """Moves points that are too near apart: midway between as far right and as far left as they may be."""
        rightward = self.pushed(layer, wanted, 1)
        leftward = self.pushed(layer[::-1], wanted, -1)
        return {point: (rightward[point] + leftward[point]) / 2 for point in layer}

    def pushed(self, layer, wanted, way):
        """Moves each point in one direction until it is clear of the one before."""
        moved, end = {}, float("-inf")
        for point in layer:
            half = self.width_of_point(point) / 2
            place = max(way * wanted[point], end + half)
            moved[point], end = way * place, place + half
        return moved

    def width(self):
        return max(x + self.width_of_point(point) / 2 for point, x in self.xs.items())


def ranks(layer):
    """Each point with its place from 0 to 1."""
    return [(point, (place + 0.5) / len(layer)) for place, point in enumerate(layer)]


def mean(values, otherwise):
    return sum(values) / len(values) if values else otherwise


def back_edges(machine):
    """The steps that lead back to a state on the way to where they begin: without them there is no circle."""
    back, done = set(), set()
    for root in range(len(machine.steps)):
        way = [] if root in done else [(root, iter(machine.steps[root]))]
        on_way = {root}
        while way:
            state, steps = way[-1]
            after = next((after for _, after in steps), None)
            if after is None:
                done.add(state)
                on_way.discard(state)
                way.pop()
            elif after in on_way:
                back.add((state, after))
            elif after not in done:
                on_way.add(after)
                way.append((after, iter(machine.steps[after])))
    return back


def depths(machine):
    """The layer of each state: the length of the longest way to it, where steps that lead back are turned round."""
    back = back_edges(machine)
    ways = {edge[::-1] if edge in back else edge for edge in machine.edges() if edge[0] != edge[1]}
    before = {state: [] for state in range(len(machine.steps))}
    for high, low in ways:
        before[low].append(high)
    depth, pending = {}, list(before)
    while pending:
        for state in pending:
            if all(high in depth for high in before[state]):
                depth[state] = 1 + max((depth[high] for high in before[state]), default=-1)
        pending = [state for state in pending if state not in depth]
    return [depth[state] for state in before]
