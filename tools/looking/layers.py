"""Places the nodes and edges of a graph in layers, by walks from the start.

A node's layer is the length of the longest walk from the start that takes no edge back: what stands above something comes before it. An edge
is one back if a search in depth from the start, along labels as they are numbered, meets a node that it hasn't left yet. Between two layers
of nodes is one of labels, so that each label has room of its own. Within a layer what is connected stands near each other: first the order is
chosen (by medians of neighbours, the order with the fewest crossings), then the places (by means of neighbours, as near as the order allows).

Only sums, products and quotients of floats are used, which are the same on every machine; all places are whole numbers in the end.
"""
import bisect

NODE_HEIGHT, LABEL_HEIGHT, GAP_ACROSS, GAP_DOWN, MARGIN = 42, 30, 18, 13, 14
ARROW = 8
BIG = 3_000


class Spot:
    """What has a place: a node, or a point of an edge, which may have the edge's label."""

    def __init__(self, layer, width, node=None, edge=None):
        self.layer, self.width, self.node, self.edge = layer, width, node, edge
        self.above, self.below, self.x, self.y = [], [], 0.0, 0

    def is_bend(self):
        """Whether it is a bare point of an edge."""
        return self.node is None and self.width == 0


def back_edges(graph):
    """The labels of the edges back, and all nodes so that each one stands behind those from which an edge that isn't back leads to it."""
    back, ended, under_way = set(), [], {}
    for first in range(len(graph.nodes)):
        stack = [] if first in under_way else [(first, iter(graph.leaving(first)))]
        under_way.setdefault(first, True)
        while stack:
            node, labels = stack[-1]
            label = next(labels, None)
            if label is None:
                under_way[node] = False
                ended.append(node)
                stack.pop()
                continue
            target = graph.edges[label].target
            if under_way.get(target):
                back.add(label)
            elif target not in under_way:
                under_way[target] = True
                stack.append((target, iter(graph.leaving(target))))
    return back, ended[::-1]


def layers_of(graph, back, order):
    """The layer of each node."""
    layer = [0] * len(graph.nodes)
    for node in order:
        for label in graph.leaving(node):
            if label not in back:
                target = graph.edges[label].target
                layer[target] = max(layer[target], layer[node] + 1)
    return layer


class Layout:
    """Where everything stands: `nodes` and, for each label, its `labels` spot and its `ways`, the points that it goes through."""

    def __init__(self, graph, node_widths, label_widths):
        self.graph = graph
        self.back, order = back_edges(graph)
        self.layer = layers_of(graph, self.back, order)
        self.rows = [[] for _ in range(2 * max(self.layer) + 1)]
        self.nodes = [Spot(2 * self.layer[node], width, node=node) for node, width in enumerate(node_widths)]
        self.labels, self.chains, self.loops = {}, {}, [label for label, edge in enumerate(graph.edges) if edge.source == edge.target]
        for node in order:
            self.rows[self.nodes[node].layer].append(self.nodes[node])
        for label in self.in_search_order(order):
            self.chain(label, label_widths[label])
        self.label_widths = label_widths
        self.arrange()
        self.place()

    def in_search_order(self, order):
        """The labels but loops, by the places of their sources in an order of the nodes."""
        return [label for node in order for label in self.graph.leaving(node) if label not in self.loops]

    def chain(self, label, width):
        """Makes the spots between an edge's two ends; its label stands next to its source."""
        edge = self.graph.edges[label]
        upper, lower = (edge.target, edge.source) if label in self.back else (edge.source, edge.target)
        top, bottom = self.nodes[upper], self.nodes[lower]
        at = bottom.layer - 1 if label in self.back else top.layer + 1
        spots = [top]
        for layer in range(top.layer + 1, bottom.layer):
            spots.append(Spot(layer, width if layer == at else 0, edge=label))
            self.rows[layer].append(spots[-1])
            if layer == at:
                self.labels[label] = spots[-1]
        spots.append(bottom)
        for one, two in zip(spots, spots[1:]):
            one.below.append(two)
            two.above.append(one)
        self.chains[label] = spots

    # The order within the layers.

    def crossings(self):
        """How many pairs of lines cross."""
        found = 0
        for row in self.rows[1:]:
            above = {id(spot): place for place, spot in enumerate(self.rows[row[0].layer - 1])} if row else {}
            ends = [sorted(above[id(spot)] for spot in spot.above) for spot in row]
            before = []
            for places in ends:
                for place in places:
                    found += len(before) - bisect.bisect_right(before, place)
                for place in places:
                    bisect.insort(before, place)
        return found

    def sort(self, rows, neighbours):
        """Orders rows one after the other, each by the medians of its neighbours in the row before."""
        for row in rows:
            places = {}
            for spot in row:
                for place, other in enumerate(self.rows[spot.layer + (1 if neighbours == 'below' else -1)]) if not places else ():
                    places[id(other)] = place
            keys = {}
            for place, spot in enumerate(row):
                near = sorted(places[id(other)] for other in getattr(spot, neighbours))
                middle = len(near) // 2
                keys[id(spot)] = place if not near else near[middle] if len(near) % 2 else (near[middle - 1] + near[middle]) / 2
            row.sort(key=lambda spot: keys[id(spot)])

    def exchange(self):
        """Exchanges neighbours in a layer as long as fewer lines cross."""
        better = True
        while better:
            better = False
            for row in self.rows:
                for place in range(len(row) - 1):
                    least = self.crossings()
                    row[place], row[place + 1] = row[place + 1], row[place]
                    if self.crossings() < least:
                        better = True
                    else:
                        row[place], row[place + 1] = row[place + 1], row[place]

    def arrange(self):
        """Chooses the order within each layer."""
        size = sum(len(row) for row in self.rows)
        best, least = [list(row) for row in self.rows], self.crossings()
        for turn in range(16 if size < BIG else 2):
            if least == 0:
                break
            self.sort(self.rows[1:] if turn % 2 == 0 else self.rows[-2::-1], 'above' if turn % 2 == 0 else 'below')
            now = self.crossings()
            if now < least:
                best, least = [list(row) for row in self.rows], now
        self.rows = best
        if least and size < 120:
            self.exchange()

    # The places.

    def row_places(self, row, wanted, weights):
        """The places in a row nearest to the wanted ones, in its order and with gaps: means of neighbours that would otherwise overlap."""
        offsets, blocks = [0.0], []
        for one, two in zip(row, row[1:]):
            offsets.append(offsets[-1] + (one.width + two.width) / 2 + GAP_ACROSS)
        for place, (want, weight) in enumerate(zip(wanted, weights)):
            blocks.append([(want - offsets[place]) * weight, weight, 1])
            while len(blocks) > 1 and blocks[-2][0] * blocks[-1][1] > blocks[-1][0] * blocks[-2][1]:
                last = blocks.pop()
                blocks[-1] = [one + two for one, two in zip(blocks[-1], last)]
        means = [total / weight for total, weight, count in blocks for _ in range(count)]
        return [mean + offset for mean, offset in zip(means, offsets)]

    def settle(self, row, neighbours):
        """Moves a row's spots towards their neighbours; points of one edge pull each other hardest, so that long edges are straight."""
        wanted, weights = [], []
        for spot in row:
            near = [(other, 8 if spot.edge is not None and other.edge is not None else 2 if spot.edge is not None or other.edge is not None else 1)
                    for side in neighbours for other in getattr(spot, side)]
            weight = sum(pull for _, pull in near)
            wanted.append(sum(other.x * pull for other, pull in near) / weight if near else spot.x)
            weights.append(weight if near else 0.1)
        for spot, x in zip(row, self.row_places(row, wanted, weights)):
            spot.x = x

    def room(self, spot, places):
        """From where to where a spot may move while its neighbours stay."""
        row, place = self.rows[spot.layer], places[id(spot)]
        least = row[place - 1].x + (row[place - 1].width + spot.width) / 2 + GAP_ACROSS if place else spot.x - 1_000.0
        most = row[place + 1].x - (row[place + 1].width + spot.width) / 2 - GAP_ACROSS if place + 1 < len(row) else spot.x + 1_000.0
        return least, most

    def straighten(self):
        """Puts the points of an edge upon each other, as many in a row as their neighbours leave room for."""
        places = {id(spot): place for row in self.rows for place, spot in enumerate(row)}
        for chain in self.chains.values():
            rest = chain[1:-1]
            while rest:
                least, most = self.room(rest[0], places)
                count = 1
                while count < len(rest):
                    low, high = self.room(rest[count], places)
                    if max(least, low) > min(most, high):
                        break
                    least, most, count = max(least, low), min(most, high), count + 1
                mean = sum(spot.x for spot in rest[:count]) / count
                for spot in rest[:count]:
                    spot.x = min(max(mean, least), most) if least <= most else spot.x
                rest = rest[count:]

    def place(self):
        """Chooses all places, in whole numbers."""
        for row in self.rows:
            for spot, x in zip(row, self.row_places(row, [0.0] * len(row), [1.0] * len(row))):
                spot.x = x
        for _ in range(24 if sum(len(row) for row in self.rows) < BIG else 4):
            for row in self.rows:
                self.settle(row, ['above'])
            for row in self.rows[::-1]:
                self.settle(row, ['below'])
            for row in self.rows:
                self.settle(row, ['above', 'below'])
        self.straighten()
        left = min(spot.x - spot.width / 2 for row in self.rows for spot in row)
        y = MARGIN
        for number, row in enumerate(self.rows):
            height = LABEL_HEIGHT if number % 2 else NODE_HEIGHT
            for spot in row:
                spot.x, spot.y = int(spot.x - left + MARGIN + 0.5), y + height // 2
            y += height + GAP_DOWN
        spare = max((self.label_widths[label] for label in self.loops), default=-40) + 40
        self.width = int(max(spot.x + spot.width / 2 for row in self.rows for spot in row) + MARGIN + spare)
        self.height = y - GAP_DOWN + MARGIN

    # What is drawn.

    def port(self, spot, label, side):
        """Where on a node's lower or upper side the line of a label ends: lines stand side by side in the order of their other ends."""
        ends = []
        for other, chain in self.chains.items():
            if side == 'below' and chain[0] is spot:
                ends.append((chain[1].x, other))
            if side == 'above' and chain[-1] is spot:
                ends.append((chain[-2].x, other))
        ends.sort()
        place, room = [other for _, other in ends].index(label), min(18.0, (spot.width - 20) / len(ends))
        return int(spot.x + (place - (len(ends) - 1) / 2) * room)

    def way(self, label):
        """The points that an edge goes through, from its source to its target."""
        chain = self.chains[label]
        points = [(self.port(chain[0], label, 'below'), chain[0].y + NODE_HEIGHT // 2)]
        for spot in chain[1:-1]:
            # (beside nodes it goes straight down)
            half = 0 if spot.layer % 2 else NODE_HEIGHT // 2
            points += [(spot.x, spot.y - half), (spot.x, spot.y + half)] if half else [(spot.x, spot.y)]
        points.append((self.port(chain[-1], label, 'above'), chain[-1].y - NODE_HEIGHT // 2))
        return points[::-1] if label in self.back else points

    def tip(self, label):
        """The head of an edge's arrow, as the points of an SVG."""
        if label in self.loops:
            spot = self.nodes[self.graph.edges[label].source]
            x, y = int(spot.x + spot.width / 2), spot.y + 10
            return f'{x},{y} {x + ARROW},{y - 5} {x + ARROW},{y + 4}'
        x, y = self.way(label)[-1]
        behind = ARROW if label in self.back else -ARROW
        return f'{x},{y} {x - 5},{y + behind} {x + 5},{y + behind}'

    def path(self, label):
        """The line of an edge as the path of an SVG: upright where it passes a point, straight where points stand upon each other."""
        if label in self.loops:
            spot = self.nodes[self.graph.edges[label].source]
            x, y = int(spot.x + spot.width / 2), spot.y
            return f'M{x} {y - 10}C{x + 34} {y - 26} {x + 34} {y + 26} {x} {y + 10}'
        points = self.way(label)
        points[-1] = (points[-1][0], points[-1][1] + (ARROW if label in self.back else -ARROW))
        spelled = [f'M{points[0][0]} {points[0][1]}']
        for place, ((x, y), (to_x, to_y)) in enumerate(zip(points, points[1:])):
            if x != to_x:
                middle = (y + to_y) // 2
                spelled.append(f'C{x} {middle} {to_x} {middle} {to_x} {to_y}')
            elif place + 2 == len(points) or points[place + 2][0] != x:
                spelled.append(f'V{to_y}')
        return ''.join(spelled)

    def label_place(self, label):
        """Where the middle of an edge's label stands."""
        if label in self.loops:
            spot = self.nodes[self.graph.edges[label].source]
            return int(spot.x + spot.width / 2) + 32 + self.label_widths[label] // 2, spot.y
        return self.labels[label].x, self.labels[label].y
