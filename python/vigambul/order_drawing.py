"""The order of a policy as a drawing: the least class at the bottom, and a line from each class to those directly above it. Flows go upwards along the lines.

The drawing is made in the usual steps for layered graphs. A class's layer is the longest way up to it; a line that passes layers gets a place in each of them, so that it runs
between the boxes; places are put in an order with few crossings, and then moved sideways towards what they are joined to, as far as the boxes leave room."""

from .svg import coordinate, element, file_of, text
from .words import counted

# Sizes in pixels.
LETTER = 10.0
SMALL_LETTER = 7.2
NAME_LINE = 18
SMALL_LINE = 15
LONGEST_LINE = 16
PADDING = 10
BESIDE = 24
BETWEEN = 44
MARGIN = 24
PLACE = 14
CAPTION = 44
LEAST_FILL = "#DCEBF7"
STYLE = """
text { font: 12px 'DejaVu Sans', Verdana, sans-serif; text-anchor: middle; fill: #33475B }
text.name { font-size: 14px; font-weight: bold; fill: #000000 }
.box { stroke: #33475B; stroke-width: 1.5 }
polyline { fill: none; stroke: #33475B; stroke-width: 1.5; stroke-linejoin: round }
"""


class Place:
    """A box of a class, or (with no class) where a line passes a layer."""

    def __init__(self, layer, number=None, lines=()):
        self.layer, self.number, self.lines = layer, number, lines
        self.width = PLACE if number is None else _width(lines)
        self.x = 0.0
        # What it is joined to in the layers below and above.
        self.down, self.up = [], []


def name_lines(name):
    """A name in lines that fit a box, broken behind a - or _ where there is one."""
    lines = []
    while len(name) > LONGEST_LINE:
        cut = max(name.rfind(mark, LONGEST_LINE // 2, LONGEST_LINE) for mark in "-_") + 1 or LONGEST_LINE
        lines.append(name[:cut])
        name = name[cut:]
    return lines + [name]


def _width(lines):
    name, small = lines
    return 2 * PADDING + max([LETTER * len(line) for line in name] + [SMALL_LETTER * len(line) for line in small])


def _small_lines(policy, names, number):
    """What stands below the name. A class without a name has its number for one already."""
    return ["class %d" % number] * (number in names.by_number) + ["minimum %d" % policy.minimums[number], "cap %d" % policy.cap(number)]


def layers_of(policy):
    """The layer of each class: the number of steps on the longest way up to it."""
    layers = [0] * policy.classes
    for _ in range(policy.classes):
        for i in range(policy.classes):
            for j in policy.covers(i):
                layers[j] = max(layers[j], layers[i] + 1)
    return layers


def _graph(policy, names):
    """The places by layer, and for each line the places that it goes through from below."""
    layers = layers_of(policy)
    boxes = [Place(layers[i], i, (name_lines(names.of(i)), _small_lines(policy, names, i))) for i in range(policy.classes)]
    by_layer = [[box for box in boxes if box.layer == layer] for layer in range(max(layers) + 1)]
    edges = []
    for i in range(policy.classes):
        for j in policy.covers(i):
            way = [boxes[i]]
            for layer in range(layers[i] + 1, layers[j]):
                way.append(Place(layer))
                by_layer[layer].append(way[-1])
            way.append(boxes[j])
            edges.append(way)
            for lower, upper in zip(way, way[1:]):
                lower.up.append(upper)
                upper.down.append(lower)
    return by_layer, edges


def _crossings(by_layer):
    """How many pairs of lines cross between neighbouring layers."""
    count = 0
    for layer, upper in zip(by_layer, by_layer[1:]):
        rank = {id(place): at for at, place in enumerate(upper)}
        ends = [rank[id(other)] for place in layer for other in sorted(place.up, key=lambda other: rank[id(other)])]
        count += sum(1 for at, end in enumerate(ends) for later in ends[at + 1 :] if later < end)
    return count


def _mean_rank(place, joined, layer):
    ranks = [at for at, other in enumerate(layer) if other in joined]
    return sum(ranks) / len(ranks) if ranks else None


def _sweep(by_layer, upwards):
    """Sorts each layer by where its neighbours in the layer before stand; a place without any keeps its own."""
    order = range(1, len(by_layer)) if upwards else range(len(by_layer) - 2, -1, -1)
    for at in order:
        before = by_layer[at - 1 if upwards else at + 1]
        keys = {id(place): _mean_rank(place, place.down if upwards else place.up, before) for place in by_layer[at]}
        own = {id(place): rank for rank, place in enumerate(by_layer[at])}
        by_layer[at].sort(key=lambda place: own[id(place)] if keys[id(place)] is None else keys[id(place)])


def _swap(by_layer):
    """Swaps neighbours as long as that takes crossings away."""
    best, better = _crossings(by_layer), True
    while better:
        better = False
        for layer in by_layer:
            for at in range(len(layer) - 1):
                layer[at], layer[at + 1] = layer[at + 1], layer[at]
                count = _crossings(by_layer)
                if count < best:
                    best, better = count, True
                else:
                    layer[at], layer[at + 1] = layer[at + 1], layer[at]


def _sort(by_layer):
    """Puts each layer in an order with few crossings."""
    best, kept = _crossings(by_layer), [list(layer) for layer in by_layer]
    for turn in range(8):
        _sweep(by_layer, turn % 2 == 0)
        count = _crossings(by_layer)
        if count < best:
            best, kept = count, [list(layer) for layer in by_layer]
    by_layer[:] = kept
    _swap(by_layer)


def _settle(layer, wanted):
    """Moves the places of a layer as near as can be to where they want to be, in their order and with room between them: neighbours that would be too near are pooled, and
    a pool stands where its members want to be on the average."""
    offsets, at = [], 0.0
    for before, place in zip([None] + layer, layer):
        at += 0 if before is None else (before.width + place.width) / 2 + BESIDE
        offsets.append(at)
    pools = []
    for place, want, offset in zip(layer, wanted, offsets):
        pools.append([want - offset, 1])
        while len(pools) > 1 and pools[-2][0] >= pools[-1][0]:
            (mean, count), (last, more) = pools[-2], pools.pop()
            pools[-1] = [(mean * count + last * more) / (count + more), count + more]
    means = [mean for mean, count in pools for _ in range(count)]
    for place, mean, offset in zip(layer, means, offsets):
        place.x = mean + offset


def _place(by_layer):
    """Gives each place its x: first each layer about the middle, then all towards what they are joined to."""
    for layer in by_layer:
        _settle(layer, [0.0] * len(layer))
    for turn in range(40):
        for layer in by_layer if turn % 2 == 0 else reversed(by_layer):
            wanted = []
            for place in layer:
                joined = place.down + place.up
                wanted.append(sum(other.x for other in joined) / len(joined) if joined else place.x)
            _settle(layer, wanted)


class _Drawing:
    """The places put on paper, layer 0 at the bottom."""

    def __init__(self, policy, names):
        self.policy, self.names = policy, names
        self.by_layer, self.edges = _graph(policy, names)
        _sort(self.by_layer)
        _place(self.by_layer)
        places = [place for layer in self.by_layer for place in layer]
        left = min(place.x - place.width / 2 for place in places)
        for place in places:
            place.x += MARGIN - left
        self.caption = "Flows go upwards along the lines: a class may flow to itself and to all above it."
        self.title = "Epoch of %s, %s" % (counted(policy.epoch, "turn"), counted(policy.classes, "class", "classes"))
        widest = max(place.x + place.width / 2 for place in places) + MARGIN
        self.width = max(widest, 2 * MARGIN + SMALL_LETTER * len(self.caption))
        for place in places:
            place.x += (self.width - widest) / 2
        self.box_height = 2 * PADDING + max(NAME_LINE * len(place.lines[0]) + SMALL_LINE * len(place.lines[1]) for place in places if place.lines)
        # The further the lines go sideways, the more room they get between two layers.
        aside = max((abs(upper.x - lower.x) for way in self.edges for lower, upper in zip(way, way[1:])), default=0)
        self.step = self.box_height + BETWEEN + aside / 6
        self.height = 2 * MARGIN + CAPTION + (len(self.by_layer) - 1) * self.step + self.box_height

    def top(self, layer):
        """The upper edge of a layer's boxes."""
        return MARGIN + (len(self.by_layer) - 1 - layer) * self.step

    def line(self, way):
        """A line from box to box; through the layers between it runs straight up."""
        points = [(way[0].x, self.top(way[0].layer))]
        for place in way[1:-1]:
            points += [(place.x, self.top(place.layer) + self.box_height), (place.x, self.top(place.layer))]
        points.append((way[-1].x, self.top(way[-1].layer) + self.box_height))
        return element("polyline", points=" ".join("%s,%s" % (coordinate(x), coordinate(y)) for x, y in points))

    def box(self, place):
        """A class's box, with its name, number, minimum and cap."""
        name, small = place.lines
        top = self.top(place.layer)
        fill = LEAST_FILL if place.number == self.policy.least else "#FFFFFF"
        parts = [element("rect", kind="box", x=place.x - place.width / 2, y=top, width=place.width, height=self.box_height, rx=5, fill=fill)]
        y = top + (self.box_height - NAME_LINE * len(name) - SMALL_LINE * len(small)) / 2
        for line in name:
            y += NAME_LINE
            parts.append(text(place.x, y - 4, line, kind="name"))
        for line in small:
            y += SMALL_LINE
            parts.append(text(place.x, y - 4, line))
        return element("g", "".join(parts))

    def svg(self):
        middle, bottom = self.width / 2, self.height - MARGIN
        parts = [self.line(way) for way in self.edges]
        parts += [self.box(place) for layer in self.by_layer for place in layer if place.number is not None]
        parts += [text(middle, bottom - 14, self.title), text(middle, bottom + 4, self.caption)]
        return file_of(self.width, self.height, self.title, STYLE, parts)


def svg_of(policy, names):
    """The drawing as an SVG file's text."""
    return _Drawing(policy, names).svg()


def dot_of(policy, names):
    """The order for Graphviz: an edge from each class to each directly above it."""
    lines = ["digraph order {", "  rankdir=BT;", "  node [shape=box];"]
    for number in range(policy.classes):
        label = "\\n".join([names.of(number)] + _small_lines(policy, names, number))
        lines.append('  c%d [label="%s"];' % (number, label))
    lines += ["  c%d -> c%d;" % (i, j) for i in range(policy.classes) for j in policy.covers(i)]
    return "\n".join(lines + ["}"]) + "\n"
