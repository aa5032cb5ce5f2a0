"""A mesh of the chosen tilings, its faults counted, and as a file.

A vertex is a number: 3 * place + axis for the point on the grid's edge that leaves `place` along the axis, and
3 * size ** 3 + place for the centre of the cube at `place`. So cubes that meet share their vertices.
"""
from collections import Counter, namedtuple

from ask import corner_steps
from chooser import mc33

CENTRE = 12

# The rules of drawing (docs/USING.md); without them a tiling is drawn as answered.
RULES = frozenset(["turn", "own row", "centre"])

# The tilings that may be answered at another row than their configuration's.
OTHER_ROWS = "10_1_2", "12_1_2", "13_5_2"

# Edges with an odd number of triangles; with an even number that do not run it as often one way as the other; run as
# often both ways, by four triangles or more; centres outside their cube; cubes without a tiling.
Faults = namedtuple("Faults", "open wrongly_wound fourfold astray untiled")


def drawn_row(choice, configuration, rules):
    """The row to draw of one of OTHER_ROWS, and whether to turn its triangles."""
    if choice.row == configuration:
        return choice.row, False
    if choice.name == "13_5_2" and "own row" in rules:
        return configuration, False
    return choice.row, "turn" in rules


def triangles_of(tables, choice, row, turn):
    """The triangles of a choice at a row, as triples of edge numbers."""
    flat = tables.tilings[choice.code][row][choice.column]
    return [(a, c, b) if turn else (a, b, c) for a, b, c in zip(flat[::3], flat[1::3], flat[2::3])]


class Mesh:
    def __init__(self, tables, values, size):
        self.values, self.size = values, size
        self.triangles, self.points, self.astray, self.untiled = [], {}, 0, 0
        self.strides = (1, size, size * size)
        self.corner_steps = corner_steps(tables, size)
        self.steps = [self._edge_step(tables, edge) for edge in range(12)] + [3 * size ** 3]
        self.last = (0.0, 0.0, 0.0)

    def _edge_step(self, tables, edge):
        first, second = (tables.offsets[corner] for corner in tables.edges[edge])
        axis = [a != b for a, b in zip(first, second)].index(True)
        return 3 * sum(map(int.__mul__, self.strides, map(min, first, second))) + axis

    def position(self, place):
        return place % self.size, place // self.size % self.size, place // self.size ** 2

    def crossing(self, vertex):
        """The point on a grid edge where the distance is 0, or None where its ends are on one side."""
        place, axis = divmod(vertex, 3)
        start, end = self.values[place], self.values[place + self.strides[axis]]
        if (start > 0) == (end > 0):
            return None
        point = list(self.position(place))
        point[axis] += start / (start - end)
        return tuple(point)

    def centre(self, place):
        """The mean of a cube's crossing points."""
        found = [point for step in self.steps[:CENTRE] if (point := self.crossing(3 * place + step))]
        return tuple(sum(part) / len(found) for part in zip(*found))

    def configuration(self, place):
        """The configuration of the cube at `place`: that of the set of its corners above 0."""
        above = (self.values[place + step] > 0 for step in self.corner_steps)
        return mc33.family_of(sum(1 << corner for corner, belongs in enumerate(above) if belongs)).configuration

    def add(self, tables, place, choice, rules):
        if choice.code == mc33.NO_TILING:
            self.untiled += 1
            return
        row, turn, steps = choice.row, False, self.steps
        if choice.name in OTHER_ROWS:
            row, turn = drawn_row(choice, self.configuration(place), rules)
        for triple in triangles_of(tables, choice, row, turn):
            if CENTRE in triple:
                self._add_centre(place, choice.centre or "centre" in rules)
            self.triangles.append(tuple(
                3 * place + steps[edge] if edge != CENTRE else steps[CENTRE] + place for edge in triple))

    def _add_centre(self, place, own):
        """The cube's own centre, or, as the source does for 6_1_2, the last one that was computed."""
        vertex = self.steps[CENTRE] + place
        if vertex in self.points:
            return
        if own:
            self.last = self.centre(place)
        self.points[vertex] = self.last
        self.astray += any(not 0 <= a - b <= 1 for a, b in zip(self.last, self.position(place)))

    def faults(self):
        runs = Counter()
        for a, b, c in self.triangles:
            for start, end in ((a, b), (b, c), (c, a)):
                runs[(start, end) if start < end else (end, start)] += 1 if start < end else 1000
        odd = wrong = fourfold = 0
        for both, number in Counter(runs.values()).items():
            down, up = divmod(both, 1000)
            odd += number * ((up + down) % 2)
            wrong += number * ((up + down) % 2 == 0 and up != down)
            fourfold += number * (up == down > 1)
        return Faults(odd, wrong, fourfold, self.astray, self.untiled)

    def numbered(self):
        """Points, and triangles as triples of places in them, counted from 0."""
        places, points = {}, []
        for triangle in self.triangles:
            for vertex in triangle:
                if vertex not in places:
                    places[vertex] = len(points)
                    points.append(self.points.get(vertex) or self.crossing(vertex))
        return points, [tuple(places[vertex] for vertex in triangle) for triangle in self.triangles]


def draw(tables, values, size, cubes, rules=RULES):
    mesh = Mesh(tables, values, size)
    for place, choice in cubes:
        mesh.add(tables, place, choice, rules)
    return mesh


def write_ply(file, points, triangles):
    file.write(f"ply\nformat ascii 1.0\nelement vertex {len(points)}\n"
               "property float x\nproperty float y\nproperty float z\n"
               f"element face {len(triangles)}\nproperty list uchar int vertex_indices\nend_header\n")
    file.writelines("%.7g %.7g %.7g\n" % point for point in points)
    file.writelines("3 %d %d %d\n" % triangle for triangle in triangles)


def write_obj(file, points, triangles):
    file.writelines("v %.7g %.7g %.7g\n" % point for point in points)
    file.writelines("f %d %d %d\n" % (a + 1, b + 1, c + 1) for a, b, c in triangles)
