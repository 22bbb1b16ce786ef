"""Reads the text of a picture as a viewer does: every shape is taken to where its transforms move it.

Boxes of text are estimates, from a width for each character that common fonts do not exceed.
"""

import math
import re
import xml.etree.ElementTree as tree
from collections import Counter


class Shape:
    """An element, the transforms around it and the panel it belongs to: 0 is the headline, 1 the ring, 2 the histogram."""

    def __init__(self, element, matrix, panel):
        self.element, self.matrix, self.panel = element, matrix, panel
        self.tag = element.tag.split("}")[1]
        self.tip = next((child.text for child in element if child.tag.endswith("}title")), None)

    def get(self, name, default="0"):
        return float(self.element.get(name, default))

    def moved(self, points):
        a, b, c, d, e, f = self.matrix
        return [(a * x + c * y + e, b * x + d * y + f) for x, y in points]

    def points(self):
        """The corners of a box around the shape; for an arc, of the circle that it is a part of."""
        x, y = self.get("x"), self.get("y")
        if self.tag == "rect":
            return self.moved(corners(x, y, x + self.get("width"), y + self.get("height")))
        if self.tag == "circle":
            x, y, r = self.get("cx"), self.get("cy"), self.get("r")
            return self.moved(corners(x - r, y - r, x + r, y + r))
        if self.tag == "line":
            return self.moved([(self.get("x1"), self.get("y1")), (self.get("x2"), self.get("y2"))])
        if self.tag == "polygon":
            return self.moved([tuple(map(float, pair.split(","))) for pair in self.element.get("points").split()])
        if self.tag == "path":
            r = float(re.search(r"A(\S+)", self.element.get("d"))[1])
            return self.moved(corners(-r, -r, r, r))
        return self.moved(self.text_box(x, y))

    def text_box(self, x, y):
        mono, bold = self.element.get("font-family") == "monospace", self.element.get("font-weight") == "bold"
        size = self.get("font-size")
        cells = sum(2 if ord(c) > 0x2E80 else 1 for c in self.element.text)
        wide = cells * size * (0.605 if mono else 0.69 if bold else 0.61)
        left = x - wide * {"start": 0, "middle": 0.5, "end": 1}[self.element.get("text-anchor", "start")]
        return corners(left, y - 0.76 * size, left + wide, y + 0.2 * size)


def corners(left, top, right, bottom):
    return [(left, top), (right, top), (right, bottom), (left, bottom)]


def times(one, two):
    a, b, c, d, e, f = one
    p, q, r, s, t, u = two
    return a * p + c * q, b * p + d * q, a * r + c * s, b * r + d * s, a * t + c * u + e, b * t + d * u + f


def matrix_of(words):
    matrix = (1, 0, 0, 1, 0, 0)
    for name, numbers in re.findall(r"(\w+)\(([^)]*)\)", words or ""):
        values = [float(value) for value in numbers.split()]
        if name == "rotate":
            sine, cosine = math.sin(math.radians(values[0])), math.cos(math.radians(values[0]))
            step = (cosine, sine, -sine, cosine, 0, 0)
        else:
            step = {"translate": (1, 0, 0, 1, *values), "scale": (values[0], 0, 0, values[0], 0, 0)}[name]
        matrix = times(matrix, step)
    return matrix


class Picture:
    def __init__(self, source):
        self.source, self.root, self.shapes = source, tree.fromstring(source), []
        self.panels = [child for child in self.root if child.tag.endswith("}g")]
        for number, panel in enumerate(self.panels):
            self.walk(panel, (1, 0, 0, 1, 0, 0), number)

    def walk(self, element, matrix, panel):
        matrix = times(matrix, matrix_of(element.get("transform")))
        shape = Shape(element, matrix, panel)
        if shape.tag not in ("g", "title"):
            self.shapes.append(shape)
        for child in element:
            self.walk(child, matrix, panel)

    def of(self, tag, panel=None):
        return [shape for shape in self.shapes if shape.tag == tag and panel in (None, shape.panel)]

    def words(self, panel):
        return Counter(shape.element.text for shape in self.of("text", panel))

    def arrows(self):
        """What each arrow of the ring is called, and the shapes that it is made of: its line, its head and its mark."""
        shapes = {shape.element: shape for shape in self.shapes}
        return [(group[0].text, [shapes[part] for part in group[1:]]) for group in self.panels[1] if group.tag.endswith("}g")]

    def bars(self):
        return [shape for shape in self.of("rect", 2) if shape.tip]


def box(points):
    return min(x for x, _ in points), min(y for _, y in points), max(x for x, _ in points), max(y for _, y in points)


def distance(point, rectangle):
    """From a point to a rectangle, however it is turned; 0 inside."""
    corner, *sides = rectangle[0], rectangle[1], rectangle[3]
    offset = [point[0] - corner[0], point[1] - corner[1]]
    beyond = []
    for side in sides:
        along = [side[0] - corner[0], side[1] - corner[1]]
        length = math.hypot(*along)
        reach = (offset[0] * along[0] + offset[1] * along[1]) / length
        beyond.append(max(0, -reach, reach - length))
    return math.hypot(*beyond)


def apart(one, two):
    """Whether a side of one of the two rectangles has all of the other beyond it."""
    for points in (one, two):
        for (x1, y1), (x2, y2) in zip(points, points[1:3]):
            spans = [[(x2 - x1) * x + (y2 - y1) * y for x, y in each] for each in (one, two)]
            if max(spans[0]) <= min(spans[1]) or max(spans[1]) <= min(spans[0]):
                return True
    return False


def overlaps(shapes):
    """The pairs of shapes that share some of the picture, one of which at least is a text."""
    boxes = []
    for shape in shapes:
        points = shape.points()
        boxes.append((box(points), points if shape.tag == "text" else corners(*box(points)), shape.element.text or shape.tag, shape.tag))
    boxes.sort()
    for k, (bounds, points, words, tag) in enumerate(boxes):
        for other, others, more, kind in boxes[k + 1 :]:
            if other[0] >= bounds[2]:
                break
            if "text" in (tag, kind) and other[1] < bounds[3] and bounds[1] < other[3] and not apart(points, others):
                yield words, more


def nearest(point, rectangles):
    return min(rectangles, key=lambda name: distance(point, rectangles[name]))


def middle(shape):
    return tuple(sum(values) / len(values) for values in zip(*shape.points()))


def meant(tip):
    """The count and the kind that a bar is said to have, and its least and greatest slack."""
    count, kind, reach = re.fullmatch(r"(\d+) (\w+), (.*)", tip).groups()
    low, high = next(
        ends(*map(int, match.groups()))
        for form, ends in (
            (r"below (-?\d+) ps", lambda edge: (-math.inf, edge - 1)),
            (r"(-?\d+) ps or more", lambda edge: (edge, math.inf)),
            (r"(-?\d+) ps", lambda edge: (edge, edge)),
            (r"(-?\d+) to (-?\d+) ps", lambda low, high: (low, high)),
        )
        for match in [re.fullmatch(form, reach)]
        if match
    )
    return int(count), kind, low, high
