"""The loop as a ring: registers on a circle, arrows between them clockwise, and the sum in the middle.

Up to FLAT arrows the labels stand level, and the ring grows until none touches another. Beyond that they stand radially, names outside and
rules inside, and the ring grows with their number. Lengths of labels are estimates on the wide side (shapes.width).
"""

import math
from collections import namedtuple

from .shapes import COLOURS, DASHES, FAINT, INK, Panel, mark, number, signed, text, tip, width

FLAT = 12
SIZE = 12  # of the labels' font
PITCH = 15  # between radial labels, where they are closest
GAP = 15  # between the circle and a label
APART = 10  # between level labels
INSET = 11  # between the circle and the marks, where arrows are too short to bear them

# The middle and half the extents of a level label.
Box = namedtuple("Box", "x y across up")
# The circle's radius, the sizes of what stands on it, and how far inside it the marks stand.
Circle = namedtuple("Circle", "count radius node head mark inset")


def ring(loop, unit, show, absent):
    """The panel of the loop; of None a panel that says why there is none."""
    if loop is None:
        return empty(absent)
    rules = [(rule, name_of(rule), signed(rule["amount"], unit, show)) for rule in loop["rules"]]
    said = verdict(loop, unit, show)
    lay = level if len(rules) <= FLAT else radial
    circle, labels, points = lay(rules, said)
    parts = [part for k, (rule, _, _) in enumerate(rules) for part in arrow(circle, k, rule, unit, show)]
    parts += [node(circle, k, rule) for k, (rule, _, _) in enumerate(rules)] + labels
    return headed(parts, points, circle.radius, heading(loop, unit, show))


def name_of(rule):
    path = "path " if rule["kind"] in ("setup", "hold") else ""
    return f"{rule['kind']} {path}{rule['number']}"


def timeless(loop):
    """Without a setup rule the amounts know no period, so the loop contradicts itself at every one."""
    return all(rule["kind"] != "setup" for rule in loop["rules"])


def verdict(loop, unit, show):
    """The lines in the middle. The first is the sum."""
    when = "every period" if timeless(loop) else f"{show(loop['period'])} {unit}"
    which = "any period" if timeless(loop) else "this period"
    return [
        f"sum {signed(loop['sum'], unit, show)}",
        "the amounts add up to",
        f"{show(loop['sum'])} > 0 at {when},",
        "so the clock cannot",
        f"have {which}",
    ]


def heading(loop, unit, show):
    when = "every period" if timeless(loop) else f"{show(loop['period'])} {unit}"
    return [f"A loop that contradicts itself at {when}", "an arrow from a to b: latency of b >= latency of a + amount"]


def direction(k, count):
    """Where place k of the 2 * count on the circle lies, as seen from the middle: 0 at the top, then clockwise."""
    angle = math.pi * k / count
    return math.sin(angle), -math.cos(angle)


def point(circle, k, along=0.0, out=0.0):
    """The place k, moved along the circle and away from the middle."""
    angle = math.pi * k / circle.count + along / circle.radius
    return (circle.radius + out) * math.sin(angle), -(circle.radius + out) * math.cos(angle)


def arrow(circle, k, rule, unit, show):
    """The arrow from register k's place to the next one's, with its kind's mark halfway."""
    kind = rule["kind"]
    x1, y1 = point(circle, 2 * k, circle.node)
    x2, y2 = point(circle, 2 * k + 2, -circle.node - circle.head)
    tips = [point(circle, 2 * k + 2, -circle.node)]
    tips += [point(circle, 2 * k + 2, -circle.node - circle.head, side * circle.head * 0.45) for side in (1, -1)]
    radius = number(circle.radius)
    turn = f"A{radius} {radius} 0 {1 if circle.count == 1 else 0} 1 {number(x2)} {number(y2)}"
    dash = f' stroke-dasharray="{DASHES[kind]}"' if DASHES[kind] else ""
    told = f"{name_of(rule)}: latency of {rule['head']} >= latency of {rule['tail']} {signed(rule['amount'], unit, show)}"
    corners = " ".join(f"{number(x)},{number(y)}" for x, y in tips)
    yield f"<g>{tip(told)}"
    yield f'<path d="M{number(x1)} {number(y1)}{turn}" fill="none" stroke="{COLOURS[kind]}" stroke-width="2.5"{dash}/>'
    yield f'<polygon points="{corners}" fill="{COLOURS[kind]}"/>'
    yield mark(kind, *point(circle, 2 * k + 1, out=-circle.inset), circle.mark) + "</g>"


def node(circle, k, rule):
    x, y = point(circle, 2 * k)
    shape = f'cx="{number(x)}" cy="{number(y)}" r="{number(circle.node - 1)}"'
    return f'<circle {shape} fill="#ffffff" stroke="{INK}" stroke-width="1.5">{tip(rule["tail"])}</circle>'


def block(said, size):
    """The extents of the middle's lines in a font of the size; the first line is half as large again."""
    wide = max(width(said[0], 1.5 * size, bold=True), *(width(words, size) for words in said[1:]))
    return wide, size * (2.2 + 1.35 * (len(said) - 1))


def middle(said, size):
    """The middle's lines, centred on the origin."""
    down = -block(said, size)[1] / 2 + 1.5 * size
    parts = [text(0, down, said[0], 1.5 * size, "middle", bold=True)]
    return parts + [text(0, down + size * (1.6 + 1.35 * k), words, size, "middle") for k, words in enumerate(said[1:])]


def level(rules, said):
    """Labels that stand level. The ring grows until no two of them, nor one and the middle, come close."""
    wide, high = block(said, 13)
    radius = 100
    while True:
        names = [name_box(rule["tail"], direction(2 * k, len(rules)), radius + GAP) for k, (rule, _, _) in enumerate(rules)]
        rooms = [rule_box(words, direction(2 * k + 1, len(rules)), radius - GAP) for k, (_, *words) in enumerate(rules)]
        if None not in rooms and clear([Box(0, 0, wide / 2, high / 2), *names, *rooms]):
            break
        radius += 5
    parts = middle(said, 13)
    for (rule, title, amount), name, room in zip(rules, names, rooms):
        parts.append(text(name.x, name.y + 0.35 * SIZE, rule["tail"], SIZE, "middle", mono=True, bold=True))
        parts.append(text(room.x, room.y - 0.2 * SIZE, title, SIZE, "middle", mono=True))
        parts.append(text(room.x, room.y + 1.0 * SIZE, amount, SIZE, "middle", mono=True, bold=True))
    corners = [(box.x + side * box.across, box.y + side * box.up) for box in names for side in (-1, 1)]
    return Circle(len(rules), radius, 7, 12, 6, 0), parts, corners


def name_box(name, towards, radius):
    """A name's label outside the circle: it begins or ends where its register is, and at the top and bottom it is centred there."""
    across, up = width(name, SIZE, mono=True) / 2, 0.7 * SIZE
    aside = max(-1, min(1, towards[0] / 0.3))
    return Box(radius * towards[0] + across * aside, radius * towards[1] + up * towards[1], across, up)


def rule_box(words, towards, radius):
    """A rule's label of two lines, as far from the middle as the circle allows; None where it does not fit into the circle at all."""
    across, up = max(width(word, SIZE, mono=True) for word in words) / 2, 1.35 * SIZE
    lean = across * abs(towards[0]) + up * abs(towards[1])
    room = lean * lean + radius * radius - across * across - up * up
    if room < lean * lean:
        return None
    away = math.sqrt(room) - lean
    return Box(away * towards[0], away * towards[1], across, up)


def clear(boxes):
    """Whether no two boxes are closer than APART."""
    pairs = ((one, two) for k, one in enumerate(boxes) for two in boxes[:k])
    return all(
        abs(one.x - two.x) >= one.across + two.across + APART or abs(one.y - two.y) >= one.up + two.up + APART for one, two in pairs
    )


def radial(rules, said):
    """Labels that stand radially: the registers' names outside; inside, next to the arrows, their marks, then amounts and rules."""
    count = len(rules)
    titles, amounts = (max(width(words[k], SIZE, mono=True) for words in rules) for k in (1, 2))
    names = max(width(rule["tail"], SIZE, mono=True) for rule, _, _ in rules)
    deep = 2 * INSET + amounts + SIZE + titles
    corner = math.hypot(*block(said, 13)) / 2
    hollow = max(PITCH * count / (2 * math.pi), corner + 10)
    radius = max(hollow + deep, 20 * count / (2 * math.pi))
    parts = middle(said, 13 * max(1, min(4, 0.8 * (radius - deep) / corner)))
    for k, (rule, title, amount) in enumerate(rules):
        parts.append(spoke(rule["tail"], 2 * k, count, radius + GAP, True, bold=True))
        parts.append(spoke(amount, 2 * k + 1, count, radius - 2 * INSET, False, bold=True))
        parts.append(spoke(title, 2 * k + 1, count, radius - 2 * INSET - amounts - SIZE, False))
    edge = math.hypot(radius + GAP + names, SIZE)
    return Circle(count, radius, 5, 8, 4.5, INSET), parts, [(-edge, -edge), (edge, edge)]


def spoke(words, k, count, radius, outwards, bold=False):
    """A label along the ray of place k that begins at the radius. On the left half it is turned, so that none stands on its head."""
    right = k <= count
    turn = 180 * k / count - (90 if right else 270)
    anchor = "start" if right == outwards else "end"
    return text(radius if right else -radius, 0.35 * SIZE, words, SIZE, anchor, mono=True, bold=bold, turn=round(turn, 2))


def headed(parts, points, radius, lines):
    """The panel with its heading above all that is drawn."""
    scale = round(max(1, min(2.5, radius / 330)), 2)
    reach = radius + 8
    half = max([reach, *(abs(x) for x, _ in points), width(lines[0], 8 * scale, bold=True), *(width(words, 6 * scale) for words in lines[1:])])
    upper, lower = min([-reach, *(y for _, y in points)]), max([reach, *(y for _, y in points)])
    top = upper - 64 * scale
    head = [text(-half, top + 16 * scale, lines[0], 16 * scale, bold=True)]
    head += [text(-half, top + (20 + 16 * k) * scale, words, 12 * scale, fill=FAINT) for k, words in enumerate(lines[1:], 1)]
    return Panel(head + parts, -half, top, half, lower, scale)


def empty(why):
    parts = [text(0, 4, why, 14, "middle"), f'<circle r="130" fill="none" stroke="{FAINT}" stroke-dasharray="3 6"/>']
    return headed(parts, [], 130, ["No loop is shown"])
