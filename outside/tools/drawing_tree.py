"""The tree of a certificate as a picture: its splits, its leaves coloured by how far their values are above the bound,
and below them the values on an axis."""
from reference.texts import shown
from tools.drawing import EDGE, HEAD, plural, round_step, sheet, text, title

WIDTH, LEVEL, MOST_HIGH, RADIUS, STRIP = 860, 34, 620, 6, 110
# What stands left and right of the tree and of the bars: the words of the axis.
LEFT, RIGHT = 78, 52
NAMES = ('<g stroke="white" stroke-width="2.5" paint-order="stroke" fill="#333" font-size="9" '
         'text-anchor="middle">')
# Trees of more leaves have no words in them.
MOST_NAMED = 60
class Node:
    """A node with its depth, its place from left to right, the arc of a split with both children, or a leaf's value."""

    def __init__(self, depth):
        self.depth, self.across, self.arc, self.children, self.value = depth, 0, None, [], None


def nodes(tree, values):
    """All nodes, each before its children: leaves side by side in preorder, a split above its children's middle."""
    root, found, leaves = Node(0), [], 0
    rest = [(root, tree)]
    while rest:
        node, tree = rest.pop()
        found.append(node)
        if tree[0] == "P":
            node.across, node.value = leaves, values[leaves]
            leaves += 1
        else:
            node.arc, node.children = tree[1], [Node(node.depth + 1), Node(node.depth + 1)]
            rest += [(node.children[1], tree[3]), (node.children[0], tree[2])]
    for node in reversed(found):
        if node.children:
            node.across = sum(child.across for child in node.children) / 2
    return found


def mixed(first, last, part):
    """A colour so far on the way from the first one to the last one."""
    return "#%s" % "".join("%02x" % round(a + part * (b - a)) for a, b in zip(first, last))


# At the bound and just below the cost; at the cost and furthest above: apart for those who see few colours, too.
BELOW, ABOVE = ((168, 42, 0), (255, 214, 130)), ((92, 164, 214), (8, 36, 100))


def colour(part):
    """Dark orange at the bound (0), pale below the cost (1), blue from there on, darker up to the greatest value (2);
    white where a value wasn't found."""
    if part is None:
        return "white"
    return mixed(*BELOW, part) if part < 1 else mixed(*ABOVE, part - 1)


class Frame:
    """Where a node stands, and its part of the way from the bound over the cost to the greatest value."""

    def __init__(self, found, bound, cost, shown):
        self.shown = shown
        self.greatest = max([node.value for node in found if node.value is not None] + [cost + 1])
        self.leaves = sum(not node.children for node in found)
        self.deepest = max(node.depth for node in found)
        self.high = min(LEVEL * self.deepest, MOST_HIGH)
        self.bound, self.cost = bound, cost
        self.wide = (WIDTH - LEFT - RIGHT) / self.leaves
        self.radius = max(1.2, min(RADIUS, 0.4 * self.wide))
        # The axis goes on above the cost by half of the gap; without a gap, up to the greatest value.
        self.top = min(self.greatest, cost + max((cost - bound + 1) // 2, 5)) if bound < cost else self.greatest

    def height(self, value):
        """How high a value stands on the axis: from 0 at the bound to 1, and no higher."""
        return min(1, (value - self.bound) / (self.top - self.bound))

    def place(self, node):
        high = self.high * node.depth / self.deepest if self.deepest else 0
        return LEFT + self.wide * (node.across + 0.5), HEAD + EDGE + high

    def part(self, value):
        if value is None:
            return None
        if value < self.cost:
            return (value - self.bound) / (self.cost - self.bound)
        return 1 + (value - self.cost) / (self.greatest - self.cost)


def lines_to_children(frame, node):
    """The lines to the children: full where the arc is used, broken where it isn't."""
    (x, y), found = frame.place(node), []
    told = "Split by the arc from %d to %d" % node.arc
    for child, words, style in zip(node.children, ("used", "not used"), ("", ' stroke-dasharray="4 3"')):
        found.append('<path d="M%.1f %.1fL%.1f %.1f"%s>%s</path>' % (
            x, y, *frame.place(child), style, title("%s: %s" % (told, words))))
    return found


def arc_name(frame, node):
    x, y = frame.place(node)
    return '<text x="%.1f" y="%.1f">%d&#8594;%d</text>' % (x, y - 4, *node.arc)


def leaf(frame, node):
    x, y = frame.place(node)
    told = "a value that wasn't found" if node.value is None else "the value %s, %s above the bound" % (
        frame.shown(node.value), frame.shown(node.value - frame.bound))
    style = 'fill="%s" stroke="#555" stroke-width="%.1f"' % (colour(frame.part(node.value)), min(0.6, frame.radius / 5))
    return '<circle cx="%.1f" cy="%.1f" r="%.1f" %s>%s</circle>' % (
        x, y, frame.radius, style, title("Leaf %d has %s" % (node.across + 1, told)))


def strip(frame, found, top):
    """A bar for each leaf below the tree, as high as its value is on the axis; an arrow where that is above it."""
    for node in found:
        high = 3 + (STRIP - 3) * (frame.height(node.value) if node.value is not None else 0)
        x, y = LEFT + frame.wide * node.across, top + STRIP - high
        yield '<rect x="%.2f" y="%.1f" width="%.2f" height="%.1f" fill="%s"/>' % (
            x, y, frame.wide * 0.9, high, colour(frame.part(node.value)))
        if node.value is not None and node.value > frame.top and frame.wide > 4:
            yield '<path d="M%.2f %.1fl3.5 -6l3.5 6z" fill="%s"/>' % (
                x + 0.45 * frame.wide - 3.5, y - 1, colour(frame.part(node.value)))


def axis(frame, top):
    """The axis of the bars: round values, the bound and the cost, in units of cost."""
    def at(value):
        return top + (STRIP - 3) * (1 - frame.height(value))
    step = round(10 * round_step((frame.top - frame.bound) / 40, -1))
    named = [(frame.bound, "bound")] if frame.bound == frame.cost else [(frame.bound, "bound"), (frame.cost, "cost")]
    yield '<g fill="#444" stroke="none">'
    for value in range(-(-frame.bound // step) * step, frame.top + 1, step):
        if all(abs(at(value) - at(other)) > 13 for other, _ in named):
            yield '<path d="M%d %.1fh-4" stroke="#444" stroke-width="0.8"/>' % (LEFT, at(value))
            yield text(LEFT - 7, at(value) + 4, frame.shown(value), 10, 'text-anchor="end"')
    for value, word in named:
        yield '<path d="M%d %.1fH%d" stroke="#444" stroke-width="0.8" stroke-dasharray="%s"/>' % (
            LEFT - 4, at(value), WIDTH - RIGHT + 4, "5 3" if word == "cost" else "1 0")
        yield text(LEFT - 7, at(value) + 4, frame.shown(value), 10, 'text-anchor="end" font-weight="bold"')
        yield text(WIDTH - RIGHT + 8, at(value) + 4, word, 10)
    yield '<path d="M%d %dv%d" stroke="#444" stroke-width="0.8"/>' % (LEFT, top, STRIP)
    yield text(LEFT, top - 9, "value of each leaf, in units of cost: no plan of it is cheaper", 11)
    yield "</g>"


def legend(frame, found, top):
    """What the colours mean, with the values, as far as leaves have them."""
    values = [node.value for node in found if node.value is not None]
    told = [("at the bound, %s" % frame.shown(frame.bound), 0)] if frame.bound < frame.cost else []
    if any(frame.bound < value < frame.cost for value in values):
        told.append(("halfway, %s" % frame.shown((frame.bound + frame.cost) // 2), 0.5))
    both = "cost" if frame.bound < frame.cost else "bound and the cost"
    told.append(("at the %s, %s" % (both, frame.shown(frame.cost)), 1))
    if any(value > frame.cost for value in values):
        told.append(("furthest above, %s" % frame.shown(frame.greatest), 2))
    if len(values) < len(found):
        told.append(("not found", None))
    x = LEFT + 6
    for words, part in told:
        yield '<circle cx="%.1f" cy="%d" r="6" fill="%s" stroke="#555" stroke-width="0.6"/>' % (x, top, colour(part))
        yield text(x + 11, top + 4, words, 11)
        x += 32 + 6.2 * len(words)


def picture(name, tree, values, bound, cost, shown=shown):
    """The lines of the picture; values are those of the leaves in preorder, or None; shown is how a cost is told."""
    found = nodes(tree, values)
    frame = Frame(found, bound, cost, shown)
    below = sum(value is not None and value < cost for value in values)
    told = "%s: %s, %d below the cost %s; bound %s" % (
        name, plural(frame.leaves, "leaf").replace("leafs", "leaves"), below, frame.shown(cost), frame.shown(bound))
    splits = [node for node in found if node.children]
    drawn = ['<g stroke="#777" stroke-width="%.1f" fill="none">' % min(1, frame.radius / 3),
             *(part for node in splits for part in lines_to_children(frame, node)), "</g>", NAMES]
    drawn += [arc_name(frame, node) for node in splits if frame.leaves <= MOST_NAMED] + ["</g>"]
    leaves = [node for node in found if not node.children]
    bottom = HEAD + 2.6 * EDGE + frame.high
    drawn += [leaf(frame, node) for node in leaves] + [*strip(frame, leaves, bottom), *axis(frame, bottom)]
    bottom += STRIP + EDGE
    return sheet(WIDTH, round(bottom + EDGE * 0.7), told, drawn + list(legend(frame, leaves, bottom)))
