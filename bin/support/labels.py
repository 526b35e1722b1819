"""labels.py < PICTURE > PICTURE

Moves the labels of a picture by `dot` off its arrows. Each label that touches an arrow, a node or another label goes to the nearest
free place at which its own arrow is closer than any other one. A label without such a place stays. The picture becomes wider if a
label needs that."""
import re, sys

FONT, LINE = 11, 12  # the size of a label's letters, and from one of its lines to the next
STEPS = 24  # the points that stand for a curve
FARTHEST = 40
NUMBER = r"-?\d+(?:\.\d+)?"


def points_in(text):
    return [(float(x), float(y)) for x, y in re.findall(rf"({NUMBER}),({NUMBER})", text)]


def points_of_path(path):
    """Returns points along a path: it begins with a point, and each curve has three more."""
    ends = points_in(path)
    for at in range(0, len(ends) - 1, 3):
        a, b, c, d = ends[at : at + 4]
        for step in range(STEPS + 1):
            t = step / STEPS
            weights = (1 - t) ** 3, 3 * t * (1 - t) ** 2, 3 * t * t * (1 - t), t**3
            yield tuple(sum(weight * point[axis] for weight, point in zip(weights, (a, b, c, d))) for axis in (0, 1))


def box_of(texts):
    """Returns left, top, right and bottom of a label's lines."""
    left = min(x - 0.3 * FONT * size for x, _, size in texts)
    right = max(x + 0.3 * FONT * size for x, _, size in texts)
    return left, min(y for _, y, _ in texts) - 0.8 * FONT, right, max(y for _, y, _ in texts) + 0.25 * FONT


def box_around(points):
    xs, ys = zip(*points)
    return min(xs), min(ys), max(xs), max(ys)


def moved(box, dx, dy):
    return box[0] + dx, box[1] + dy, box[2] + dx, box[3] + dy


def overlap(one, other):
    return one[0] < other[2] and other[0] < one[2] and one[1] < other[3] and other[1] < one[3]


def distance(box, points):
    """Returns how far a box is from the nearest of these points."""
    return min(max(box[0] - x, x - box[2], 0) ** 2 + max(box[1] - y, y - box[3], 0) ** 2 for x, y in points) ** 0.5


class Edge:
    """An arrow: its text in the picture, points along it, and the lines of its label, each with its middle, its base and its length."""

    def __init__(self, text):
        self.text = text
        self.points = [*points_of_path(re.search(r' d="([^"]*)"', text)[1]), *points_in(re.search(r' points="([^"]*)"', text)[1])]
        lines = re.findall(rf'<text [^>]* x="({NUMBER})" y="({NUMBER})"[^>]*>([^<]*)<', text)
        self.label = [(float(x), float(y), len(re.sub(r"&#?\w+;", "-", words))) for x, y, words in lines]

    def with_label_moved(self, dx, dy):
        shown = lambda it: f'{it[1]}x="{float(it[2]) + dx:g}" y="{float(it[3]) + dy:g}"'
        return re.sub(rf'(<text [^>]* )x="({NUMBER})" y="({NUMBER})"', shown, self.text)


def offset_of(edge, edges, nodes, labels, ground):
    """Returns how far to move the label of an edge. It may leave the ground of the picture only to the right."""
    box = box_of(edge.label)
    others = [it.points for it in edges if it is not edge]

    def is_free(place):
        own = distance(place, edge.points)
        if place[0] < ground[0] or place[1] < ground[1] or place[3] > ground[3]:
            return False
        return 1.5 <= own and all(own < distance(place, it) for it in others) and not any(overlap(place, it) for it in nodes + labels)

    reach = range(-FARTHEST, FARTHEST + 1, 2)
    for dx, dy in sorted(((dx, dy) for dx in reach for dy in reach), key=lambda it: it[0] ** 2 + it[1] ** 2):
        if is_free(moved(box, dx, dy)):
            return dx, dy
    return 0, 0


def widened(picture, ground, right):
    """Returns the picture with the right end of its ground moved to where it is needed."""
    more = max(0, right - ground[2])
    end = lambda it: f"{float(it[1]) + more:g},"
    old = re.search(r'<polygon fill="white"[^>]*>', picture)[0]
    new = re.sub(rf"({re.escape(f'{ground[2]:g}')}),", end, old)
    picture = re.sub(r'(?<=<svg width=")\d+', lambda it: f"{int(it[0]) + more:.0f}", picture.replace(old, new))
    return re.sub(rf'(?<=viewBox="0.00 0.00 ){NUMBER}', lambda it: f"{float(it[0]) + more:.2f}", picture)


def main():
    picture = sys.stdin.read()
    ground = box_around(points_in(re.search(r'<polygon fill="white"[^>]*points="([^"]*)"', picture)[1]))
    blocks = re.findall(r'(?s)<g id="edge\d+".*?</g>', picture)
    edges = [Edge(it) for it in blocks]
    nodes = []
    for node in re.findall(r'(?s)<g id="node\d+".*?</g>', picture):
        for cx, cy, rx, ry in re.findall(rf'cx="({NUMBER})" cy="({NUMBER})" rx="({NUMBER})" ry="({NUMBER})"', node):
            nodes.append((float(cx) - float(rx), float(cy) - float(ry), float(cx) + float(rx), float(cy) + float(ry)))
        nodes += [box_around(points_in(it)) for it in re.findall(r'points="([^"]*)"', node)]
    for edge in edges:
        if edge.label:
            labels = [box_of(it.label) for it in edges if it.label and it is not edge]
            after = Edge(edge.with_label_moved(*offset_of(edge, edges, nodes, labels, ground)))
            picture = picture.replace(edge.text, after.text)
            edge.text, edge.label = after.text, after.label
    right = max([box_of(it.label)[2] for it in edges if it.label], default=ground[2])
    sys.stdout.write(widened(picture, ground, right + 4) if right + 4 > ground[2] else picture)


if __name__ == "__main__":
    main()
