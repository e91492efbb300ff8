"""Draws an order of the rows of an entity, by Graphviz's command `dot`, which says where boxes and arrows stand. It is not
proved, and reasons about nothing."""

import collections
import dataclasses
import shutil
import subprocess
import unicodedata

# how wide a drawing is at most where time goes from left to right, in pixels
WIDEST = 900


def reached(row, after):
    seen, waiting = set(), [row]
    while waiting:
        new = after[waiting.pop()] - seen
        seen |= new
        waiting += new
    return seen


class Diagram:
    """An order of an entity's rows to be drawn: the pairs with their kinds, of each row its value, and which may be the current
    ones."""

    def __init__(self, order, values, current=()):
        self.order, self.values, self.current, self.picture, after = order, values, current, None, collections.defaultdict(set)
        for earlier, later in order:
            after[earlier].add(later)
        self.circle = {(earlier, later) for earlier, later in order if earlier in reached(later, after)}
        self.turning = {row for pair in self.circle for row in pair}
        tied = {row for pair in order for row in pair}
        self.rows, self.loose = [it for it in values if it in tied], [it for it in values if it not in tied]

    def width(self, row, is_wide):
        """How wide a row's box is: its name and its value are written in it, below or beside each other."""
        name, value = 6.2 * extent(shortened(row)), 7.6 * extent(shortened(self.values[row]) or "empty")
        return 18 + (max(44, name, value) if is_wide else 10 + name + value)

    def source(self, is_wide):
        """The graph in the language of `dot`: boxes by the places of their rows, with nothing in them."""
        way, high, apart = ("LR", 0.56, 0.38) if is_wide else ("TB", 0.34, 0.26)
        lines = [f"digraph {{ rankdir={way}; ranksep={apart}; nodesep=0.14; edge [arrowhead=none];"]
        lines += [f'node [shape=box fixedsize=true label="" height={high}];']
        lines += [f"n{at} [width={self.width(row, is_wide) / 72:.3f}];" for at, row in enumerate(self.rows)]
        lines += [f"n{self.rows.index(earlier)} -> n{self.rows.index(later)};" for earlier, later in self.order]
        return "\n".join([*lines, "}\n"])

    def place(self, said, is_wide):
        """Takes what `dot` says of the graph, line by line in words: in inches, from the bottom up."""
        wide, high = (float(it) * 72 for it in said[0][2:4])
        self.picture = Picture(is_wide, wide + 8, high + 8)
        for kind, *words in said[1:]:
            if kind == "node":
                x, y, width, height = (float(it) * 72 for it in words[1:5])
                box = Box(self.rows[int(words[0][1:])], x - width / 2 + 4, high - y - height / 2 + 4, width, height)
                self.picture.boxes.append(box)
            elif kind == "edge":
                pair = tuple(self.rows[int(it[1:])] for it in words[:2])
                numbers = [float(it) * 72 for it in words[3 : 3 + 2 * int(words[2])]]
                points = [(x + 4, high - y + 4) for x, y in zip(numbers[::2], numbers[1::2])]
                self.picture.arrows.append(Arrow(self.order[pair], pair in self.circle, *curve(points)))


Box = collections.namedtuple("Box", "row left top wide high")
Arrow = collections.namedtuple("Arrow", "kind is_turning path head")


@dataclasses.dataclass
class Picture:
    is_wide: bool
    width: float
    height: float
    boxes: list = dataclasses.field(default_factory=list)
    arrows: list = dataclasses.field(default_factory=list)


def extent(text):
    """How many letters wide a text is, those of East Asia being two."""
    return len(text) if text.isascii() else sum(2 if unicodedata.east_asian_width(it) in "WF" else 1 for it in text)


def shortened(text, most=26):
    return text if len(text) <= most else text[: most - 1] + "…"


def curve(points, long=8, wide=3.6):
    """The path through the points of a spline, and the head of the arrow at its end."""
    (x, y), (tip_x, tip_y) = points[-2:]
    length = max(0.01, ((tip_x - x) ** 2 + (tip_y - y) ** 2) ** 0.5)
    way_x, way_y = (tip_x - x) / length, (tip_y - y) / length
    base_x, base_y = tip_x - long * way_x, tip_y - long * way_y
    head = [(tip_x, tip_y), (base_x - wide * way_y, base_y + wide * way_x), (base_x + wide * way_y, base_y - wide * way_x)]
    return f"M{written(points[:1])} C{written(points[1:-1] + [(base_x, base_y)])}", written(head)


def written(points):
    return " ".join(f"{x:.1f},{y:.1f}" for x, y in points)


def draw(diagrams):
    """Gives each diagram that has pairs its picture, by two runs of `dot` at most: what is too wide goes from top to bottom.
    Answers whether there is such a command where one is wanted."""
    drawn = [it for it in diagrams if it.order]
    if not drawn or not shutil.which("dot"):
        return not drawn
    for is_wide in (True, False):
        source, graphs = "".join(it.source(is_wide) for it in drawn), []
        text = subprocess.run(["dot", "-Tplain"], input=source, stdout=subprocess.PIPE, text=True, check=True).stdout
        for words in map(str.split, text.splitlines()):
            graphs += [[]] if words[0] == "graph" else []
            graphs[-1].append(words)
        for diagram, said in zip(drawn, graphs):
            diagram.place(said, is_wide)
        drawn = [it for it in drawn if it.picture.width > WIDEST]
    return True
