"""Draws a path to an object, as an SVG: each node is a box, in which its objects are, with their words."""
from __future__ import annotations

import html
from typing import NamedTuple

from .answers import Step, Why

INK, ROOT, EDGE, NODE, RIM, FACE = "#24292f", "#0969da", "#cf222e", "#f6f8fa", "#8c959f", "#ffffff"
# The width of a column, the height of a node, and the space around it.
WIDE, HIGH, GAP, SIDE, HEAD = 150, 120, 16, 20, 46
RADIUS = 28
# Of a longer path the middle isn't drawn.
SHOWN = 12


class Start(NamedTuple):
    """From which position an arrow begins, its colour, and the place that has the reference."""

    x: float
    y: float
    colour: str
    place: str


class Drawing:
    """The root is in the first column; each object of the path is in the next one, in the box of its node."""

    def __init__(self, it: Why) -> None:
        self.why, self.parts = it, []
        count = len(it.path)
        self.cut = max(0, count - 2 * SHOWN)
        shown = [*range(SHOWN), None, *range(count - SHOWN, count)] if self.cut else range(count)
        self.steps = [None if at is None else it.step(at) for at in shown]
        drawn = [step.reference.node for step in self.steps if step]
        self.nodes = sorted({it.root.node, *drawn})
        self.width = 2 * SIDE + WIDE * (len(self.steps) + 1)
        self.height = HEAD + len(self.nodes) * (HIGH + GAP) - GAP + SIDE

    def add(self, tag: str, text: str | None = None, **values) -> None:
        words = " ".join(f'{name.replace("_", "-")}="{value}"' for name, value in values.items())
        self.parts.append(f"<{tag} {words}/>" if text is None else f"<{tag} {words}>{html.escape(text)}</{tag}>")

    def text(self, x: float, y: float, text: str, **values) -> None:
        if text:
            self.add("text", text, **({"x": x, "y": y, "fill": INK, "text_anchor": "middle", "font_size": 12} | values))

    def spot(self, column: int, node: int) -> tuple[float, float]:
        """The middle of a column in the box of a node."""
        return SIDE + WIDE * (column + 0.5), HEAD + (HIGH + GAP) * self.nodes.index(node) + HIGH / 2

    def draw(self) -> str:
        """The whole picture."""
        self.text(SIDE, 28, f"{self.why.reference} is alive", text_anchor="start", font_weight="bold", font_size=14)
        for node in self.nodes:
            top = self.spot(0, node)[1] - HIGH / 2
            self.add("rect", x=SIDE, y=top, width=self.width - 2 * SIDE, height=HIGH, rx=10, fill=NODE, stroke=RIM)
            self.text(SIDE + 10, top + 18, f"node {node}", text_anchor="start", font_size=13)
        before = self.root()
        for column, step in enumerate(self.steps, 1):
            before = self.step(column, step, before)
        heads = (
            f'<marker id="{it[1:]}" viewBox="0 0 8 8" refX="7" refY="4" markerWidth="8" markerHeight="8" orient="auto">'
            f'<path d="M0 0L8 4L0 8z" fill="{it}"/></marker>'
            for it in (ROOT, EDGE)
        )
        size = f'width="{self.width}" height="{self.height}" viewBox="0 0 {self.width} {self.height}"'
        title = html.escape(f"why {self.why.reference} is alive")
        top = f'<svg xmlns="http://www.w3.org/2000/svg" {size} role="img"><title>{title}</title>'
        style = "<style>text{font-family:Helvetica,Arial,sans-serif}</style>"
        ground = f'<rect width="{self.width}" height="{self.height}" fill="#ffffff"/>'
        return "\n".join([top, f"{style}<defs>{''.join(heads)}</defs>", ground, *self.parts, "</svg>"]) + "\n"

    def root(self) -> Start:
        """Draws the root."""
        it = self.why.root
        x, y = self.spot(0, it.node)
        self.add("rect", x=x - 45, y=y - 14, width=90, height=28, fill=FACE, stroke=ROOT, stroke_width=1.5)
        self.text(x, y + 4, f"{it.kind} {it.number}")
        below = {"letter": f"label {it.label}, from node {it.other}", "message": f"{it.body} to node {it.other}"}
        self.text(x, y + 32, below.get(it.kind, ""), font_size=11)
        return Start(x + 45, y, ROOT, "")

    def step(self, column: int, step: Step | None, before: Start) -> Start:
        """Draws an object and the arrow to it. Returns the start of the next arrow."""
        if step is None:
            x = SIDE + WIDE * (column + 0.5)
            self.text(x, before.y + 4, f".. {self.cut} more ..")
            return Start(x + 45, before.y, EDGE, "")
        x, y = self.spot(column, step.reference.node)
        self.arrow(before, (x, y))
        style = {} if step.is_shared else {"stroke_dasharray": "4 3"}
        self.add("circle", cx=x, cy=y, r=RADIUS, fill=FACE, stroke=INK, stroke_width=1.5, **style)
        name = str(step.reference)
        is_long = len(name) > 8
        self.text(x, y - RADIUS - 6 if is_long else y + 4, name, font_size=11 if is_long else 12)
        self.text(x, y + RADIUS + 16, f"word {step.word}", font_size=11)
        return Start(x + RADIUS, y, EDGE, "" if step.place is None else str(step.place))

    def arrow(self, start: Start, end: tuple[float, float]) -> None:
        """An arrow to the rim of an object."""
        across, down = end[0] - start.x, end[1] - start.y
        share = 1 - (RADIUS + 3) / max((across**2 + down**2) ** 0.5, RADIUS + 4)
        path = f"M{start.x:.0f} {start.y:.0f}L{start.x + across * share:.0f} {start.y + down * share:.0f}"
        head = f"url(#{start.colour[1:]})"
        self.add("path", d=path, fill="none", stroke=start.colour, stroke_width=1.6, marker_end=head)
        below = 16 if down < 0 else -8
        self.text(start.x + 6, start.y + below, start.place, text_anchor="start", fill=start.colour, font_size=11)
