#!/usr/bin/env python3
"""draw.py: draws what is packed, as SVG.

    tools/draw.py --table FILE        draws the output of an example program, on standard output; - is standard input
    tools/draw.py --all               draws the pictures of docs/pictures anew: of the example programs, and of one cut
    tools/draw.py --check             whether each of them is what this tool draws

A table has packrun's lines as its rows: `bin NAME W H D`, `N ID NAME X Y Z W H D` with the group of the
box behind it, and `free NAME X Y Z W H D`. A line `== TITLE` begins a drawing of its own: the bins as the
rows after it say. All other lines are for people, and are passed over.
"""
from __future__ import annotations

import argparse
import math
import pathlib
import sys
from collections.abc import Collection, Iterable, Iterator, Mapping, Sequence
from html import escape
from typing import NamedTuple

ROOT = pathlib.Path(__file__).resolve().parent.parent
PICTURES = ROOT / "docs" / "pictures"
TABLES = ("atlas", "panels", "container")

Size = tuple[int, int, int]
# A colour for each group.
Colours = Mapping["str | None", str]


class Box(NamedTuple):
    """A corner and a size."""

    x: int
    y: int
    z: int
    w: int
    h: int
    d: int


class Placement(NamedTuple):
    id: str
    box: Box
    group: str | None


CARD, INK, FAINT, LINE = "#fbfaf7", "#1d2429", "#5d686f", "#2f3a40"
COLOURS = ["#8ecae6", "#ffb703", "#a7c957", "#f4978e", "#cdb4db", "#6fb8a8", "#f2cc8f", "#9db4ff",
           "#e5989b", "#b7b7a4", "#ffd6a5", "#90be6d"]
ALONE = "#d9d4c7"
BIN_WIDTH, GAP, MARGIN = 300, 26, 22
COS, SIN = math.cos(math.radians(30)), math.sin(math.radians(30))


class Drawing:
    """The bins of one drawing, with what stands in them."""

    def __init__(self, title: str = "") -> None:
        self.title = title
        self.bins: dict[str, Size] = {}
        self.placed: dict[str, dict[int, Placement]] = {}
        self.free: dict[str, list[Box]] = {}

    def add_bin(self, name: str, size: Size) -> None:
        self.bins[name] = size
        self.placed[name] = {}

    def place(self, number: int, name: str, placement: Placement) -> None:
        self.placed[name][number] = placement
        self.free.pop(name, None)

def box_of(words: Iterable[str]) -> Box:
    return Box(*map(int, words))


def is_numbers(words: Sequence[str], count: int) -> bool:
    return len(words) == count and all(word.isdigit() for word in words)


def read_table(lines: Iterable[str]) -> list[Drawing]:
    """The drawings of a program's table."""
    drawings = [Drawing()]
    for line in lines:
        words = line.split()
        if words[:1] == ["=="]:
            drawings.append(Drawing(" ".join(words[1:])))
        elif words[:1] == ["bin"] and is_numbers(words[2:5], 3):
            drawings[-1].add_bin(words[1], (int(words[2]), int(words[3]), int(words[4])))
        elif words[:1] == ["free"] and is_numbers(words[2:8], 6):
            drawings[-1].free.setdefault(words[1], []).append(box_of(words[2:8]))
        elif len(words) in (9, 10) and words[0].isdigit() and is_numbers(words[3:9], 6):
            group = words[9] if len(words) == 10 else None
            found = Placement(words[1], box_of(words[3:9]), group)
            if words[2] not in drawings[-1].bins:
                sys.exit(f"draw.py: placement {words[0]} names bin {words[2]}, which has no row")
            drawings[-1].place(int(words[0]), words[2], found)
    return [drawing for drawing in drawings if drawing.bins]


def overlap(a: Box, b: Box) -> bool:
    return all(a[i] < b[i] + b[i + 3] and b[i] < a[i] + a[i + 3] for i in range(3))


def look_over(drawing: Drawing) -> None:
    """Ends the program where a placement is not inside its bin or shares a cell with another."""
    for name, placed in drawing.placed.items():
        seen: list[tuple[int, Box]] = []
        for number, placement in placed.items():
            box = placement.box
            if any(box[i] + box[i + 3] > drawing.bins[name][i] for i in range(3)):
                sys.exit(f"draw.py: placement {number} is not inside bin {name}")
            other = next((at for at, earlier in seen if overlap(earlier, box)), None)
            if other is not None:
                sys.exit(f"draw.py: placements {other} and {number} share a cell of bin {name}")
            seen.append((number, box))


class Svg:
    """The elements of an SVG."""

    def __init__(self) -> None:
        self.parts: list[str] = []

    def add(self, element: str) -> None:
        self.parts.append(element)

    def rect(
        self, x: float, y: float, w: float, h: float, fill: str, stroke: str = LINE, width: float = 0.8, extra: str = ""
    ) -> None:
        self.add(f'<rect x="{x:.2f}" y="{y:.2f}" width="{w:.2f}" height="{h:.2f}" fill="{fill}" '
                 f'stroke="{stroke}" stroke-width="{width}"{extra}/>')

    def polygon(self, points: Iterable[tuple[float, float]], fill: str, stroke: str = LINE, width: float = 0.7) -> None:
        path = " ".join(f"{x:.2f},{y:.2f}" for x, y in points)
        self.add(f'<polygon points="{path}" fill="{fill}" stroke="{stroke}" stroke-width="{width}" stroke-linejoin="round"/>')

    def line(
        self, x1: float, y1: float, x2: float, y2: float, colour: str = LINE, width: float = 1.2, extra: str = ""
    ) -> None:
        self.add(f'<line x1="{x1:.2f}" y1="{y1:.2f}" x2="{x2:.2f}" y2="{y2:.2f}" stroke="{colour}" '
                 f'stroke-width="{width}"{extra}/>')

    def text(
        self, x: float, y: float, words: str, size: float = 12, anchor: str = "start", colour: str = INK, weight: str = "normal",
        turn: int = 0,
    ) -> None:
        turned = f' transform="rotate({turn} {x:.2f} {y:.2f})"' if turn else ""
        self.add(f'<text x="{x:.2f}" y="{y:.2f}" font-size="{size:.1f}" text-anchor="{anchor}" fill="{colour}" '
                 f'font-weight="{weight}"{turned}>{escape(words)}</text>')

    def label(self, x: float, y: float, w: float, h: float, words: str) -> None:
        """Text in the middle of a rectangle: along it, or up it, as large as it fits; else none."""
        for along, across, turn in ((w, h, 0), (h, w, -90)):
            size = min(12, (along - 4) / (0.62 * len(words)), (across - 2) / 1.1)
            if size >= 6.5:
                dx, dy = (0.0, size * 0.35) if not turn else (size * 0.35, 0.0)
                self.text(x + w / 2 + dx, y + h / 2 + dy, words, size, "middle", turn=turn)
                return

    def whole(self, width: float, height: float) -> str:
        head = (f'<svg xmlns="http://www.w3.org/2000/svg" viewBox="0 0 {width:.0f} {height:.0f}" width="{width:.0f}" '
                f'height="{height:.0f}" font-family="DejaVu Sans Mono, Menlo, Consolas, monospace">')
        hatch = (f'<defs><pattern id="free" width="7" height="7" patternUnits="userSpaceOnUse" patternTransform="rotate(45)">'
                 f'<rect width="7" height="7" fill="#ffffff"/><line x1="0" y1="0" x2="0" y2="7" stroke="#b9c0c4" '
                 f'stroke-width="2"/></pattern></defs>')
        card = f'<rect width="{width:.0f}" height="{height:.0f}" rx="10" fill="{CARD}"/>'
        return "\n".join([head, hatch, card, *self.parts, "</svg>"]) + "\n"


def shade(colour: str, by: float) -> str:
    """The colour, lighter or darker."""
    parts = [int(colour[i:i + 2], 16) for i in (1, 3, 5)]
    return "#" + "".join(f"{max(0, min(255, round(part * by))):02x}" for part in parts)


def groups_of(drawings: Iterable[Drawing]) -> dict[str | None, str]:
    """A colour for each group, in the order of their first placements."""
    found: dict[str | None, str] = {}
    for drawing in drawings:
        for placements in drawing.placed.values():
            for placement in placements.values():
                if placement.group and placement.group not in found:
                    found[placement.group] = COLOURS[len(found) % len(COLOURS)]
    return found


def volume(box: Box) -> int:
    return box.w * box.h * box.d


def fill_of(size: Size, placements: Iterable[Placement]) -> int:
    """How many percent of the bin are filled, whole ones."""
    whole = size[0] * size[1] * size[2]
    return 100 * sum(volume(p.box) for p in placements) // whole if whole else 0


def layers_of(placements: Collection[Placement]) -> list[tuple[int, int]]:
    """Where layers of a bin with depth begin and end: at each front and back of a box."""
    ends = sorted({z for p in placements for z in (p.box.z, p.box.z + p.box.d)} | {0})
    return [(a, b) for a, b in zip(ends, ends[1:]) if any(p.box.z < b and a < p.box.z + p.box.d for p in placements)]


def draw_face(
    svg: Svg, x: float, y: float, scale: float, size: Size, placements: Iterable[Placement], free: Iterable[Box], colours: Colours
) -> None:
    """The bin, or a layer of it, from the front: x to the right, y upward."""
    w, h = size[0] * scale, size[1] * scale
    svg.rect(x, y, w, h, "url(#free)", width=1.4)
    for box in free:
        svg.rect(x + box.x * scale, y + h - (box.y + box.h) * scale, box.w * scale, box.h * scale, "none", "#8b959b", 0.8,
                 ' stroke-dasharray="4 3"')
    for placement in placements:
        box = placement.box
        if box.w and box.h:
            left, top = x + box.x * scale, y + h - (box.y + box.h) * scale
            svg.rect(left, top, box.w * scale, box.h * scale, colours.get(placement.group, ALONE))
            svg.label(left, top, box.w * scale, box.h * scale, placement.id)


def is_behind(a: Box, b: Box) -> bool:
    """Whether the box `a` has to be drawn before `b`, seen from the front, the right and above."""
    return a.x + a.w <= b.x or b.z + b.d <= a.z or a.y + a.h <= b.y


def back_to_front(placements: Iterable[Placement]) -> list[Placement]:
    """The placements in an order in which none hides one that is drawn later."""
    left, order = [*placements], list[Placement]()
    while left:
        first = next((p for p in left if not any(q is not p and is_behind(q.box, p.box) and not is_behind(p.box, q.box) for q in left)), left[0])
        left.remove(first)
        order.append(first)
    return order


def draw_solid(
    svg: Svg, x: float, y: float, scale: float, size: Size, placements: Iterable[Placement], colours: Colours
) -> None:
    """The bin with its boxes, seen from the front, the right and above. Its corner at the left, below, is (x, y)."""
    def at(i: float, j: float, k: float) -> tuple[float, float]:
        return x + (i + k) * COS * scale, y + (i - k) * SIN * scale - j * scale

    w, h, d = size
    frame = "#9aa4aa"
    for start, end in (((0, 0, d), (0, h, d)), ((0, 0, d), (w, 0, d)), ((0, 0, 0), (0, 0, d))):
        svg.line(*at(*start), *at(*end), frame, 1)
    for placement in back_to_front(placements):
        b = placement.box
        colour = colours.get(placement.group, ALONE)
        i, j, k = b.x + b.w, b.y + b.h, b.z + b.d
        svg.polygon([at(b.x, b.y, b.z), at(i, b.y, b.z), at(i, j, b.z), at(b.x, j, b.z)], colour)
        svg.polygon([at(i, b.y, b.z), at(i, b.y, k), at(i, j, k), at(i, j, b.z)], shade(colour, 0.82))
        svg.polygon([at(b.x, j, b.z), at(i, j, b.z), at(i, j, k), at(b.x, j, k)], shade(colour, 1.1))
    for start, end in (
        ((0, 0, 0), (w, 0, 0)), ((0, 0, 0), (0, h, 0)), ((w, 0, 0), (w, h, 0)), ((0, h, 0), (w, h, 0)), ((w, 0, 0), (w, 0, d)),
        ((w, h, 0), (w, h, d)), ((w, 0, d), (w, h, d)), ((0, h, 0), (0, h, d)), ((0, h, d), (w, h, d)),
    ):
        svg.line(*at(*start), *at(*end), frame, 1)


def draw_flat_bins(svg: Svg, y: float, drawing: Drawing, colours: Colours, limit: float) -> tuple[float, float]:
    """The bins of depth 1, side by side; the next row begins where one is full."""
    x, row, right = float(MARGIN), 0.0, 0.0
    widest = max(1, *(size[0] for size in drawing.bins.values()))
    tallest = max(1, *(size[1] for size in drawing.bins.values()))
    scale = min(BIN_WIDTH / widest, 1.4 * BIN_WIDTH / tallest)
    for name, size in drawing.bins.items():
        w, h = size[0] * scale, size[1] * scale
        if x > MARGIN and x + w > limit:
            x, y, row = MARGIN, y + row + GAP + 18, 0
        placements = drawing.placed[name].values()
        caption(svg, x, y + 12, name, size, placements)
        draw_face(svg, x, y + 20, scale, size, placements, drawing.free.get(name, []), colours)
        x, row = x + max(w, 190) + GAP, max(row, h)
        right = max(right, x - GAP)
    return y + 20 + row, right


def caption(svg: Svg, x: float, y: float, name: str, size: Size, placements: Iterable[Placement]) -> None:
    sides = "x".join(str(side) for side in (size if size[2] != 1 else size[:2]))
    svg.text(x, y, f"{name}  {sides}  {fill_of(size, placements)}% filled", 12)


def draw_deep_bin(svg: Svg, y: float, drawing: Drawing, name: str, colours: Colours) -> tuple[float, float]:
    """A bin with depth: seen from the front, the right and above, and beside it layer by layer."""
    size, placements = drawing.bins[name], list(drawing.placed[name].values())
    w, h, d = size
    scale = min(250 / max(1, (w + d) * COS), 250 / max(1, (w + d) * SIN + h))
    caption(svg, MARGIN, y + 12, name, size, placements)
    top = y + 24
    draw_solid(svg, MARGIN, top + d * SIN * scale + h * scale, scale, size, placements, colours)
    right, bottom = MARGIN + (w + d) * COS * scale, top + (w + d) * SIN * scale + h * scale
    face = min(150 / max(1, w), 150 / max(1, h))
    x = right + GAP
    for at, (front, back) in enumerate(layers_of(placements)):
        column, row = at % 4, at // 4
        left, up = x + column * (w * face + 18), top + 14 + row * (h * face + 30)
        inside = [p for p in placements if p.box.z < back and front < p.box.z + p.box.d]
        svg.text(left, up - 4, f"layer {front} to {back}", 10, colour=FAINT)
        draw_face(svg, left, up, face, size, inside, [], colours)
        right, bottom = max(right, left + w * face), max(bottom, up + h * face)
    return bottom, right


def draw_key(svg: Svg, y: float, colours: Colours, alone: bool, limit: float) -> float:
    """What colours and hatching mean."""
    entries = [*colours.items(), *([("no group", ALONE)] if alone else []), ("free", "url(#free)")]
    x = float(MARGIN)
    for group, colour in entries:
        name = str(group)
        width = 24 + 7.4 * len(name) + 18
        if x > MARGIN and x + width > limit:
            x, y = MARGIN, y + 20
        svg.rect(x, y, 14, 14, colour)
        svg.text(x + 20, y + 11.5, name, 11.5)
        x += width
    return y + 14


def picture(drawings: Sequence[Drawing]) -> str:
    """The SVG of these drawings, one below another, with one key."""
    if not any(drawing.bins for drawing in drawings):
        sys.exit("draw.py: there is no bin to draw")
    svg, y, right = Svg(), float(MARGIN), 0.0
    colours = groups_of(drawings)
    limit = MARGIN + 3 * (BIN_WIDTH + GAP)
    for drawing in drawings:
        look_over(drawing)
        if drawing.title:
            svg.text(MARGIN, y + 12, drawing.title, 14, weight="bold")
            y += 26
        flat = all(size[2] == 1 for size in drawing.bins.values())
        if flat:
            y, reach = draw_flat_bins(svg, y, drawing, colours, limit)
            right = max(right, reach)
        else:
            for name in drawing.bins:
                y, reach = draw_deep_bin(svg, y, drawing, name, colours)
                y, right = y + GAP, max(right, reach)
            y -= GAP
        y += GAP
    alone = any(not p.group for drawing in drawings for placed in drawing.placed.values() for p in placed.values())
    right = max(right, MARGIN + 320)
    y = draw_key(svg, y, colours, alone, right)
    return svg.whole(right + MARGIN, y + MARGIN)


def draw_cut() -> str:
    """One cut: a section with a box in its corner and the three pieces that are left."""
    section = (10, 8, 6)
    boxes = {"box": Box(0, 0, 0, 6, 5, 3), "right": Box(6, 0, 0, 4, 5, 3), "above": Box(0, 5, 0, 10, 3, 3), "behind": Box(0, 0, 3, 10, 8, 3)}
    colours: Colours = {"box": COLOURS[0], "right": "#ffd6a5", "above": COLOURS[4], "behind": COLOURS[2]}
    svg, scale, left, top = Svg(), 22, 90, 92
    svg.text(MARGIN, 34, "One step: a box in the corner of a section, and one of the six cuts", 14, weight="bold")
    base = top + section[2] * SIN * scale + section[1] * scale

    def at(i: float, j: float, k: float) -> tuple[float, float]:
        return left + (i + k) * COS * scale, base + (i - k) * SIN * scale - j * scale

    draw_solid(svg, left, base, scale, section, [Placement(name, box, name) for name, box in boxes.items()], colours)
    svg.add('<defs><marker id="arrow" viewBox="0 0 8 8" refX="6" refY="4" markerWidth="7" markerHeight="7" orient="auto">'
            f'<path d="M0,0 L8,4 L0,8 z" fill="{INK}"/></marker></defs>')
    for words, start, end, dx, dy, anchor in (("x: width", (0, 0, 0), (11.6, 0, 0), 8, 12, "start"),
                                              ("y: height", (0, 0, 0), (0, 9.8, 0), 0, -8, "middle"),
                                              ("z: depth", (10, 0, 0), (10, 0, 7.6), 8, 2, "start")):
        (x1, y1), (x2, y2) = at(*start), at(*end)
        svg.line(x1, y1, x2, y2, INK, 1.6, ' marker-end="url(#arrow)"')
        svg.text(x2 + dx, y2 + dy, words, 12, anchor)
    svg.text(at(0, 0, 0)[0] - 8, at(0, 0, 0)[1] + 16, "origin", 12, "end")
    for name, where in (("box", (3, 2.5, 0)), ("right", (8, 2.5, 0)), ("above", (5, 6.5, 0)), ("behind", (10, 4, 4.5))):
        x, y = at(*where)
        svg.text(x, y + 4, name, 13, "middle", weight="bold")
    x = at(10, 0, 7.6)[0] + 90
    rows = [("A box has a width, a height and a depth, in cells.", ""), ("It goes to the corner of the section that is nearest to the origin.", ""),
            ("", ""), ("Three pieces are left of the section:", ""), ("  right", "has the cells at higher x"), ("  above", "has the cells at higher y"),
            ("  behind", "has the cells at higher z"), ("", ""), ("In this cut the piece behind is cut off first, across the whole", ""),
            ("section, then the piece above, then the piece right. The cuts", ""), ("follow the axes z, y, x; each order of the axes is one of the six.", ""),
            ("", ""), ("In two dimensions the depth is 1: the piece behind is empty.", "")]
    for row, (words, more) in enumerate(rows):
        svg.text(x + (14 if words.startswith(" ") else 0), top + 18 * row, words.strip(), 12, weight="bold" if more else "normal")
        svg.text(x + 80, top + 18 * row, more, 12)
    return svg.whole(x + 500, base + section[0] * SIN * scale + 44)


def draw_files() -> Iterator[tuple[pathlib.Path, str]]:
    """Each picture's name, and what it has to be."""
    for name in TABLES:
        lines = (ROOT / "crates" / f"example_{name}" / "stdout").read_text().splitlines()
        yield PICTURES / f"{name}.svg", picture(read_table(lines))
    yield PICTURES / "cut.svg", draw_cut()


def check() -> int:
    """Ends with an error where a picture is not what this tool draws."""
    stale = [path for path, wanted in draw_files() if not path.exists() or path.read_text() != wanted]
    for path in stale:
        print(f"draw.py: {path.relative_to(ROOT)} is not what tools/draw.py --all draws", file=sys.stderr)
    return 1 if stale else 0


def main() -> int:
    parser = argparse.ArgumentParser(description=__doc__, formatter_class=argparse.RawDescriptionHelpFormatter)
    wanted = parser.add_mutually_exclusive_group(required=True)
    wanted.add_argument("--table", type=argparse.FileType(), metavar="FILE", help="draw the output of an example program")
    wanted.add_argument("--all", action="store_true", help="write all pictures of docs/pictures")
    wanted.add_argument("--check", action="store_true", help="whether these are up to date")
    given = parser.parse_args()
    if given.check:
        return check()
    if given.table:
        sys.stdout.write(picture(read_table(given.table.read().splitlines())))
    else:
        for path, text in draw_files():
            path.write_text(text)
    return 0


if __name__ == "__main__":
    sys.exit(main())
