"""A page as SVG, with its text as text."""
from __future__ import annotations

import xml.etree.ElementTree as ElementTree

from .page import Disc, Lines, Oblong, Page, Shape, Text

__all__ = ["svg_of"]

FONTS = "Liberation Sans, Arial, Helvetica, DejaVu Sans, sans-serif"


def _number(value: float) -> str:
    return f"{value:.2f}".rstrip("0").rstrip(".")


def _oblong(parent: ElementTree.Element, shape: Oblong) -> None:
    names = {name: _number(getattr(shape.area, name)) for name in ("x", "y", "width", "height")}
    it = ElementTree.SubElement(parent, "rect", {**names, "fill": shape.fill or "none"})
    if shape.line:
        it.set("stroke", shape.line)
        it.set("stroke-width", _number(shape.line_width))
    if shape.is_dashed:
        it.set("stroke-dasharray", "1.5 1")
    if shape.title:
        ElementTree.SubElement(it, "title").text = shape.title


def _text(parent: ElementTree.Element, shape: Text) -> None:
    it = ElementTree.SubElement(parent, "text", {
        "x": _number(shape.x), "y": _number(shape.y), "font-size": _number(shape.size), "fill": shape.colour,
        # The middle of the letters, not their base, is at the place.
        "dy": "0.35em",
    })
    if shape.is_centred:
        it.set("text-anchor", "middle")
    if shape.is_bold:
        it.set("font-weight", "bold")
    if shape.is_upright:
        it.set("transform", f"rotate(-90 {_number(shape.x)} {_number(shape.y)})")
    it.text = shape.text


def _add(parent: ElementTree.Element, shape: Shape) -> None:
    if isinstance(shape, Oblong):
        _oblong(parent, shape)
    elif isinstance(shape, Text):
        _text(parent, shape)
    elif isinstance(shape, Lines):
        ends = (tuple(map(_number, stroke)) for stroke in shape.strokes)
        path = "".join(f"M{x} {y}L{to_x} {to_y}" for x, y, to_x, to_y in ends)
        ElementTree.SubElement(parent, "path", {
            "d": path, "fill": "none", "stroke": shape.colour, "stroke-width": _number(shape.width)})
    else:
        assert isinstance(shape, Disc)
        ElementTree.SubElement(parent, "circle", {
            "cx": _number(shape.x), "cy": _number(shape.y), "r": _number(shape.radius), "fill": shape.fill,
            "stroke": shape.line, "stroke-width": "0.15"})


def svg_of(page: Page) -> str:
    """The page as a file, as high as is used."""
    size = {"width": f"{_number(page.width)}mm", "height": f"{_number(page.end)}mm"}
    root = ElementTree.Element("svg", {
        "xmlns": "http://www.w3.org/2000/svg", "viewBox": f"0 0 {_number(page.width)} {_number(page.end)}", **size,
        "font-family": FONTS, "role": "img", "aria-labelledby": "title description"})
    ElementTree.SubElement(root, "title", id="title").text = page.title
    ElementTree.SubElement(root, "desc", id="description").text = page.description
    ElementTree.SubElement(root, "rect", {
        "width": _number(page.width), "height": _number(page.end), "fill": "#ffffff"})
    for shape in page.shapes:
        _add(root, shape)
    ElementTree.indent(root, " ")
    return ElementTree.tostring(root, encoding="unicode") + "\n"
