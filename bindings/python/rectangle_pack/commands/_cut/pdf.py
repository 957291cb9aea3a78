"""Pages as one PDF, by cairo."""
from __future__ import annotations

import io
import math
from collections.abc import Sequence
from typing import Any

from .._common import needs
from .page import Disc, Lines, Oblong, Page, Shape, Text

__all__ = ["cairo", "pdf_of"]

POINTS = 72 / 25.4


def cairo() -> Any:
    """The library that writes PDF."""
    return needs("cairo", "pycairo", "a PDF (--no-pdf leaves it out)")


class _Pen:
    """Draws on a page."""

    def __init__(self, library: Any, context: Any) -> None:
        self.cairo, self.context = library, context

    def colour(self, colour: str) -> None:
        self.context.set_source_rgb(*(int(colour[at:at + 2], 16) / 255 for at in (1, 3, 5)))

    def stroke(self, colour: str, width: float) -> None:
        self.colour(colour)
        self.context.set_line_width(width)
        self.context.stroke()

    def oblong(self, shape: Oblong) -> None:
        if shape.fill:
            self.context.rectangle(*shape.area)
            self.colour(shape.fill)
            self.context.fill()
        if shape.line:
            self.context.set_dash((1.5, 1.0) if shape.is_dashed else ())
            self.context.rectangle(*shape.area)
            self.stroke(shape.line, shape.line_width)
            self.context.set_dash(())

    def lines(self, shape: Lines) -> None:
        for it in shape.strokes:
            self.context.move_to(it.x, it.y)
            self.context.line_to(it.to_x, it.to_y)
        self.stroke(shape.colour, shape.width)

    def disc(self, shape: Disc) -> None:
        self.context.new_path()
        self.context.arc(shape.x, shape.y, shape.radius, 0, 2 * math.pi)
        self.context.close_path()
        self.colour(shape.fill)
        self.context.fill_preserve()
        self.stroke(shape.line, 0.15)

    def text(self, shape: Text) -> None:
        weight = self.cairo.FONT_WEIGHT_BOLD if shape.is_bold else self.cairo.FONT_WEIGHT_NORMAL
        self.context.select_font_face("sans-serif", self.cairo.FONT_SLANT_NORMAL, weight)
        self.context.set_font_size(shape.size)
        self.colour(shape.colour)
        self.context.save()
        self.context.translate(shape.x, shape.y)
        if shape.is_upright:
            self.context.rotate(-math.pi / 2)
        width = self.context.text_extents(shape.text).x_advance
        self.context.move_to(-width / 2 if shape.is_centred else 0, 0.35 * shape.size)
        self.context.show_text(shape.text)
        self.context.restore()

    def draw(self, shape: Shape) -> None:
        if isinstance(shape, Oblong):
            self.oblong(shape)
        elif isinstance(shape, Lines):
            self.lines(shape)
        elif isinstance(shape, Disc):
            self.disc(shape)
        else:
            self.text(shape)


def pdf_of(pages: Sequence[Page], title: str) -> bytes:
    """The pages as a file. Equal pages give equal files: so it has no date."""
    library, file = cairo(), io.BytesIO()
    surface = library.PDFSurface(file, pages[0].width * POINTS, pages[0].height * POINTS)
    surface.set_metadata(library.PDF_METADATA_TITLE, title)
    surface.set_metadata(library.PDF_METADATA_CREATE_DATE, "")
    for page in pages:
        surface.set_size(page.width * POINTS, page.height * POINTS)
        context = library.Context(surface)
        context.scale(POINTS, POINTS)
        pen = _Pen(library, context)
        for shape in page.shapes:
            pen.draw(shape)
        surface.show_page()
    surface.finish()
    return file.getvalue()
