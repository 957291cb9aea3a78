"""Sprites that are turned on their pages, in a browser: it loads page and index, and draws each frame as PixiJS does."""
from __future__ import annotations

import base64
import json
import unittest
from typing import Any

from .browser import BrowserCase

from ..sheet_pictures import Picture, drawn, framed
from ..test_sheet_tools import SheetCase, read_atlas

# The pixels of each frame. PixiJS takes a place of h by w for a frame that is rotated, and turns it counterclockwise.
DRAW = """const [url, frames, done] = arguments;
    const drawn = ({ frame: { x, y, w, h }, rotated }, page) => {
      const canvas = document.createElement('canvas');
      [canvas.width, canvas.height] = [w, h];
      const context = canvas.getContext('2d', { willReadFrequently: true });
      context.imageSmoothingEnabled = false;
      if (rotated) {
        context.setTransform(0, -1, 1, 0, 0, h);
        context.drawImage(page, x, y, h, w, 0, 0, h, w);
      } else {
        context.drawImage(page, x, y, w, h, 0, 0, w, h);
      }
      return [w, h, [...context.getImageData(0, 0, w, h).data]];
    };
    const page = new Image();
    page.onload = () => done(Object.fromEntries(Object.entries(frames).map(([name, it]) => [name, drawn(it, page)])));
    page.onerror = () => done(null);
    page.src = url;"""


def opaque(picture: Picture) -> Picture:
    """The picture with no pixel that is half clear: browsers round the colours of such ones."""
    data = bytearray(picture.data)
    data[3::4] = bytes(255 if alpha else 0 for alpha in data[3::4])
    return Picture(picture.width, picture.height, bytes(data))


class Turned(BrowserCase, SheetCase):
    def setUp(self) -> None:
        super().setUp()
        SheetCase.setUp(self)

    def shown(self, image: bytes, frames: Any) -> dict[str, Picture]:
        """What the browser draws of each frame."""
        self.driver.get("about:blank")
        url = f"data:image/png;base64,{base64.b64encode(image).decode()}"
        found = self.driver.execute_async_script(DRAW, url, frames)
        self.assertIsNotNone(found)
        return {name: Picture(width, height, bytes(data)) for name, (width, height, data) in found.items()}

    def test_frames_are_drawn_as_they_were(self) -> None:
        pictures = {name: opaque(picture) for name, picture in drawn(4, 60, 2, 24, ["", "hero"]).items()}
        self.write(pictures)
        for more in ((), ("--trim", "--extrude", 1)):
            self.sheet("--turn", *more)
            frames = json.loads((self.out / "atlas.json").read_text())["frames"]
            self.assertTrue(any(it["rotated"] for it in frames.values()))
            parts = self.shown((self.out / "atlas.png").read_bytes(), frames)
            for name, frame in read_atlas(self.out).frames.items():
                right, bottom = frame.whole[0] - frame.left - frame.width, frame.whole[1] - frame.top - frame.height
                self.assertEqual(framed(parts[name], frame.left, frame.top, right, bottom), pictures[name], name)


if __name__ == "__main__":
    unittest.main()
