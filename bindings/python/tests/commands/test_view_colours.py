"""The colours of the page: whether what is drawn and written in each theme can be read."""
from __future__ import annotations

import re
import unittest

from .test_view_tools import PARTS


def colours(theme: str) -> list[dict[str, str]]:
    """What the style sheet says of a theme, in each place where it says it."""
    css = (PARTS / "page.css").read_text(encoding="utf-8")
    blocks = re.findall(r":root([^{]*)\{([^}]*--page[^}]*)\}", css)
    chosen = [text for selector, text in blocks if ("dark" in selector or "light" in selector) == (theme == "dark")]
    return [dict(re.findall(r"--([\w-]+): (#[0-9a-f]{6});", text)) for text in chosen]


def contrast(one: str, other: str, shade: float = 1) -> float:
    """The contrast of two colours, by WCAG 2.2. The second may be shaded."""
    def light(colour: str, by: float) -> float:
        parts = [min(1.0, int(colour[i:i + 2], 16) / 255 * by) for i in (1, 3, 5)]
        red, green, blue = (it / 12.92 if it <= 0.04045 else float(((it + 0.055) / 1.055) ** 2.4) for it in parts)
        return 0.2126 * red + 0.7152 * green + 0.0722 * blue
    low, high = sorted((light(one, 1), light(other, shade)))
    return (high + 0.05) / (low + 0.05)


TEXTS = ("ink", "faint", "accent", "bad", "placed", "released", "match")


class Colours(unittest.TestCase):
    def test_the_dark_theme_is_one(self) -> None:
        chosen, followed = colours("dark")
        self.assertEqual(chosen, followed)
        light, = colours("light")
        self.assertEqual(light.keys(), chosen.keys())

    def test_names_can_be_read_on_each_box(self) -> None:
        script = (PARTS / "solid.js").read_text(encoding="utf-8")
        factors = re.search(r"dot\(side, vec3\(([\d.]+), ([\d.]+), ([\d.]+)\)\)", script)
        assert factors
        shades = list(map(float, factors.groups()))
        for theme in ("light", "dark"):
            it = colours(theme)[0]
            fills = [value for name, value in it.items() if re.fullmatch(r"group-\d|alone", name)]
            self.assertEqual((len(fills), len(set(fills))), (11, 11))
            for fill in fills:
                for shade in (1, *shades):
                    self.assertGreaterEqual(contrast(it["label"], fill, shade), 4.5, (theme, fill, shade))

    def test_text_and_marks_stand_out(self) -> None:
        for theme in ("light", "dark"):
            it = colours(theme)[0]
            pairs = [
                *((text, back, 4.5) for text in TEXTS for back in ("card", "stage", "quiet")),
                ("on-accent", "accent", 4.5), ("ink", "field", 4.5), ("faint", "field", 4.5), ("card", "ink", 4.5),
                *((mark, "stage", 3) for mark in ("line", "saw", "selected")), ("control", "field", 3), ("control", "card", 3),
            ]
            for one, other, least in pairs:
                self.assertGreaterEqual(contrast(it[one], it[other]), least, (theme, one, other))


if __name__ == "__main__":
    unittest.main()
