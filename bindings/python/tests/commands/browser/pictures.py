#!/usr/bin/env python3
"""Makes the pictures of docs/TOOLS.md anew, of the example set: python3 -m tests.commands.browser.pictures FOLDER"""
from __future__ import annotations

import base64
import sys
from pathlib import Path

from .browser import BrowserCase, session


class Pictures(BrowserCase):
    """No test: it takes the browser that tests have."""

    def take(self, path: Path) -> None:
        self.driver.execute_async_script("setTimeout(arguments[0], 500)")
        path.write_bytes(base64.b64decode(self.told("Page.captureScreenshot", {})["data"]))

    def take_all(self, folder: Path) -> None:
        self.open(session("pages.txt"), size=(1100, 700))
        self.slide("slider", 11)
        self.take(folder / "view_pages.png")
        self.open(session("van.txt"), size=(1100, 700), colours="dark")
        self.slide("slider", 14)
        self.keys("0", "j", "j", "j")
        self.take(folder / "view_van.png")


def main(folder: Path) -> None:
    pictures = Pictures()
    Pictures.setUpClass()
    try:
        pictures.setUp()
        pictures.take_all(folder)
    finally:
        pictures.doCleanups()
        Pictures.doClassCleanups()


if __name__ == "__main__":
    if len(sys.argv) != 2:
        sys.exit("usage: python3 -m tests.commands.browser.pictures FOLDER")
    main(Path(sys.argv[1]))
