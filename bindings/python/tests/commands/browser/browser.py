"""A headless Chromium that shows a page, over Debian's python3-selenium and chromium-driver."""
# Some calls of Selenium have no types.
# mypy: allow-untyped-calls
from __future__ import annotations

import shutil
import tempfile
import unittest
from collections.abc import Mapping, Sequence
from pathlib import Path
from typing import Any, NamedTuple

try:
    from selenium import webdriver
    from selenium.common.exceptions import WebDriverException
    from selenium.webdriver.chrome.service import Service
    from selenium.webdriver.common.action_chains import ActionChains
    from selenium.webdriver.common.by import By
    from selenium.webdriver.common.keys import Keys
    from selenium.webdriver.support.select import Select
    from selenium.webdriver.support.wait import WebDriverWait
except ImportError as why:
    raise unittest.SkipTest(f"no python3-selenium: {why}") from None

from ..test_view_tools import TOP, ViewCase, example, replay, table

from rectangle_pack.commands._scene import Item, Scene
from rectangle_pack.commands._view._page import page_of

__all__ = ["DESK", "PHONE", "BrowserCase", "Keys", "Row", "program", "session", "standing"]

CHROMIUM = "/usr/bin/chromium"
DRIVER = shutil.which("chromedriver") or "/usr/bin/chromedriver"
DESK, PHONE = (1280, 800), (390, 844)

ROWS = """return [...document.querySelectorAll('#table tbody tr')].filter((row) => !row.hidden).map((row) => (
    [...row.cells].map((cell) => cell.textContent)))"""
# The picture of the last screenshot, as numbers of red, green and blue at points.
PIXELS = """const [url, points, done] = arguments;
    const image = new Image();
    image.onload = () => {
      const canvas = document.createElement('canvas');
      [canvas.width, canvas.height] = [image.width, image.height];
      const context = canvas.getContext('2d', {willReadFrequently: true});
      context.drawImage(image, 0, 0);
      done(points.map(([x, y]) => [...context.getImageData(x, y, 1, 1).data].slice(0, 3)));
    };
    image.src = url;"""
FRAMES = "const done = arguments[0]; requestAnimationFrame(() => requestAnimationFrame(() => done()));"
STAGE = "const it = document.getElementById('stage').getBoundingClientRect(); return [it.x, it.y, it.width, it.height]"


class Row(NamedTuple):
    """A row of the table, as far as each scene has it."""

    number: str
    name: str
    bin: str
    rest: tuple[str, ...]
    now: str


def program(name: str) -> list[Scene]:
    """The scenes of what an example program prints."""
    return table((TOP / "crates" / f"example_{name}" / "stdout").read_text(encoding="utf-8"))


def session(name: str) -> Scene:
    """The scene of a file of the example set."""
    with tempfile.TemporaryDirectory() as folder:
        example(Path(folder))
        return replay((Path(folder) / name).read_text(encoding="ascii"), name)


def standing(scene: Scene, step: int) -> dict[int, Item]:
    """The boxes that stand in bins after a step, by their numbers."""
    items: dict[int, Item] = {}
    for it in scene.steps[:step + 1]:
        for number in it.released:
            del items[number]
        items.update((item.number, item) for item in it.placed)
    return items


class BrowserCase(ViewCase):
    """A test with a browser, which is started once for a class."""

    driver: webdriver.Chrome

    @classmethod
    def setUpClass(cls) -> None:
        if not Path(CHROMIUM).exists() or not Path(DRIVER).exists():
            raise unittest.SkipTest("no chromium, or no chromium-driver")
        options = webdriver.ChromeOptions()
        options.binary_location = CHROMIUM
        for word in ("headless=new", "no-sandbox", "use-angle=swiftshader", "enable-unsafe-swiftshader", "hide-scrollbars"):
            options.add_argument(f"--{word}")
        options.set_capability("goog:loggingPrefs", {"browser": "ALL", "performance": "ALL"})
        try:
            cls.driver = webdriver.Chrome(service=Service(DRIVER), options=options)
        except WebDriverException as why:
            raise unittest.SkipTest(f"chromium does not start: {why.msg}") from None
        cls.addClassCleanup(cls.driver.quit)
        # A page is drawn without a graphics card, which takes long where the machine is busy.
        cls.driver.set_script_timeout(300)

    def open(self, *scenes: Scene, size: tuple[int, int] = DESK, colours: str = "light", motion: str = "no-preference") -> None:
        """Opens the page of scenes in a window of this size, for a reader who prefers these colours and this motion."""
        self.show(self.file("page.html", page_of(scenes[0].title, scenes)), size, colours, motion)

    def show(self, page: Path, size: tuple[int, int] = DESK, colours: str = "light", motion: str = "no-preference") -> None:
        """Opens a page that is written."""
        self.told("Emulation.setDeviceMetricsOverride", {
            "width": size[0], "height": size[1], "deviceScaleFactor": 1, "mobile": size == PHONE})
        self.told("Emulation.setTouchEmulationEnabled", {"enabled": size == PHONE})
        self.prefer(colours, motion)
        # What was told before is of another page.
        self.told_of("browser")
        self.told_of("performance")
        self.driver.get(page.as_uri())
        self.settle()
        self.look_for_stage()

    def look_for_stage(self) -> None:
        """Where the drawing is now."""
        self.stage: list[float] = self.js(STAGE)

    def prefer(self, colours: str, motion: str = "no-preference") -> None:
        """Sets what the reader prefers."""
        features = {"prefers-color-scheme": colours, "prefers-reduced-motion": motion}
        listed = [{"name": name, "value": value} for name, value in features.items()]
        self.told("Emulation.setEmulatedMedia", {"features": listed})

    def told(self, command: str, words: Mapping[str, object]) -> Any:
        """What the browser answers to a command of its DevTools protocol."""
        return self.driver.execute_cdp_cmd(command, dict(words))

    def js(self, script: str, *words: object) -> Any:
        return self.driver.execute_script(script, *words)

    def settle(self) -> None:
        """Waits until what was asked for is drawn."""
        self.driver.execute_async_script(FRAMES)

    def keys(self, *keys: str) -> None:
        """Presses keys, one after another, wherever the focus is."""
        for key in keys:
            ActionChains(self.driver, duration=0).send_keys(key).perform()
        self.settle()

    def shift(self, key: str) -> None:
        """Presses a key together with Shift."""
        ActionChains(self.driver, duration=0).key_down(Keys.SHIFT).send_keys(key).key_up(Keys.SHIFT).perform()
        self.settle()

    def click(self, id: str) -> None:
        self.driver.find_element(By.ID, id).click()
        self.settle()

    def choose(self, id: str, text: str) -> None:
        Select(self.driver.find_element(By.ID, id)).select_by_visible_text(text)
        self.settle()

    def slide(self, id: str, value: int) -> None:
        """Sets a slider, as a drag does."""
        self.js("const it = document.getElementById(arguments[0]); it.value = arguments[1];"
                "it.dispatchEvent(new Event('input', {bubbles: true}))", id, value)
        self.settle()

    def text(self, id: str) -> str:
        """The text of an element that is shown, or nothing."""
        found: str = self.js(
            "const it = document.getElementById(arguments[0]); return it.checkVisibility() ? it.textContent : ''", id)
        return found

    def wait_for(self, id: str, text: str) -> None:
        """Waits until an element has a text: what is spoken comes a moment later. All spaces count alike."""
        try:
            WebDriverWait(self.driver, 5, 0.05).until(lambda _: self.text(id).replace("\u00a0", " ") == text)
        except WebDriverException:
            self.assertEqual(self.text(id).replace("\u00a0", " "), text)

    def rows(self) -> list[Row]:
        return [Row(number, name, bin, tuple(rest), now) for number, name, bin, *rest, now in self.js(ROWS)]

    def picture(self) -> str:
        """The drawing, as it is seen."""
        self.settle()
        clip = dict(zip(("x", "y", "width", "height"), self.js(STAGE)), scale=1)
        found: str = self.told("Page.captureScreenshot", {"clip": clip})["data"]
        return found

    def pixels(self, picture: str, points: Sequence[tuple[int, int]]) -> list[list[int]]:
        found: list[list[int]] = self.driver.execute_async_script(PIXELS, f"data:image/png;base64,{picture}", list(points))
        return found

    def point(self, x: int, y: int, kind: str = "mouseMoved", **more: object) -> None:
        """Moves the mouse to a point of the drawing, or presses, releases or turns its wheel there."""
        self.told("Input.dispatchMouseEvent", {"type": kind, "x": self.stage[0] + x, "y": self.stage[1] + y, **more})

    def click_at(self, x: int, y: int) -> None:
        """Clicks at a point of the drawing."""
        self.point(x, y, "mousePressed", button="left", buttons=1, clickCount=1)
        self.point(x, y, "mouseReleased", button="left", clickCount=1)
        self.settle()

    def tap(self, x: int, y: int) -> None:
        """Taps with a finger on a point of the drawing."""
        self.touch("touchStart", (x, y))
        self.touch("touchEnd")
        self.settle()

    def fills(self, count: int) -> list[list[int]]:
        """The colours that groups have in this theme, in their order."""
        found: list[str] = self.js(
            "const style = getComputedStyle(document.documentElement);"
            "return [...Array(arguments[0]).keys()].map((i) => style.getPropertyValue(`--group-${i}`))", count)
        return [[int(it.strip()[at:at + 2], 16) for at in (1, 3, 5)] for it in found]

    def drag(self, start: tuple[int, int], end: tuple[int, int]) -> None:
        self.point(*start, "mousePressed", button="left", buttons=1, clickCount=1)
        for part in (0.3, 0.6, 1):
            x, y = (round(a + (b - a) * part) for a, b in zip(start, end))
            self.point(x, y, "mouseMoved", button="left", buttons=1)
        self.point(*end, "mouseReleased", button="left", clickCount=1)
        self.settle()

    def touch(self, kind: str, *points: tuple[int, int]) -> None:
        places = [{"x": self.stage[0] + x, "y": self.stage[1] + y, "id": index} for index, (x, y) in enumerate(points)]
        self.told("Input.dispatchTouchEvent", {"type": kind, "touchPoints": places})

    def told_of(self, log: str) -> list[str]:
        """What the browser has logged since this was asked last."""
        return [str(it["message"]) for it in self.driver.get_log(log)]

    def assert_quiet(self) -> None:
        """The browser had nothing to complain of, and has asked for nothing but the page."""
        self.assertEqual(self.told_of("browser"), [])
        asked = [it for it in self.told_of("performance") if '"Network.requestWillBeSent"' in it]
        other = [it for it in asked if '"url":"file:' not in it and '"url":"data:' not in it]
        self.assertEqual(other, [])
