"""The page: one file of HTML that has its style, its script and the scenes in it, and fetches nothing."""
from __future__ import annotations

import base64
import hashlib
import html
import importlib.resources
import json
import re
from collections.abc import Sequence

from .._scene import Scene
from ._json import to_json

__all__ = ["SCRIPTS", "page_of"]

# They are put into one script, in this order.
SCRIPTS = (
    "model.js", "cuts.js", "layout.js", "look.js", "captions.js", "flat.js", "solid.js", "names.js", "overlay.js", "panels.js",
    "legend.js", "table.js", "update.js", "bins.js", "page.js", "pointer.js", "keys.js", "titles.js", "start.js",
)

# These may not stand in a script of HTML as they are. JSON and JavaScript read them back from their numbers.
UNSAFE = re.compile("[<>&\u2028\u2029]")


def page_of(title: str, scenes: Sequence[Scene]) -> str:
    """The page that shows these scenes. Equal scenes make equal pages."""
    style, script = _part("page.css"), _script()
    parts = {
        "title": html.escape(_readable(title)), "style": style, "script": script, "policy": _policy(style, script),
        "data": _data(title, scenes),
    }
    return re.sub(r"\{\{(\w+)\}\}", lambda found: parts[found[1]], _part("page.html"))


def _readable(text: str) -> str:
    """The text, with a question mark for what is no character: the name of a file may have such bytes."""
    return text.encode("utf-8", "replace").decode("utf-8")


def _part(name: str) -> str:
    return importlib.resources.files(__package__).joinpath(name).read_text(encoding="utf-8")


def _script() -> str:
    """All parts of the script in one function, so that no name is seen outside."""
    parts = "\n".join(_part(name) for name in SCRIPTS)
    return f'"use strict";\n(() => {{\n{parts}}})();\n'


def _data(title: str, scenes: Sequence[Scene]) -> str:
    text = json.dumps({"title": title, "scenes": [to_json(scene) for scene in scenes]}, separators=(",", ":"))
    return UNSAFE.sub(lambda found: f"\\u{ord(found[0]):04x}", text)


def _policy(style: str, script: str) -> str:
    """Nothing is fetched. This style and this script may be used, and pictures that stand in the page itself."""
    return (
        f"default-src 'none'; style-src {_digest(style)}; script-src {_digest(script)}; img-src data:; base-uri 'none'; "
        "form-action 'none'")


def _digest(text: str) -> str:
    return f"'sha256-{base64.b64encode(hashlib.sha256(text.encode()).digest()).decode()}'"
