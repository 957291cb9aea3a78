"""The HTML of a page, as the tests read it."""
from __future__ import annotations

from html.parser import HTMLParser

__all__ = ["Parsed"]


class Parsed(HTMLParser):
    """The elements of a page, and the text in those that have no elements."""

    def __init__(self, page: str) -> None:
        super().__init__()
        self.elements: list[tuple[str, dict[str, str]]] = []
        self.texts: list[tuple[str, dict[str, str], str]] = []
        self.feed(page)
        self.close()

    def handle_starttag(self, tag: str, attrs: list[tuple[str, str | None]]) -> None:
        self.elements.append((tag, {name: value or "" for name, value in attrs}))

    def handle_data(self, data: str) -> None:
        if self.elements:
            self.texts.append((*self.elements[-1], data))

    def text(self, tag: str, **having: str) -> str:
        """The text of the only element of this kind."""
        found = [
            text for name, attributes, text in self.texts
            if name == tag and (having.items() <= attributes.items() if having else not attributes) and text.strip()]
        assert len(found) == 1, (tag, having, len(found))
        return found[0]
