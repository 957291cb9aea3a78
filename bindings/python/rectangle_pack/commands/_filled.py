"""How full something is, in words: one rule for what is printed and what is drawn."""
from __future__ import annotations

__all__ = ["filled_text"]


def filled_text(part: int, whole: int) -> str:
    """Percent with one decimal, rounded down: so only what is full is 100 %, and only what is empty is 0 %."""
    tenths = 1000 * part // whole
    if part and not tenths:
        return "under 0.1 %"
    return f"{tenths // 10}.{tenths % 10}".removesuffix(".0") + " %"
