"""Cutting lists on which a page in a browser is compared with the texts: the example, lists of other tests, and drawn ones."""
from __future__ import annotations

from collections.abc import Iterator
from decimal import Decimal
from random import Random
from typing import NamedTuple

__all__ = ["HEAD", "SHEETS", "CuttingList", "by_hand", "drawn_lists"]

HEAD, SHEETS = "name,count,width,height,grain\n", "name,count,width,height,cost\n"


class CuttingList(NamedTuple):
    """A list with its tables, and the words of the call."""

    name: str
    panels: str
    stock: str
    offcuts: str
    words: tuple[str, ...]


def by_hand() -> Iterator[CuttingList]:
    """Lists in which something is at its edge."""
    for name, panels, stock, words in (
        ("two in a row", "a,2,100,50,keep\n", "s,,203.2,60,1\n", "--kerf 3.2 --keep 100x6"),
        ("no kerf", "a,2,100,100,keep\nb,3,40,30,free\n", "s,,200,200,1\n", "--kerf 0"),
        ("nothing behind the blade", "a,1,100,50,keep\n", "s,,101,52,1\n", "--kerf 3"),
        ("a strip narrower than the blade", "a,1,100,50,keep\n", "s,,100,55.9,1\n", "--kerf 3"),
        ("such a strip is kept", "a,1,100,50,keep\n", "s,,100,55,1\n", "--kerf 3 --keep 0x0"),
        ("a trim narrower than the blade", "a,1,100,50,keep\n", "s,,104,54,1\n", "--kerf 3 --trim 2"),
        ("a trim as wide as the blade", "a,2,100,50,free\n", "s,,210,60,1\n", "--kerf 3 --trim 3"),
        ("a trim inside", "a,1,100,100,keep\nb,1,40,100,keep\n", "s,,144,100,1\n", "--kerf 3"),
        ("a sheet that is a panel", "a,1,50,100,free\nb,1,30,30,\n", "s,1,100,50,1\nt,1,40,40,2\n", "--kerf 3"),
        ("many decimals", "a,7,0.1,0.123456,free\n", "s,,0.7000001,0.5,1\n", "--kerf 0.0000002 --trim 0.001 --keep 1x1"),
        ("odd names", '"a < b & ""c"": x 2 -> 3 x 4, waste 1 x 1",3,60,40,free\n"10 × 20 → d",2,50,20,keep\n',
         "s,,150,150,1\n", "--kerf 2.5 --trim 5"),
    ):
        yield CuttingList(name, HEAD + panels, SHEETS + stock, "", tuple(words.split()))


def drawn_lists(count: int) -> Iterator[CuttingList]:
    """Lists that are drawn: with decimals, panels that may be turned, several sheets, and edges that are trimmed by more or by
    less than the blade takes."""
    for seed in range(count):
        chance = Random(seed)
        decimals = chance.choice((0, 1, 1, 2, 3))

        def size(low: int, high: int) -> str:
            return f"{Decimal(chance.randint(low * 10**decimals, high * 10**decimals)).scaleb(-decimals):f}"

        panels, stock = HEAD, SHEETS
        for index in range(chance.randint(2, 8)):
            grain = chance.choice(("keep", "free", "free"))
            panels += f"p{index},{chance.randint(1, 5)},{size(8, 420)},{size(8, 340)},{grain}\n"
        stock += f"large,,{size(450, 900)},{size(450, 800)},7.5\n"
        if chance.random() < 0.6:
            stock += f"small,{chance.choice(('', '1', '3'))},{size(200, 600)},{size(200, 600)},4\n"
        offcuts = f"{SHEETS}rest,{chance.randint(1, 2)},{size(100, 500)},{size(100, 500)},\n" if chance.random() < 0.6 else ""
        kerf, trim = chance.choice(("0", "2.2", "3.2", "4.75")), chance.choice(("0", "1.5", "3.2", "10", "12.25"))
        words = ["--kerf", kerf, "--trim", trim, "--keep", chance.choice(("60x40", "150x150", "0x0"))]
        words += ["--trim-offcuts"] if chance.random() < 0.5 else []
        yield CuttingList(f"drawn {seed}", panels, stock, offcuts, tuple(words))
