"""The table of the crates that are left over, in the columns of the packing list."""
from __future__ import annotations

import csv
import io
from collections.abc import Mapping
from pathlib import Path

__all__ = ["left_table"]


def left_table(path: Path, counts: Mapping[int, int]) -> str:
    """The lines of the packing list of which crates are left over, by their numbers, with how many these are. It was read before,
    so it is a table."""
    lines = path.read_bytes().decode("utf-8-sig").splitlines(keepends=True)
    delimiter = max(",;\t", key=lines[0].count)
    reader, text = csv.reader(lines, delimiter=delimiter, strict=True), io.StringIO()
    writer = csv.writer(text, delimiter=delimiter, lineterminator="\n")
    head = next(reader)
    writer.writerow(head)
    names = [name.strip().lower() for name in head]
    line = reader.line_num + 1
    for values in reader:
        if line in counts:
            writer.writerow(
                str(counts[line]) if name == "count" else value for name, value in zip(names, [*values, *[""] * len(names)]))
        line = reader.line_num + 1
    return text.getvalue()
