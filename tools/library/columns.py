"""Tables of text."""

from typing import Iterable, List, Sequence


def columns(rows: Iterable[Sequence[str]], right: Sequence[int] = ()) -> List[str]:
    """Rows of cells as lines whose columns are aligned, two spaces apart; some columns to the right."""
    rows = list(rows)
    widths = [max(len(row[index]) for row in rows) for index in range(len(rows[0]))] if rows else []
    lines = []
    for row in rows:
        cells = [
            cell.rjust(width) if index in right else cell.ljust(width)
            for index, (cell, width) in enumerate(zip(row, widths))
        ]
        lines.append("  ".join(cells).rstrip())
    return lines
