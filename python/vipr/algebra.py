"""Constraints as people write them."""
from __future__ import annotations

import heapq
from typing import Iterable, List, Optional, Tuple

from .certificate import Constraint, Number, Row
from .files import printable

SIGNS = {"G": ">=", "L": "<=", "E": "="}


def terms(entries: Iterable[Tuple[Number, str]]) -> List[str]:
    """The terms of a sum, as `2 x` and `- 3 y`: each coefficient with a name."""
    found: List[str] = []
    for coefficient, name in entries:
        size = "" if abs(coefficient) == 1 else f"{abs(coefficient)} "
        if found:
            sign = "- " if coefficient < 0 else "+ "
        else:
            sign = "-" if coefficient < 0 else ""
        found.append(f"{sign}{size}{name}")
    return found


def row_text(row: Row, names: List[str], most: Optional[int] = None) -> str:
    """The sum of a row, its first terms if there are more than `most`; 0 for an empty one."""
    shown = sorted(row) if most is None else heapq.nsmallest(most, row)
    found = terms((row[index], printable(names[index])) for index in shown)
    if len(shown) < len(row):
        found.append(f"+ .. ({len(row) - len(shown)} more)")
    return " ".join(found) or "0"


def constraint_text(constraint: Constraint, names: List[str], most: Optional[int] = None) -> str:
    """A constraint, as `2 x + 4 y >= 7`."""
    return f"{row_text(constraint.row, names, most)} {SIGNS[constraint.sense]} {constraint.bound}"
