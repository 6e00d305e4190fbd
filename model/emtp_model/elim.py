"""Elimination from the first row, and its faults.

A matrix is a list of rows; a row maps a column to its entry, and entries of 0 are left
out, which changes nothing.  Row after row is finished in turn: the entry (i, j) is the
same fold over k whether columns or rows are cleared first.
"""
from .fix import E12, E17, E18, near


class RowFault(Exception):
    """A row that can't be finished: its place and the cause."""

    def __init__(self, row: int, cause: str):
        super().__init__(row, cause)
        self.row, self.cause = row, cause


class SolveFault(Exception):
    """A number of the right side or the solution that isn't in range, and its row."""

    def __init__(self, row: int):
        super().__init__(row)
        self.row = row


def eliminate(matrix: list[dict[int, int]], rhs: list[int]) -> list[int]:
    """The solution x, or RowFault, or SolveFault."""
    done, ratios = [], []
    for i, given in enumerate(matrix):
        row = dict(given)
        for entry in row.values():
            if abs(entry) > E17:
                raise RowFault(i, "RANGE")
        ms = []
        while True:
            k = min(row, default=i)
            if k >= i:
                break
            a = row.pop(k)
            if a == 0:
                continue
            m = near(a * E12, done[k][k])
            if abs(m) > E18:
                raise RowFault(i, "RANGE")
            if m == 0:
                continue
            ms.append((k, m))
            for j, entry in done[k].items():
                if j > k:
                    new = row.get(j, 0) - near(m * entry, E12)
                    if abs(new) > E17:
                        raise RowFault(i, "RANGE")
                    row[j] = new
        if row.get(i, 0) == 0:
            raise RowFault(i, "ZEROPIVOT")
        done.append({j: entry for j, entry in row.items() if entry})
        ratios.append(ms)
    right = []
    for i, value in enumerate(rhs):
        if abs(value) > E18:
            raise SolveFault(i)
        for k, m in ratios[i]:
            value -= near(m * right[k], E12)
            if abs(value) > E18:
                raise SolveFault(i)
        right.append(value)
    x = [0] * len(matrix)
    for k in range(len(matrix) - 1, -1, -1):
        total = right[k] * E12
        for j, entry in done[k].items():
            if j > k:
                total -= entry * x[j]
        x[k] = near(total, done[k][k])
        if abs(x[k]) > E18:
            raise SolveFault(k)
    return x


def clean(row: dict[int, int]) -> dict[int, int]:
    """A row without its entries of 0."""
    return {column: entry for column, entry in row.items() if entry}


def changed(a: list[dict[int, int]], b: list[dict[int, int]]) -> int:
    """The least row in which two matrices of one size differ, or the size."""
    for i, (one, two) in enumerate(zip(a, b)):
        if one != two:
            return i
    return len(a)
