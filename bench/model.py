#!/usr/bin/env python3
"""What the program `pace` should print without the clock, from a model of its own: the row search as the
textbooks have it, a recursion on every second row, with each read of an entry counted. It shares no code with
the library. As there, a comparison of the reduction reads both entries."""

SIZES = (64, 128, 256, 512)


class Sheet:
    """Entries by row and column, smaller keys first; counts what is read."""

    def __init__(self, key):
        self.key, self.reads = key, 0

    def read(self, row, column):
        self.reads += 1
        return self.key(row, column)


def reduce(sheet, rows, columns):
    kept = []
    for column in columns:
        while kept:
            row = rows[len(kept) - 1]
            old = sheet.read(row, kept[-1])
            if not sheet.read(row, column) < old:
                break
            kept.pop()
        if len(kept) < len(rows):
            kept.append(column)
    return kept


def minima(sheet, rows, columns):
    """The column of the leftmost least entry of each row."""
    kept = reduce(sheet, rows, columns)
    found = [None] * len(rows)
    if len(rows) > 1:
        found[1::2] = minima(sheet, rows[1::2], kept)
    place = 0
    for i in range(0, len(rows), 2):
        last = found[i + 1] if i + 1 < len(rows) else kept[-1]
        best, least = kept[place], sheet.read(rows[i], kept[place])
        while kept[place] < last:
            place += 1
            here = sheet.read(rows[i], kept[place])
            if here < least:
                best, least = kept[place], here
        found[i] = best
    return found


def square(size):
    sheet = Sheet(lambda row, column: (row - column) ** 2)
    minima(sheet, list(range(size)), list(range(size)))
    return sheet.reads


def lens(size):
    half, corners = size // 2, []
    for place in range(size):
        along = place if place < half else 2 * half - place - 1
        x = along - half // 2
        corners.append((x, x * x - 30000 if place < half else 30000 - x * x))

    def reach(i, j):
        if j <= i:
            return j - i
        if j >= i + size:
            return -1
        (a, b), (c, d) = corners[i], corners[j % size]
        return (a - c) ** 2 + (b - d) ** 2

    sheet = Sheet(lambda i, j: -reach(i, j))
    minima(sheet, list(range(size)), list(range(2 * size - 1)))
    return sheet.reads


class Fit:
    """Ceiling weights, up to eight spans; tells how many spans a settle weighs."""

    def __init__(self):
        self.readings, self.tallies, self.mark = [], [[0]] + [[None] for _ in range(8)], 0

    def settle(self):
        x, n, weighed = self.readings, len(self.readings), 0
        sums = [0]
        for reading in x:
            sums.append(sums[-1] + reading)
        self.tallies[0] = [0] + [None] * n
        for k in range(8):
            below = self.tallies[k]

            def key(row, a):
                nonlocal weighed
                if a > row or below[a] is None:
                    return float("inf")
                weighed += 1
                return below[a] + (row + 1 - a) * x[row] - sums[row + 1] + sums[a]

            sheet = Sheet(key)
            rows = list(range(self.mark, n))
            found = minima(sheet, rows, list(range(n)))
            made = self.tallies[k + 1][: self.mark + 1]
            for row, column in zip(rows, found):
                cost = sheet.read(row, column)
                made.append(None if cost == float("inf") else cost)
            self.tallies[k + 1] = made
        self.mark = n
        return weighed


def lead(settled, more):
    fit = Fit()
    fit.readings += [i * i // 5 for i in range(settled)]
    if settled:
        fit.settle()
    fit.readings += [i * i // 5 for i in range(settled, settled + more)]
    return fit.settle()


for size in SIZES:
    print(f"search of rows and columns {size}: {square(size)}")
for size in SIZES:
    print(f"farthest of corners {size}: {lens(size)}")
for size in SIZES:
    print(f"settle of readings {size}: {lead(0, size)}")
for size in SIZES:
    print(f"settle of one more after readings {size - 1}: {lead(size - 1, 1)}")
