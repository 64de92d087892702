#!/usr/bin/env python3
"""Joins what several processes printed, since where a process lies in memory can cost a figure some ns: best.py FILE..

Each time is the least of all files, and a ratio "a / b" is that of the least times of a and b.
"""

import re
import sys


def cells_of(line):
    return [cell.strip() for cell in line.strip().strip("|").split("|")]


def column_named(headers, name):
    """The column of times whose name is `name`, or ends with it: "peer" is "C peer, ns a row"."""
    return next(k for k, header in enumerate(headers) if ", ns" in header and header.split(",")[0].endswith(name))


def joined(headers, rows):
    """The rows that say the same of the same work, as one."""
    cells = list(rows[0])
    for k, header in enumerate(headers):
        if ", ns" in header and cells[k]:
            cells[k] = min((row[k] for row in rows), key=float)
    for k, header in enumerate(headers):
        if " / " in header and cells[k]:
            above, below = (float(cells[column_named(headers, name)]) for name in header.split(" / "))
            if below > 0:
                cells[k] = f"{above / below:.2f}"
    return cells


def main(paths):
    headers = []
    for lines in zip(*(open(path) for path in paths), strict=True):
        if not lines[0].startswith("|") or re.match(r"\|[-|]+$", lines[0]):
            print(lines[0], end="")
        elif ", ns" in lines[0]:
            headers = cells_of(lines[0])
            print(lines[0], end="")
        else:
            print("| " + " | ".join(joined(headers, [cells_of(line) for line in lines])) + " |")


if __name__ == "__main__":
    main(sys.argv[1:])
