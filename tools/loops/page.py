"""The three tables of docs/LOOPS.md."""
import os
import re
from collections import Counter, namedtuple

PAGE = "docs/LOOPS.md"

COLUMNS_OF_LOOPS = ["file", "function", "loop", "goes over", "falls", "turns at most", "1,514", "65,549", "any length"]
COLUMNS_OF_RECURSION = ["file", "functions", "calls", "falls", "calls deep at most", "1,514", "65,549", "any length"]
FIRST_COLUMN_OF_CALLS = ["call"]

Row = namedtuple("Row", "line cells")


class Page:
    """The three tables of docs/LOOPS.md."""

    def __init__(self, folder):
        self.faults = []
        try:
            with open(os.path.join(folder, PAGE), encoding="utf-8") as opened:
                self.sections = sections_of(opened.read().split("\n"))
        except OSError:
            self.sections = {}
            self.fault(1, "there is no such file")
            self.loops = self.recursions = self.calls = []
            return
        self.loops = self.table("Loops", COLUMNS_OF_LOOPS)
        self.recursions = self.table("Recursion", COLUMNS_OF_RECURSION)
        self.calls = self.table("Whole calls", FIRST_COLUMN_OF_CALLS)

    def fault(self, line, what):
        self.faults.append((PAGE, line, what))

    def table(self, title, columns):
        """The rows of the table under a heading that has these columns, or these first where there may be more."""
        tables = tables_of(self.sections.get(title, []))
        fitting = [rows for rows in tables if rows[0].cells[:len(columns)] == columns and
                   (columns == FIRST_COLUMN_OF_CALLS or len(rows[0].cells) == len(columns))]
        if len(fitting) != 1:
            self.fault(1, f"under '## {title}' there is not one table with the columns '{' | '.join(columns)}'")
            return []
        head, good = fitting[0][0].cells, []
        for row in fitting[0][2:]:
            if len(row.cells) != len(head) or not all(row.cells):
                self.fault(row.line, "a row with an empty cell, or with more or fewer cells than the table's head")
            else:
                good.append(Row(row.line, dict(zip(head, row.cells))))
        return good


def sections_of(lines):
    """The numbered lines under each heading of the second level; of two with the same name neither counts."""
    sections, titles, current, is_code = {}, Counter(), [], False
    for number, line in enumerate(lines, 1):
        if line.startswith("```"):
            is_code = not is_code
        elif is_code:
            continue
        elif line.startswith("# "):
            current = []
        elif line.startswith("## "):
            title = line[3:].strip()
            titles[title] += 1
            current = sections[title] = []
        else:
            current.append((number, line))
    return {title: rows for title, rows in sections.items() if titles[title] == 1}


def tables_of(numbered_lines):
    """The tables among lines: each a list of rows, its head and the line of dashes first."""
    tables, last = [], None
    for number, line in numbered_lines:
        if not line.lstrip().startswith("|"):
            continue
        if last is None or last + 1 != number:
            tables.append([])
        last = number
        tables[-1].append(Row(number, cells_of(line)))
    return [rows for rows in tables if len(rows) > 1]


def cells_of(line):
    cells = re.split(r"(?<!\\)\|", line.strip())[1:]
    if cells and not cells[-1].strip():
        cells = cells[:-1]
    return [cell.replace("\\|", "|").strip() for cell in cells]


def code_in(cell):
    """What stands in backticks in a cell."""
    return [" ".join(code.split()) for code in re.findall(r"`([^`]+)`", cell)]
