"""Aligned tables as text."""

GAP = "  "


def _widths(rows):
    return [max(len(cell) for cell in column) for column in zip(*rows)]


def _line(row, widths, left):
    parts = [cell.ljust(width) if place < left else cell.rjust(width) for place, (cell, width) in enumerate(zip(row, widths))]
    return GAP.join(parts).rstrip()


def aligned(rows, left=1):
    """The lines of a table, two spaces between columns. The first `left` columns begin at the left, the others end at the right."""
    rows = [[str(cell) for cell in row] for row in rows]
    widths = _widths(rows)
    return [_line(row, widths, left) for row in rows]


def grouped(groups, rows, left=1):
    """The same, with titles over groups of columns: a title, or none, and how many columns it stands over."""
    rows = [[str(cell) for cell in row] for row in rows]
    widths = _widths(rows)
    titles, place = [], 0
    for title, columns in groups:
        wide = sum(widths[place : place + columns]) + len(GAP) * (columns - 1)
        room = len(title) + 4 if title else 0
        if room > wide:
            widths[place] += room - wide
            wide = room
        titles.append((" %s " % title).center(wide, "-") if title else " " * wide)
        place += columns
    return [GAP.join(titles).rstrip(), *(_line(row, widths, left) for row in rows)]
