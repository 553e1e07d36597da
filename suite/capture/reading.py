"""A captured picture as the rows of a frame."""
from .cells import COLUMNS, ROWS, points


def rows_of(picture, learned):
    """The rows that show anything, as lines of a report."""
    lines = []
    for row in range(ROWS):
        if is_black(picture, row, learned):
            continue
        cells = [learned.cell(points(picture, column, row, learned.shift)) for column in range(COLUMNS)]
        runs = runs_of(cells)
        if runs:
            lines.append("row %02d: %s" % (row, " ".join(runs)))
    return lines


def is_black(picture, row, learned):
    top = row * 16 + learned.shift[1]
    limit = learned.brightest_black + max(learned.colours["000000"])
    return all(max(picture.rows[y]) < limit for y in range(top, top + 16) if 0 <= y < picture.height)


def runs_of(cells):
    """Runs of cells of one pair of colours, as a report writes them."""
    runs, at = [], 0
    while at < len(cells):
        end = at
        while end + 1 < len(cells) and cells[end + 1][1:] == cells[at][1:]:
            end += 1
        text = "".join(cell[0] for cell in cells[at:end + 1]).rstrip(" ")
        if text or cells[at][1:] != ("000000", "000000"):
            runs.append('%d-%d %s/%s "%s"' % ((at, end) + cells[at][1:] + (text.replace("\\", "\\\\").replace('"', '\\"'),)))
        at = end + 1
    return runs
