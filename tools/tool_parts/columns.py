"""Tables of text."""


def table(heads, rows, texts):
    """Rows under their heads, in columns. Columns of `texts` begin at their left, those of numbers end at their right."""
    cells = [heads, *([str(cell) for cell in row] for row in rows)]
    widths = [max(map(len, column)) for column in zip(*cells)]
    for row in cells:
        yield "  ".join(
            cell.ljust(width) if head in texts else cell.rjust(width) for head, cell, width in zip(heads, row, widths)
        ).rstrip()
