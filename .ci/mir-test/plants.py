"""Breaches that .ci/divisions must report."""
# What the plants below are to be reported as, and what they take the place of.
DIVIDES, TAKES = "divides by a number that is no constant", "takes a number away again and again"
HANDS = "hands cells::split_number a number that no caller gave, as number"
NEW = "a way to a split that is not in the list"
INNER, TOP, PUT = "is_inner(rows, cols, row, col)", "    let mut at = top;", "// A cell is put on n others."
NEXT = "        at += 1;"
LIST = "        outlets,\n        place,\n        place + 1,\n        subaccumulation,\n        work,"
ROWS = "fn rows_of(cols: usize, n: usize) -> usize {\n    "
LOOP = (
    "let mut row = 0;\n    let mut col = n;\n    while cols <= col {\n        col -= cols;\n        row += 1;\n    }\n"
    "    row\n}"
)

# Breaches to plant: what is to be reported, and edits, each a crate, a text of its source and what takes its place.
Plant = tuple[str, *tuple[tuple[str, str, str], ...]]
PLANTS: list[Plant] = [
    (f"stack::put_inflows: {DIVIDES}", ("stack", INNER, "is_inner(rows, cols, row / cols, col)")),
    (f"stack::put_inflows: {DIVIDES}", ("stack", INNER, "is_inner(rows, cols, row, col % (cols))")),
    (f"filling::look_at_all: {DIVIDES}", ("filling", NEXT, "        at += 1;\n        at %= cols;")),
    (f"filling::look_at_all: {DIVIDES}", ("filling", NEXT, "        let width = cols;\n        at = at % width;")),
    (f"filling::look_at_all: {DIVIDES}", ("filling", NEXT, "        let WIDTH = cols;\n        at = at % WIDTH;")),
    (f"cells::Cell::next: {DIVIDES}", ("cells", "self.row + 1", "(self.row * cols + self.col) / cols + 1")),
    (f"cells::split_number: {DIVIDES}", ("cells", "at / cols", "at / (cols + 0)")),
    (f"cells::split_number: {DIVIDES}", ("cells", "at % cols", "(at + 1) % cols")),
    # Counted off: in a function of another crate, through a temporary, upwards, and by a function that calls itself.
    (f"cells::rows_of: {TAKES}", ("cells", "// A cell of a grid.", f"pub {ROWS}{LOOP}\n\n// A cell of a grid."),
     ("stack", INNER, "is_inner(rows, cols, cells::rows_of(cols, row * cols + col), col)")),
    (f"stack::put_inflows: {TAKES}",
     ("stack", TOP, f"{TOP}\n    while cols <= at {{\n        let less = at - cols;\n        at = less;\n    }}")),
    ("stack::put_inflows: adds the same number again and again",
     ("stack", TOP, f"{TOP}\n    while at < row {{\n        let width = cols;\n        at += width;\n    }}")),
    (f"stack::rows_of: {TAKES}",
     ("stack", PUT, f"{ROWS}if n < cols {{ 0 }} else {{ rows_of(cols, n - cols) + 1 }}\n}}\n\n{PUT}")),
    # Split: a number of a lent grid, under its name or another, one that was made here, and one from a list made here.
    (f"filling::flag_at: {HANDS}", ("filling", "split_number(cols, outlet)", "split_number(cols, own)")),
    (f"filling::flag_at: {HANDS}", ("filling", "let cell = split", "let outlet = words[at];\n    let cell = split")),
    (f"tracing::by_recursion: {HANDS}", ("tracing", "(cols, outlets[place])", "(cols, subaccumulation[place])")),
    (f"stack::put_inflows: {HANDS}",
     ("stack", INNER, "is_inner(rows, cols, cells::split_number(cols, (row * cols + col) as u32).row, col)")),
    (f"writing::put_rows: {HANDS}",
     ("writing", "use cells::split_number;", "use cells::split_number;\nuse cells::split_number as split;"),
     ("writing", "let start = row * cols;", "let start = split(cols, row as u32).row * cols;")),
    ("drawing::write_cells: hands flowpath::walk_from a number that no caller gave, as start",
     ("drawing", "walk = walk.step", "walk = walk_from(cols, cell_number(cols, walk)).step")),
    ("accumulation::accumulate: hands filling::fill a number that no caller gave, as outlets",
     ("accumulation", "&none[..0]", "&none[..1]")),
    ("tracing::by_stack: hands noting::make_ready a number that no caller gave, as outlets",
     ("tracing", LIST, LIST.replace("outlets", "starts"))),
    # Another way to a split: by a function, by a call of an entry, and one that is gone.
    (f"{NEW}: cells::split_number by stack::row_of(n)",
     ("stack", PUT, f"fn row_of(cols: usize, n: u32) -> usize {{\n    cells::split_number(cols, n).row\n}}\n\n{PUT}")),
    (f"{NEW}: accumulation::subaccumulate by passes::count_all(outlets)",
     ("passes", "while place <", "accumulation::subaccumulate(rows, cols, codes, outlets, outlets, work);\n    while place <")),
    ("in a list and not in the sources: cells::split_number by writing::put_outlets(outlets)",
     ("writing", "split_number(cols, outlets[k])", "cells::Cell { row: 0, col: 0 }")),
]
