"""Reads interface/*.tbl. What is wrong with a table is said with its line."""

import re

# What a cell may be, by its kind.
KINDS = {
    "number": r"0|[1-9][0-9]*",
    "capitals": r"[A-Z][A-Z0-9_]*",
    "word": r"[a-z][a-z0-9-]*",
    "name": r"[A-Za-z][A-Za-z0-9]*",
    "name or -": r"[A-Za-z][A-Za-z0-9]*|-",
    "letter or -": r"[A-Z]|-",
    "yes or no": r"yes|no",
    "made": r"yes|new|no",
    "arguments": r"[a-z_]+(=[a-z]+/[a-z]+\??)?(, [a-z_]+=[a-z]+/[a-z]+\??)*",
    "question": r"[a-z]+(_[a-z]+)*",
    "question arguments": r"[a-z_]+(=[a-z]+/[a-z]+\??|=[A-Z_]+)?(, [a-z_]+(=[a-z]+/[a-z]+\??|=[A-Z_]+)?)*",
    "told": r"[a-z]+(_[a-z]+)*",
    "words or -": r"[a-z]+( [a-z]+)*|-",
    "list or -": r"[a-z][a-z-]*(, [a-z][a-z-]*)*|-",
    "sentence": r"[^\s.].*[^\s.]",
    "sentence or -": r"[^\s.].*[^\s.]|-",
    "lines": r"[a-z]+( [a-z]+)*(, [a-z]+( [a-z]+)*)*",
    "sentences": r"[A-Z].*\.",
    "words": r"[a-z]+( [a-z]+)*",
    "owner": r"table|saved|replica",
    "errno or -": r"E[A-Z]+|-",
    "place": r"1|K|-",
    "part": r"form|table|none",
    "kind": r"reply|which|use|whom|tree|what|outcome",
    "word or -": r"[a-z][a-z0-9-]*|-",
    "type": r"number|long|size",
    "header": r"interface|saved|packages|replica",
    "constant or -": r"[a-z_]+/src/[a-z_]+\.rt [A-Z_]+|-",
    "functions": r"[a-z_]+(, [a-z_]+)*",
    "functions or -": r"[a-z_]+(, [a-z_]+)*|-",
    "statuses or -": r"[A-Z_]+(, [A-Z_]+)*|-",
    "release": r"\d+\.\d+\.\d+",
    "method or -": r"[A-Z]\w*((\.|::)\w+)?|-",
    "list": r"[a-z][a-z0-9-]*( \([^()]+\))?(, [a-z][a-z0-9-]*( \([^()]+\))?)*",
    "form": r"list|text",
    "letters or -": r"[A-Z]+|1|-",
    "field type": r"numbers|number|id|count|root|limit|state|mark|apart|name|first|version|digest",
}

# The columns of each table with the kinds of their cells.
COLUMNS = {
    "errnos": {"name": "capitals", "value": "number", "python": "name or -"},
    "refusals": {"number": "number", "error": "capitals", "word": "word", "id": "letter or -", "sentence": "sentence"},
    "statuses": {"name": "capitals", "error": "errno or -", "of": "owner", "sentence": "sentence", "when": "sentence or -"},
    "faults": {
        "number": "number", "name": "capitals", "rust": "name", "words": "words", "line": "place", "of": "part", "sentence": "sentence", "page": "sentence or -",
    },
    "kinds": {"of": "kind", "number": "number", "name": "capitals", "model": "name", "word": "word or -", "tells": "sentence"},
    "bounds": {"name": "capitals", "value": "number", "type": "type", "of": "header", "source": "constant or -", "sentence": "sentence"},
    "functions": {
        "functions": "functions", "since": "release", "python": "method or -", "rust": "method or -", "go": "method or -",
        "javascript": "method or -", "statuses": "statuses or -", "sentence": "sentence",
    },
    "questions": {
        "question": "question", "exports": "question", "since": "release", "arguments": "question arguments", "tells": "told", "of": "words or -", "refusals": "list or -",
        "statuses": "statuses or -", "sentence": "sentence", "says": "sentences",
    },
    "lines": {"calls": "lines", "asks": "sentence", "answer": "sentence", "manual": "sentences"},
    "results": {"status": "capitals", "functions": "functions or -", "sentence": "sentences"},
    "list": {
        "of": "form", "line": "word", "field": "word", "letter": "letters or -", "type": "field type", "none": "sentence or -", "since": "release", "sentence": "sentence",
    },
    "calls": {
        "number": "number", "call": "word", "model": "name", "query": "yes or no", "memory": "yes or no", "makes": "made", "arguments": "arguments",
        "tells": "statuses or -", "takes": "sentence", "refusals": "list", "page": "sentence or -", "sentence": "sentence",
    },
}  # fmt: skip

# The columns in which no cell comes twice, and those whose numbers go up by one.
UNIQUE = {
    "errnos": ("name", "value"), "refusals": ("number", "word"), "calls": ("number", "call", "model"), "statuses": ("name", "error", "sentence"),
    "faults": ("number", "name", "rust", "words"), "kinds": ("name",), "bounds": ("name", "sentence"),
    "functions": ("functions", "sentence"), "questions": ("question", "sentence", "says"), "lines": ("calls", "asks", "manual"), "results": ("sentence",), "list": (),
}  # fmt: skip
FIRST = {"refusals": 1, "calls": 0, "faults": 1, "kinds": 0}

# A column whose cells stand in a column of another table.
KNOWN = {("refusals", "error"): ("errnos", "name"), ("calls", "refusals"): ("refusals", "word"), ("statuses", "error"): ("errnos", "name"),
         ("calls", "tells"): ("kinds", "name"), ("results", "status"): ("statuses", "name"), ("functions", "statuses"): ("statuses", "name"),
         ("questions", "refusals"): ("refusals", "word"), ("questions", "statuses"): ("statuses", "name")}  # fmt: skip


class TableFault(Exception):
    """What is wrong with a table, as a sentence with its file and its line."""


class Row:
    """A row: the line of the file where it stands, and its cells by their columns."""

    def __init__(self, at, cells):
        self.at = at
        self.__dict__.update(cells)

    def cell(self, column):
        """The cell of a column."""
        return self.__dict__[column]


class Table:
    """A table: its rows in their order."""

    def __init__(self, name, rows):
        self.name = name
        self.rows = rows

    def fault(self, line, words):
        """A fault of the line."""
        return TableFault(f"interface/{self.name}.tbl:{line}: {words}")


def split_cells(line):
    """The cells of a line."""
    return [cell.strip() for cell in line.split("|")]


def words_of(cell):
    """The words of a list, without their notes."""
    return re.sub(r" \([^()]*\)", "", cell).split(", ")


def read_row(table, line, cells):
    """A row, whose cells are of their kinds."""
    columns = COLUMNS[table.name]
    if len(cells) != len(columns):
        raise table.fault(line, f"{len(cells)} cells, and there are {len(columns)} columns")
    for (column, kind), cell in zip(columns.items(), cells):
        if not re.fullmatch(KINDS[kind], cell):
            raise table.fault(line, f"{column} {cell!r} is no {kind}")
    return Row(line, {column: int(cell) if kind == "number" else cell for (column, kind), cell in zip(columns.items(), cells)})


def read_table(folder, name):
    """A table, each row for itself."""
    table = Table(name, [])
    text = (folder / f"{name}.tbl").read_text(encoding="utf-8")
    lines = [(number, split_cells(line)) for number, line in enumerate(text.splitlines(), 1) if line and not line.startswith("#")]
    head, rows = lines[:1], lines[1:]
    wanted = list(COLUMNS[name])
    if [cells for _, cells in head] != [wanted]:
        raise table.fault(head[0][0] if head else 1, f"the columns are not {' | '.join(wanted)}")
    table.rows = [read_row(table, number, cells) for number, cells in rows]
    return table


def check_unique(table):
    """No cell comes twice in a column that has each once."""
    for column in UNIQUE[table.name]:
        seen = {}
        for row in table.rows:
            first = seen.setdefault(row.cell(column), row.at)
            if first != row.at:
                raise table.fault(row.at, f"{column} {row.cell(column)} stands in line {first} already")


def check_numbers(table):
    """The numbers go up by one, in the kinds of each."""
    following = {}
    for row in table.rows:
        group = row.cell("of") if table.name == "kinds" else ""
        wanted = following.get(group, FIRST[table.name])
        following[group] = wanted + 1
        if row.number != wanted:
            raise table.fault(row.at, f"the number is {row.number}, and {wanted} comes next")


def check_known(tables, name, column):
    """Each cell of the column, or each word of its list, stands in the other table."""
    other, there = KNOWN[name, column]
    known = {row.cell(there) for row in tables[other].rows}
    for row in tables[name].rows:
        for word in words_of(row.cell(column)):
            if word not in known | {"-"}:
                raise tables[name].fault(row.at, f"{column} {word!r} is not in interface/{other}.tbl")


def read_tables(folder):
    """All tables, by their names. Raises TableFault for the first fault."""
    tables = {name: read_table(folder, name) for name in COLUMNS}
    for table in tables.values():
        check_unique(table)
        if table.name in FIRST:
            check_numbers(table)
    for name, column in KNOWN:
        check_known(tables, name, column)
    return {name: table.rows for name, table in tables.items()}
