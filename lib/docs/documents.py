"""Documents in Markdown as the check reads them: text in backticks, code, tables, headings and links."""

import bisect
import functools
import os
import re

SPAN = re.compile(r"(?<!`)(`+)(?!`)(.+?)(?<!`)\1(?!`)", re.S)
BAR = re.compile(r"\|(?=(?:[^`]*`[^`]*`)*[^`]*$)")


class Document:
    """A document, by its path from the top of the repository."""

    def __init__(self, path, text):
        self.path, self.text = path, text
        self.folder = os.path.dirname(path)
        self.lines = text.splitlines()
        self.ends = [it.start() for it in re.finditer("\n", text)]

    def line_of(self, place):
        """The number of the line at a place in the text."""
        return bisect.bisect_left(self.ends, place) + 1

    def found(self, pattern):
        """What a pattern finds, each after the number of its line."""
        return [(self.line_of(it.start()), it) for it in re.finditer(pattern, self.text)]

    @functools.lru_cache(maxsize=None)
    def spans(self):
        """Each text in backticks, after the number of its line. None goes past the end of its paragraph."""
        spans, place = [], 0
        for paragraph in re.split(r"(\n[ \t]*\n)", self.text):
            spans += [(self.line_of(place + it.start()), it[2]) for it in SPAN.finditer(paragraph)]
            place += len(paragraph)
        return spans

    def code(self):
        """Each indented line, after its number: code, but for the lines of lists in lists."""
        return [(number, line[4:]) for number, line in enumerate(self.lines, 1) if re.match(r" {4}(?! *- )", line)]

    @functools.lru_cache(maxsize=None)
    def rows(self):
        """Each row of a table: its number, the cells at the head of its table, and its own cells."""
        rows, head = [], None
        for number, line in enumerate(self.lines, 1):
            if not line.startswith("|"):
                head = None
                continue
            cells = [cell.strip() for cell in BAR.split(line)[1:-1]]
            if head is None:
                head = cells
            elif not set(line) <= set("|-: "):
                rows.append((number, head, cells))
        return rows

    def own_spans(self):
        """Each text in backticks but for those of columns of tables that are about other caches."""
        rows = self.rows()
        of_tables = {number for number, _, _ in rows}
        own = [(number, cell) for number, head, cells in rows for title, cell in zip(head, cells) if "ccache" not in title]
        return [it for it in self.spans() if it[0] not in of_tables] + [(number, it[2]) for number, cell in own for it in SPAN.finditer(cell)]

    def headings(self):
        """The text of each heading, without backticks."""
        return [line.lstrip("#").strip().replace("`", "") for line in self.lines if re.match(r"#+ ", line)]

    def has_heading(self, title):
        """Whether a heading has this text, perhaps with more after it in brackets."""
        return any(it == title or it.startswith(f"{title} (") for it in self.headings())

    def anchors(self):
        """The anchors of its headings, as they are made where the repository is shown in a browser."""
        return {re.sub(r"[^\w\- ]", "", heading.lower()).replace(" ", "-") for heading in self.headings()}

    def links(self):
        """Each link or picture: the number of its line, and where it leads."""
        return [(number, it[1]) for number, it in self.found(r"\]\(([^()\s]+)\)")]


def names_in(text):
    """The names in backticks in a text, each of which is one word."""
    return [it[2] for it in SPAN.finditer(text) if re.fullmatch(r"\w+", it[2])]
