"""The table of worked rows, and where each runs."""

import os
import re

from documents import SPAN
from sources import read

PATH = "docs/SPEC-ROWS.md"


def homes_in(cell):
    """The files of a cell, each with the functions and texts that are named after it."""
    found = []
    for part in re.split(r";(?=(?:[^`]*`[^`]*`)*[^`]*$)", cell):
        spans = [it[2] for it in SPAN.finditer(part)]
        if spans:
            found.append((spans[0], spans[1:]))
    return found


def lost(top, path, texts):
    """What is gone of a file and of the functions and texts that stand in it, or nothing."""
    if not os.path.isfile(f"{top}/{path}"):
        return f"{path} is gone"
    for part in texts:
        text = read(f"{top}/{path}")
        is_there = re.search(rf"(?:\bfn |^){part}\(", text, re.M) if re.fullmatch(r"\w+", part) else part in text
        if not is_there:
            return f"{path} lacks {part}"
    return None


def checks(top, document):
    """Of each row with a column for where it runs, the number of its line, whether it runs, and what is gone; and whether there are as many as
    the document says."""
    rows = [(number, cells) for number, head, cells in document.rows() if head[-1] == "where it runs"]
    for number, cells in rows:
        homes = homes_in(cells[-1]) if len(cells) == 2 else []
        gone = [it for it in (lost(top, *home) for home in homes) if it]
        yield number, homes and not gone, f"the row '{cells[0]}' doesn't run: {', '.join(gone) or 'it names no file'}"
    said = re.search(r"There are (\d+) rows\.", document.text)
    yield 1, said and int(said[1]) == len(rows), f"there are {len(rows)} rows, and not as many as it says"
