"""The table of faults in docs/FORMATS.md, from the sources: how each is printed, and what it means. bin/clauses writes it."""

import re

from pictures import TOP

FAULTS = "crates/ckeys_records/src/fault.rt"
PATH = "docs/FORMATS.md"
HEAD = "| fault | meaning |\n|---|---|\n"
TABLE = re.compile(re.escape(HEAD) + r"(?:\|[^\n]*\n)*")
# What a fault holds, by the type of it.
HELD = {"OsBytes": "NAME", "Step": "STEP", "i32": "STATUS"}
CASE = re.compile(r'((?:^    /// [^\n]*\n)+)    #\[error\("([^"]*)"\)\]\n    (\w+)(?:\((\w+)\))?,\n', re.M)


def faults():
    """The rows of the table, in the order of the sources. Each case of the enum has a comment and a text."""
    text = (TOP / FAULTS).read_text(encoding="utf-8")
    body = re.search(r"pub enum Fault \{\n(.*?)\n\}\n", text, re.S)[1] + "\n"
    cases = CASE.findall(body)
    named = re.findall(r"^    (\w+)(?:\(.*\))?,$", body, re.M)
    if named != [name for _, _, name, _ in cases]:
        raise SystemExit(f"{FAULTS}: a case of Fault lacks a comment or a text, or holds more than one value")
    rows = []
    for comment, printed, _, held in cases:
        meaning = " ".join(re.findall(r"/// (.*)", comment)).replace("|", "\\|")
        rows.append(f"| `{printed.replace('{0}', HELD.get(held, held.upper()))}` | {meaning} |\n")
    return HEAD + "".join(rows)


def with_faults(text):
    """That text of docs/FORMATS.md with the table as the sources have it."""
    table = faults()
    return TABLE.sub(lambda _: table, text, count=1)
