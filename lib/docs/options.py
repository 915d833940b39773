"""The options of the C compilers, as the tables of the code have them, as docs/FORMATS.md has them, and in command lines that are tried."""

import re

from pictures import TOP

PATH = "docs/FORMATS.md"
HEADING = "## The options of the compilers"
FOLDER = TOP / "crates/cmdlines_tables/src"
CASES = TOP / "crates/sccache_wrap/cases/reports"
# The tables of each part of the section, by the line above it, with the characters before a flag that it doesn't show.
PARTS = {
    "Gcc and Clang:": (("tables.rt", "gnu_table", ""),),
    "Clang alone:": (("tables.rt", "clang_table", ""),),
    "Msvc, each flag once after `-` and once after `/`:": (("msvc_table.rt", "msvc_dash_table", "-"), ("msvc_table.rt", "msvc_slash_table", "/")),
    "Diab:": (("embedded_tables.rt", "diab_table", ""),),
    "TaskingVX:": (("embedded_tables.rt", "tasking_vx_table", ""),),
}
# The compiler to whose command lines the flags of a table are given, by the end of their files' names.
TRIED_BY = {
    "gnu_table": "gcc", "clang_table": "clang", "msvc_dash_table": "msvc", "msvc_slash_table": "msvc", "diab_table": "diab",
    "tasking_vx_table": "taskingvx",
}
# How a value is taken, in the words of the document.
VALUES = {
    "Separated": "apart",
    "CanBeSeparated(None)": "either",
    "CanBeSeparated(Some(b'='))": "either, `=`",
    "Concatenated(None)": "joined",
    "Concatenated(Some(b'='))": "joined, `=`",
    "Concatenated(Some(b','))": "joined, `,`",
}
# Where an option goes, in the words of the document, with the kinds that go there.
GOES_TO = {
    "too hard": "TooHard",
    "compile": "DoCompilation",
    "output": "Output",
    "output, or too hard where the value ends with `/` or `\\`": "Output",
    "language": "Language LanguageC LanguageCxx",
    "input and its language": "InputC InputCxx",
    "architectures": "Arch",
    "preprocessor": "PreprocessorArgument PreprocessorTooHard",
    "dependencies": "NeedDepTarget DepFlag DepArgumentPath DepTarget",
    "hashed": "PassThrough",
    "hashed, and the file's content": "ExtraHashFile",
    "hashed, or too hard by the value": "XClang",
    "hashed, colours by the value": "DiagnosticsColor",
    "hashed, colours": "DiagnosticsColorFlag",
    "hashed, no colours": "NoDiagnosticsColorFlag",
    "no colours": "NoDiagnosticsColorFlag",
    "not hashed, and the output `dia`": "SerializeDiagnostics",
}
ENTRY = re.compile(r'ArgInfo::(?:Flag|TakeArg)\(\s*"([^"]*)",\s*ArgKind::(\w+)(?:,\s*(\w+))?,?\s*\)')
APART = re.compile(r"; (?=(?:[^`]*`[^`]*`)*[^`]*$)")


def of_code(file, function, front):
    """The options of a table of the code: each flag with its kind and how it takes a value."""
    text = (FOLDER / file).read_text(encoding="utf-8")
    body = re.search(rf"^pub fn {function}\(.*?^\}}$", text, re.S | re.M)[0]
    values = {name: VALUES[value] for name, value in re.findall(r"let (\w+) = ArgDisposition::(.*);", body)}
    return {flag.removeprefix(front): (kind, values[value] if value else "none") for flag, kind, value in ENTRY.findall(body)}


def of_rows(rows):
    """What rows of the document say: each flag, where it goes, and how it takes a value, after the number of its line."""
    goes_to = ""
    for number, _, (place, value, flags) in rows:
        goes_to = place or goes_to
        groups = APART.split(flags)
        places, values = (it if len(it) > 1 else it * len(groups) for it in (APART.split(goes_to), APART.split(value)))
        for group, one_place, one_value in zip(groups, places, values):
            # What comes after a colon says more of the flag before it.
            for flag in re.findall(r"`([^`]*)`", re.split(r"(?<=`): ", group)[0]):
                yield number, flag, one_place, one_value


def parts(document):
    """The rows of each part of the section, by the line above its table."""
    lines = document.lines
    start = lines.index(HEADING)
    end = next((number for number in range(start + 1, len(lines)) if lines[number].startswith("## ")), len(lines))
    for title in PARTS:
        above = lines.index(title, start, end) + 1
        below = next(number for number in range(above + 1, end + 1) if number == end or lines[number] == "" and number > above + 1)
        yield title, [row for row in document.rows() if above < row[0] <= below]


def differences(document):
    """How many flags the document has as the code has them, and where it differs: a line's number and what is to be said."""
    right, wrong = 0, []
    for title, rows in parts(document):
        for file, function, front in PARTS[title]:
            options, listed = of_code(file, function, front), set()
            for number, flag, place, value in of_rows(rows):
                listed.add(flag)
                kind, taken = options.get(flag, ("", ""))
                if kind in GOES_TO.get(place, "").split() and kind and value == taken:
                    right += 1
                else:
                    wrong.append((number, f"{flag} isn't so in {function} of {file}: {place}, {value}"))
            wrong += [(document.lines.index(HEADING) + 1, f"lacks {flag} of {function} of {file}") for flag in sorted(set(options) - listed)]
    return right, wrong


def is_of(flag, value, word):
    """Whether a word is that flag, perhaps with a value in the same word."""
    return word == flag or value not in ("none", "apart") and word.startswith(flag)


def untried():
    """The flags of each table that no command line to its compiler has: a table's file, its name and the flag."""
    tables = [table for those in PARTS.values() for table in those]
    for file, function, _ in tables:
        options = of_code(file, function, "")
        lines = [place.read_text(encoding="utf-8", errors="replace") for place in sorted(CASES.glob(f"*/*.{TRIED_BY[function]}"))]
        seen = set()
        for word in set(" ".join(lines).split()):
            fitting = [flag for flag, (_, value) in options.items() if is_of(flag, value, word)]
            seen.update(sorted(fitting, key=len)[-1:])
        for flag in options:
            if flag not in seen:
                yield file, function, flag
