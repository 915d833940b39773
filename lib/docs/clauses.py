"""Writes docs/CLAUSES.md from the sources: crate by crate the public functions, with what each is for and the labels of its clauses; and the table
of faults in docs/FORMATS.md. bin/clauses has what it is for."""

import re
import sys
import textwrap
from pathlib import Path

sys.dont_write_bytecode = True

from faults import PATH as FORMATS, with_faults  # noqa: E402
from pictures import TOP, floors  # noqa: E402

PATH = "docs/CLAUSES.md"
HEAD = """# Clauses

Each public function that has a contract, crate by crate, from the lowest floor to the highest.
`bin/clauses` makes this file from the sources, and `bin/check-docs` fails where it is stale. The
text is the first sentence of each comment; that of a crate is at the head of its `lib.rt`.
Under "clauses" are the labels of a function's `ensures`; of one without a label the first
definition that it names, or `value`. What is said of a trait's functions holds for every type that
implements it. A law is a function without arguments and result, which is there to be cited.
[EMBED](EMBED.md#how-to-read-a-contract) says how to read a contract, and [MODEL](MODEL.md) has the
definitions.
"""
LAST_FLOOR = "Tests and figures"
BLOCK = re.compile(r"(pub trait|trait|impl)\b(.*)")
FUNCTION = re.compile(r"(pub )?(?:const )?fn (\w+)")
IMPORTED = re.compile(r"^ghost use Rattle\.(\w+)\.specs\.([\w.]*?)\.?\{([^}]*)\};", re.M)
NESTED = r"[^()]*(?:\([^()]*(?:\([^()]*\)[^()]*)*\)[^()]*)*"
BINDER = re.compile(rf"\((?:\w+ )+: {NESTED}\)")
CLAUSE = re.compile(r"^\s*ensures\*?(?: (\w+))? \{", re.M)


class Function:
    """A function with clauses: its owner where it is a method, its name, the first sentence about it, its labels, and whether it is a law."""

    def __init__(self, owner, name, text, labels, is_law):
        self.owner, self.name, self.text, self.labels, self.is_law = owner, name, text, labels, is_law

    def title(self):
        """The name by which it is called."""
        return f"{self.owner}::{self.name}" if self.owner else self.name


def read(path):
    return path.read_text(encoding="utf-8")


def first_sentence(lines):
    """The first sentence of a comment, without its full stop."""
    text = []
    for line in lines:
        if not line:
            break
        text.append(line)
    found = re.match(r"(.*?)\.(?= [A-Z`]| ?$)", " ".join(text))
    return (found[1] if found else " ".join(text)).strip().rstrip(".")


def head_comment(crate):
    """The first sentence of the comment at the head of a crate."""
    places = [TOP / "crates" / crate / "src" / name for name in ("lib.rt", "main.rt")]
    lines = read(next(it for it in places if it.is_file())).splitlines()
    comment = []
    for line in lines:
        if not line.startswith("//!"):
            break
        comment.append(line[3:].strip())
    return first_sentence(comment)


def balanced(text, at):
    """Where the brace at a place is closed."""
    depth = 0
    for place in range(at, len(text)):
        depth += {"{": 1, "}": -1}.get(text[place], 0)
        if not depth:
            return place
    return len(text)


def definitions(text):
    """The names of definitions that a source takes from the specs of crates, but for those of its types."""
    names = set()
    for crate, module, found in IMPORTED.findall(text):
        if crate != "std" and "declared" not in module:
            names.update(re.findall(r"\w+", found))
    return names


def labels_of(head, names):
    """The labels of the clauses between a function's head and its body, each once."""
    labels = []
    for it in CLAUSE.finditer(head):
        label = it[1]
        if label is None:
            clause = BINDER.sub("", head[it.end():balanced(head, it.end() - 1)])
            label = next((word for word in re.findall(r"\w+", clause) if word in names), "value")
        if label not in labels:
            labels.append(label)
    return labels


def owner_of(head):
    """What an impl is of: the name of its trait or none, and that of its type."""
    head = re.sub(r"^\s*(?:<(?:[^<>]|<(?:[^<>]|<[^<>]*>)*>)*>)?\s*", "", head)
    head = head.partition(" where ")[0]
    trait, of, owner = head.partition(" for ")
    if not of:
        trait, owner = "", head
    names = re.findall(r"\w+", owner.partition("<")[0])
    return trait.strip(), owner.strip(" {") if owner.startswith(("(", "[", "&")) else names[-1] if names else owner.strip(" {")


def exports(crate):
    """The names of public modules and of their types, and of what a crate's head hands on."""
    names, texts = set(), {path.stem: read(path) for path in (TOP / "crates" / crate / "src").glob("**/*.rt")}
    for text in texts.values():
        names.update(re.findall(r"^pub mod (\w+)", text, re.M))
        for found in re.findall(r"^pub use ([^;]*);", text, re.M):
            names.update(re.findall(r"\w+", found.rpartition("::")[2]))
    for module in names & texts.keys():
        names.update(re.findall(r"^pub (?:struct|enum) (\w+)", texts[module], re.M))
    return names


def head_of(lines, at, indent):
    """The lines of a function from its name up to its body, or to its end where it has none."""
    found = []
    for line in lines[at:]:
        if found and (line.rstrip() in (f"{indent}{{", f"{indent}{{}}")):
            break
        found.append(line)
        clauses = "\n".join(found)
        if line.endswith(";") and clauses.count("{") == clauses.count("}"):
            break
        if not CLAUSE.search(clauses) and "requires" not in clauses and line.endswith((" {", "{}")):
            break
    return "\n".join(found)


class Source:
    """A source of a crate, of which the public functions are found line by line."""

    def __init__(self, path, exported):
        self.text = read(path)
        self.lines = self.text.splitlines()
        self.names = definitions(self.text)
        self.exported, self.is_open = exported, path.stem in exported or path.stem == "lib"

    def functions(self):
        """The public functions that have clauses."""
        found, comment, block = [], [], ("", "", False)
        for at, line in enumerate(self.lines):
            indent = line[:len(line) - len(line.lstrip())]
            code = line.strip()
            if code.startswith("///"):
                comment.append(code[3:].strip())
                continue
            if not indent and BLOCK.match(line):
                block = self.block(at)
            function = FUNCTION.match(code)
            if function and indent == ("    " if block[1] else ""):
                found += self.function(at, indent, function, block, comment)
            if line == "}":
                block = ("", "", False)
            if not code or code.endswith((";", "{", "}")):
                comment = []
        return found

    def block(self, at):
        """What a block of functions is of: its trait or none, its owner, and whether that is public."""
        head = " ".join(line.strip() for line in self.lines[at:at + 8])
        kind = BLOCK.match(head)
        head = kind[2].partition("{")[0]
        if kind[1] == "impl":
            trait, owner = owner_of(head)
            return trait, owner, self.is_open or owner in self.exported
        name = re.search(r"\w+", head)[0]
        return name, name, kind[1] == "pub trait" and (self.is_open or name in self.exported)

    def function(self, at, indent, function, block, comment):
        """The function at a line, where it is public and has clauses."""
        trait, owner, is_open = block
        name = function[2]
        head = head_of(self.lines, at, indent)
        labels = labels_of(head, self.names)
        if owner:
            is_shown = is_open and bool(trait or function[1])
            is_labelled = trait in ("", owner) or re.search(r"^\s*ensures\*? \w+ \{", head, re.M)
            is_shown = is_shown and is_labelled
        else:
            is_shown = function[1] and (self.is_open or name in self.exported)
        if not is_shown or not labels:
            return []
        is_law = not owner and not re.search(r"->|\(\s*\w", head.partition("ensures")[0])
        text = first_sentence(comment)
        if not text and trait not in ("", owner):
            text = f"As `{re.match(r'[A-Za-z]+', trait)[0]}` says"
        return [Function(owner, name, text, labels, is_law)]


def functions_of(crate):
    """All functions of a crate, source by source."""
    exported = exports(crate)
    return [function for path in sorted((TOP / "crates" / crate / "src").glob("**/*.rt")) for function in Source(path, exported).functions()]


def row(*cells):
    """A row of a table."""
    return f"| {' | '.join(cell.replace('|', chr(92) + '|') for cell in cells)} |"


def table(titles, functions):
    """A table of functions, with a row for each."""
    rows = [row(f"`{it.title()}`", it.text, ", ".join(f"`{label}`" for label in it.labels)) for it in functions]
    return [row(*titles), row(*["---"] * len(titles)).replace(" ", ""), *rows, ""]


def crate_part(crate):
    """What is written of a crate."""
    functions = functions_of(crate)
    lines = [f"### {crate}", "", *textwrap.wrap(f"{head_comment(crate)}.", 100), ""]
    for titles, is_law in ((("function", "what it is for", "clauses"), False), (("law", "what it says", "clauses"), True)):
        those = [it for it in functions if it.is_law == is_law]
        if those:
            lines += table(titles, those)
    return lines


def clauses():
    """The whole document."""
    lines = [HEAD]
    for head, crates in floors():
        if head != LAST_FLOOR:
            lines += [f"## {head}", ""]
            for crate in crates:
                lines += crate_part(crate)
    return "\n".join(lines).rstrip("\n") + "\n"


def main():
    """Writes both documents, or with --check says which isn't as it would be written."""
    stale = 0
    for path, text in ((PATH, clauses()), (FORMATS, with_faults(read(TOP / FORMATS)))):
        place = TOP / path
        if "--check" not in sys.argv[1:]:
            place.write_text(text, encoding="utf-8")
        elif not place.is_file() or read(place) != text:
            print(f"{path} isn't what bin/clauses writes")
            stale = 1
    return stale


if __name__ == "__main__":
    sys.exit(main())
