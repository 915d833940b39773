"""Where a source's functions are, and what they are called on the command line of `rt check --only`."""

import re
from pathlib import Path

FUNCTION = re.compile(r"\bfn\s+(\w+)")
CLAUSE = re.compile(r"\b(ensures|requires)\b[^{}]*$")
IMPL = re.compile(r"^(?:unsafe )?impl\b", re.M)
# What braces and slashes don't count in, and the braces.
TOKEN = re.compile(
    r"""//[^\n]*|"(?:\\.|[^"\\])*"|\bb?r(?P<marks>#*)".*?"(?P=marks)|'(?:\\u\{\w+\}|\\x\w\w|\\.|[^'\\\n])'|[{}]""",
    re.S,
)


def group_end(text, at):
    """Where the group of braces that begins there ends."""
    depth = 0
    for found in TOKEN.finditer(text, at):
        depth += {"{": 1, "}": -1}.get(found[0], 0)
        if not depth:
            return found.end()
    return len(text)


def blanked(text):
    """A source with blanks in place of its comments."""
    return TOKEN.sub(lambda found: " " * len(found[0]) if found[0].startswith("//") else found[0], text)


def functions(text):
    """Of the functions of a source that aren't part of another: the name, where the function begins, where its head ends, and where it ends.
    The source has no comments."""
    last = 0
    for found in FUNCTION.finditer(text):
        if found.start() < last:
            continue
        begin = end = found.end()
        brackets = 0
        while end < len(text) and (text[end] != ";" or brackets):
            # (an array's type has a semicolon)
            brackets += (text[end] == "[") - (text[end] == "]")
            if text[end] == "{":
                close = group_end(text, end)
                if not CLAUSE.search(text[begin:end]):
                    break
                begin = end = close
                continue
            end += 1
        last = group_end(text, end) if text[end : end + 1] == "{" else end
        yield found[1], found.start(), end, last


def without_brackets(text):
    """A text without what is in angle brackets."""
    while True:
        less = re.sub(r"<[^<>]*>", "", text.replace("->", ""))
        if less == text:
            return text
        text = less


def after_parameters(head):
    """The names of an impl's own parameters, and its head after them."""
    depth = 0
    for at, byte in enumerate(head.replace("->", "  ")):
        depth += {"<": 1, ">": -1}.get(byte, 0)
        if not depth:
            return (re.findall(r"(?:^|,)\s*(\w+)", without_brackets(head[1:at])), head[at + 1 :]) if byte == ">" else ([], head)
    return [], head


def joined(type, parameters):
    """A type's name and those of its arguments that are no parameters, in one, each without its path."""
    words = [word.rpartition("::")[2] for word in re.findall(r"[\w:]+", type)]
    return "".join(word for word in words if word not in parameters)


def owner(text, at):
    """The type to which a function there belongs, and its trait with its arguments, which is empty where it's no trait's; empty texts of one
    on its own."""
    for found in IMPL.finditer(text):
        begin = text.find("{", found.end())
        if begin < at < group_end(text, begin):
            parameters, head = after_parameters(text[found.end() : begin].partition(" where ")[0])
            trait, _, name = head.rpartition(" for ")
            return without_brackets(name).strip().rpartition("::")[2], joined(trait, parameters)
    return "", ""


def module(path):
    """The module that a file of src/ is; an empty text of the root."""
    parts = path.removeprefix("src/").removesuffix(".rt").split("/")
    parts = parts[:-1] if parts[-1] in ("lib", "main", "mod") else parts
    return "::".join(parts)


def home(folder, path, type):
    """The file of a crate that declares that type; the file itself where none does."""
    for file in sorted(Path(folder, "src").rglob("*.rt")):
        if re.search(rf"\b(?:struct|enum|union)\s+{type}\b", blanked(file.read_text(encoding="utf-8"))):
            return str(file.relative_to(folder))
    return path


def holder(folder, path, text, begin, end):
    """The function of a crate's file that holds this part of it, as `--only` takes it: a type's own by where the type is declared, a trait's by
    where it is, with both names in one; the module where there is none, or its type has no plain name."""
    text = blanked(text)
    for name, start, _, last in functions(text):
        if start < end and begin < last:
            type, trait = owner(text, start)
            if not type:
                return "::".join(filter(None, [module(path), name]))
            if type.isidentifier():
                place = path if trait else home(folder, path, type)
                return "::".join(filter(None, [module(place), "".join(word[:1].upper() + word[1:] for word in (type, trait)), name]))
    return module(path)
