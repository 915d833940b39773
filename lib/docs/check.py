#!/usr/bin/env python3
"""check.py: whether the documents name what is there, and name all that they have to. Prints each place where they don't. The last line is
'N passed, M failed'."""

import fnmatch
import glob
import os
import re
import sys

sys.dont_write_bytecode = True

from clauses import LAST_FLOOR, PATH as CLAUSES, clauses  # noqa: E402
from documents import Document, names_in  # noqa: E402
from faults import PATH as FORMATS, faults  # noqa: E402
from options import differences, untried  # noqa: E402
from pictures import PICTURES, floors  # noqa: E402
from sources import Sources, read  # noqa: E402
from worked import PATH as ROWS, checks as worked_rows  # noqa: E402

TOP = os.path.dirname(os.path.dirname(os.path.dirname(os.path.realpath(__file__))))
MANUAL = "share/gulmaat.1"
COMPLETIONS = ("share/gulmaat.bash", "share/gulmaat.fish", "share/_gulmaat")
# Where the kinds of C compilers are, and what lists them all.
KINDS = "crates/cmdlines_tables/src/compiler.rt"
LISTS_OF_COMPILERS = ("README.md", "docs/FORMATS.md", "crates/cmdlines/src/lib.rt", "crates/wrap/src/lib.rt")
# What may be a path where it is a word in backticks, and what is one anywhere in a text.
PATH = re.compile(r"[\w.~@+*/-]*(?:/[\w.~@+*/-]*|\.(?:md|rt|antt|edit|py|bash|c|h|js|css|json|out|txt|fish|png))")
TOP_PATH = re.compile(r"(?<![\w./~@*-])(?:\.\./gulmaat/)?((?:bench|bin|crates|docs|examples|host|lib|share)/[\w./*-]*|[A-Z]+\.md|crates\.txt)")
COMMAND = re.compile(r"(?:^|[\s(;|])(?:\.\./gulmaat/)?(bin/[a-z-]+|gulmaat|\"\$launcher\")(?= |$)([^\n]*)")
OPTION = r"(?<![\w-])--?[a-zA-Z][\w-]*"
# Names of several words: those with a line below, and those with a capital within.
NAME = re.compile(r"\b(?:[A-Za-z]+\w*_\w*[A-Za-z0-9]|[A-Z][a-z]\w*[A-Z]\w*)\b")


class Exceptions:
    """Names that aren't of this repository: patterns of the shell of each kind, in lib/docs/exceptions."""

    def __init__(self):
        rows = [line.split("\t") for line in read(f"{TOP}/lib/docs/exceptions").splitlines() if line and line[0] != "#"]
        self.patterns = [(kind, pattern) for kind, pattern, _ in rows]
        self.used = set()

    def has(self, kind, name):
        """Whether a name is one."""
        found = [row for row in self.patterns if row[0] == kind and fnmatch.fnmatchcase(name, row[1])]
        self.used.update(found)
        return bool(found)


class Check:
    """Counts what is right, and prints what isn't."""

    def __init__(self):
        self.passed = self.failed = 0
        self.exceptions, self.sources = Exceptions(), Sources(TOP)
        paths = [*sorted(glob.glob("*.md", root_dir=TOP)), *sorted(glob.glob("docs/*.md", root_dir=TOP))]
        paths += ["bench/README.md", "examples/README.md"]
        # What its rows name is no name of ours, but for where they run.
        paths.remove(ROWS)
        self.rows = Document(ROWS, read(f"{TOP}/{ROWS}"))
        self.documents = {path: Document(path, read(f"{TOP}/{path}")) for path in paths}
        self.settings = self.sources.settings()
        # Without the formatting.
        self.manual = Document(MANUAL, re.sub(r"\\f[A-Z]|\\&", "", read(f"{TOP}/{MANUAL}").replace("\\-", "-")))

    def is_so(self, is_right, place, what):
        """Notes whether something is right."""
        if is_right:
            self.passed += 1
        else:
            self.failed += 1
            print(f"{place}: {what}")

    def is_known(self, is_right, kind, name, place):
        """Notes whether a name is known, or an exception."""
        self.is_so(self.exceptions.has(kind, name) or is_right, place, f"no such {kind}: {name}")

    # ---- Files and folders.

    def paths(self):
        """Each path in backticks is there, and each one below a folder of the repository, wherever it is named."""
        for path, document in self.documents.items():
            words = [(line, word.strip("\"'()[],:;").removesuffix("..")) for line, span in document.spans() for word in span.split()]
            found = {(line, word.rstrip(".")) for line, word in words if PATH.fullmatch(word) and re.search(r"\w.*\W|/\w", word)}
            found |= {(line, it[1].rstrip(".")) for line, it in document.found(TOP_PATH)}
            for line, name in sorted(found):
                self.is_known(self.sources.has_path(name, document.folder), "path", name, f"{path}:{line}")

    def links(self):
        """Each link leads to a file that is there, and to a heading of it; so does each reference to a heading in quotes."""
        for path, document in self.documents.items():
            for line, link in document.links():
                if re.match(r"\w+:", link):
                    continue
                name, _, anchor = link.partition("#")
                place = os.path.normpath(os.path.join(document.folder, name)) if name else path
                is_there = os.path.exists(f"{TOP}/{place}")
                if is_there and anchor:
                    is_there = place.endswith(".md") and anchor in Document(place, read(f"{TOP}/{place}")).anchors()
                self.is_so(is_there, f"{path}:{line}", f"no such link: {link}")
            for line, it in document.found(r"\b((?:docs/)?[A-Z-]+\.md)(?:,\s+|\s+\()\"([^\"]+)\""):
                other = self.documents.get(it[1]) or self.documents.get(f"docs/{it[1]}")
                title = " ".join(it[2].split())
                self.is_so(other and other.has_heading(title), f"{path}:{line}", f"no such heading in {it[1]}: {title}")

    # ---- Commands.

    def commands(self):
        """Each command of bin/ and each call of gulmaat has the options and words that are shown."""
        for path, document in self.documents.items():
            for line, code in [*document.code(), *document.spans()]:
                for it in COMMAND.finditer(code):
                    words = re.split(r" {2,}|[#|<>;`)&]", it[2].strip())[0].replace("[", "").replace("]", "").split()
                    self.command(it[1], words, f"{path}:{line}")

    def command(self, name, words, place):
        """The words of one command."""
        if name.startswith("bin/"):
            self.is_known(os.path.exists(f"{TOP}/{name}"), "path", name, place)
        if name in ("bin/gulmaat", "gulmaat", '"$launcher"'):
            self.call(words, place)
            return
        text = self.sources.script_texts(name)
        for word in words:
            option = word.partition("=")[0]
            if re.fullmatch(r"--?[a-z][\w-]*", option):
                self.is_so(re.search(rf"(?<![\w-]){option}(?![\w-])", text), place, f"no such option of {name}: {option}")
            elif re.fullmatch(r"[a-z][\w-]*", word) and not name.startswith("bin/sccache-"):
                is_there = word in self.sources.crates or re.search(rf"(?<![\w-]){word}(?![\w-])", text)
                self.is_known(is_there, "word of a command", word, place)

    def call(self, words, place):
        """The options of a call of gulmaat, which come before a compiler's name."""
        words = list(words)
        while words and words[0].startswith("-"):
            option, _, value = words.pop(0).partition("=")
            self.is_so(option in self.sources.taken_options(), place, f"no such option of gulmaat: {option}")
            if option in ("-o", "--set-config") and (value or words):
                key = (value or words.pop(0)).strip("'\"").partition("=")[0]
                self.is_known(key in self.settings, "key", key, place)
            elif option in ("--page", "--trace", "--compare", "-d", "--dir", "-k", "--get-config", "-M", "--max-size") and words:
                words.pop(0)
            elif option in ("--audit", "--why"):
                return

    # ---- Names.

    def names(self):
        """Each name of several words in backticks is in the sources, and so is each long option. Columns about other caches are left out."""
        for path, document in self.documents.items():
            for line, span in document.own_spans():
                for name in NAME.findall(" ".join(word for word in span.split() if not PATH.fullmatch(word))):
                    self.is_known(name in self.sources.words, "name", name, f"{path}:{line}")
                for option in re.findall(r"(?<![\w-])--[a-z][\w-]*", span):
                    self.is_known(option in self.sources.options, "option", option, f"{path}:{line}")

    # ---- Settings and variables.

    def variables(self):
        """Each variable and key in the documents is one of the program's, and the other way round."""
        ours = {variable for variable, _ in self.settings.values()} | self.sources.host_variables()
        known = ours | self.sources.script_variables()
        for path, document in [*self.documents.items(), (MANUAL, self.manual)]:
            for line, it in document.found(r"(?<![A-Z_])GULMAAT_[A-Z_]*[A-Z]"):
                self.is_so(it[0] in known, f"{path}:{line}", f"no such variable: {it[0]}")
        for variable in sorted(ours):
            for path, text in (("docs/WRAPPER.md", self.documents["docs/WRAPPER.md"].text), (MANUAL, self.manual.text)):
                self.is_so(re.search(rf"{variable}(?![A-Z_])", text), path, f"lacks the variable {variable}")

    def keys(self):
        """Each key in the documents is one, and each is listed with its variable and its usual value."""
        for path, document in self.documents.items():
            rows = [(line, names_in(cells[0]), cells) for line, head, cells in document.rows() if head[0] == "key"]
            keys = {(line, name) for line, names, _ in rows for name in names}
            keys |= {(line, it[1]) for line, span in document.spans() if (it := re.match(r"([a-z_]+) ?= ?\S+$", span)) and "_" in it[1]}
            for line, key in sorted(keys):
                self.is_known(key in self.settings, "key", key, f"{path}:{line}")
            for line, names, cells in rows:
                for key in names:
                    if key in self.settings:
                        self.is_so(f"`{self.settings[key][0]}`" in cells[1], f"{path}:{line}", f"{key} has another variable")
        listed = self.keys_in("docs/WRAPPER.md")
        compared = self.keys_in("docs/FROM-CCACHE.md")
        manual = dict(re.findall(r'^\.BR (\w+) " \(" (\w+) \)', self.manual.text, re.M))
        for key, (variable, usual) in self.settings.items():
            cell = listed.get(key, ["", "", ""])[2]
            is_listed = key in listed and (cell == f"`{usual}`" if usual else "`" not in cell)
            self.is_so(is_listed, "docs/WRAPPER.md", f"{key} isn't listed, or its value where it isn't set isn't {usual or 'none'}")
            self.is_so(key in compared, "docs/FROM-CCACHE.md", f"lacks the key {key}")
            self.is_so(manual.get(key) == variable, MANUAL, f"lacks the key {key} with {variable}")
            for path in COMPLETIONS:
                self.is_so(re.search(rf"\b{key}\b", self.sources.text_of(path)), path, f"lacks the key {key}")
        self.is_so(set(manual) <= set(self.settings), MANUAL, f"no such key: {' '.join(set(manual) - set(self.settings))}")

    def keys_in(self, path):
        """The rows of a document's tables of keys, by the key."""
        return {names_in(cells[0])[0]: cells for _, head, cells in self.documents[path].rows() if head[0] == "key" and names_in(cells[0])}

    # ---- Options of gulmaat.

    def completed(self, path):
        """The options that a file of completions offers."""
        text = re.sub(r"^#.*", "", self.sources.text_of(path), flags=re.M)
        if path.endswith(".bash"):
            return set(re.findall(OPTION, " ".join(re.findall(r"-W \"(-[^\"]*)\"", text))))
        if path.endswith(".fish"):
            return {f"-{it}" for it in re.findall(r" -s (\w)", text)} | {f"--{it}" for it in re.findall(r" -l ([\w-]+)", text)}
        return set(re.findall(OPTION, " ".join(re.findall(r"^ +(\S*'[^'\[]*(?:'\{[^}]*\}'?)?)", text, re.M))))

    def options(self):
        """Each option of the help is in the manual page and in the completions, and each of these is in the help; and the program takes it."""
        helped = set(re.findall(OPTION, self.sources.text_of("crates/gulmaat/stdout")))
        places = [("manual", MANUAL, set(re.findall(OPTION, self.manual.text)))]
        places += [("completions", path, self.completed(path)) for path in COMPLETIONS]
        places.append(("program", "crates/gulmaat_options/src/asked.rt", self.sources.taken_options()))
        for kind, path, options in places:
            for option in sorted(helped - options):
                self.is_so(self.exceptions.has("option of the help", f"{kind} {option}"), path, f"lacks the option {option} of the help")
            for option in sorted(options - helped):
                self.is_so(self.exceptions.has("other option", f"{kind} {option}"), path, f"has the option {option}, which the help lacks")
            self.passed += len(helped & options)

    # ---- Crates and what they promise.

    def crates(self):
        """crates.txt has all crates, docs/CLAUSES.md each but those of tests, and the stations of docs/LAYERS.md are where it says."""
        layers, crates = self.documents["docs/LAYERS.md"], self.sources.crates
        folders = {it.split("/")[1] for it in glob.glob("crates/*/src", root_dir=TOP)}
        for crate in sorted(set(crates) ^ folders):
            self.is_so(False, "crates.txt", f"is at variance with crates/: {crate}")
        headings = set(self.documents[CLAUSES].headings())
        for crate in [name for head, names in floors() if head != LAST_FLOOR for name in names]:
            self.is_so(crate in headings, CLAUSES, f"lacks the crate {crate}")
        for _, span in layers.spans():
            if re.fullmatch(r"tests_\w+", span) and span != "tests_NAME":
                self.is_so(span in crates, layers.path, f"no such crate: {span}")
        for line, head, cells in layers.rows():
            if head[1:3] == ["station", "crate"]:
                for part in re.findall(r"\w+", cells[1]):
                    is_there = any(self.sources.defines(crate, part) for crate in names_in(cells[2]))
                    self.is_so(is_there, f"{layers.path}:{line}", f"no such station in {cells[2]}: {part}")

    def clauses(self):
        """docs/CLAUSES.md is as it would be written now."""
        self.is_so(self.documents[CLAUSES].text == clauses(), CLAUSES, "isn't what bin/clauses writes")

    def faults(self):
        """docs/FORMATS.md has each fault, as it would be written now."""
        self.is_so(faults() in self.documents[FORMATS].text, FORMATS, "lacks the table of faults that bin/clauses writes")

    def tables(self):
        """docs/FORMATS.md has each option of the C compilers, with where it goes and how it takes a value, as the tables of the code have it; and
        a command line that is tried has it."""
        right, wrong = differences(self.documents[FORMATS])
        self.passed += right
        for line, what in wrong:
            self.is_so(False, f"{FORMATS}:{line}", what)
        for file, function, flag in untried():
            self.is_so(False, "crates/sccache_wrap/cases/reports", f"no command line has {flag} of {function} of {file}")

    def promises(self):
        """Names in backticks with a crate before them, as `wrap::serve`, or with its folder in brackets after them, are defined in that crate."""
        for path, document in self.documents.items():
            for line, span in document.spans():
                it = re.fullmatch(r"(\w+)((?:::\w+)+)", span)
                if it and it[1] in self.sources.crates:
                    self.promise(it[2], it[1], f"{path}:{line}")
            for line, it in document.found(r"((?:`[\w:]+`(?:, | and |,\n| and\n))*`[\w:]+`)\s+\(`crates/(\w+)`\)"):
                self.promise(" ".join(re.findall(r"`([^`]*)`", it[1])), it[2], f"{path}:{line}")

    def compilers(self):
        """Each C compiler is among the names for callers, in documents that list them, and in a command line that is tried."""
        kinds = re.findall(r'CCompilerKind::(\w+) => "(\w+)",', read(f"{TOP}/{KINDS}"))
        self.is_so(kinds, KINDS, "names no compiler")
        for kind, name in kinds:
            for path in LISTS_OF_COMPILERS:
                # (README.md has a compiler's name as its makers write it)
                said = re.search(rf"\b{kind}\b", read(f"{TOP}/{path}"), re.I if path == "README.md" else 0)
                self.is_so(said, path, f"lacks the compiler {kind}")
            lines = glob.glob(f"{TOP}/crates/sccache_wrap/cases/reports/*/*.{name}")
            self.is_so(lines, "crates/sccache_wrap/cases/reports", f"has no row of the compiler {name}")

    def promise(self, text, crate, place):
        """The names of a text are defined in that crate."""
        for name in re.findall(r"[A-Za-z]\w*", text):
            self.is_so(self.sources.defines(crate, name), place, f"no such promise: {crate}::{name}")

    def trusted(self):
        """Each library that crates use is among what is trusted, wherever that is listed, and all documents name the same kit."""
        kits = {}
        for path, document in self.documents.items():
            for _, it in document.found(r"kit `([^`]*logic [^`]*)`"):
                kits[path] = it[1]
        self.is_so(len(set(kits.values())) == 1, ", ".join(kits), f"several kits: {', '.join(sorted(set(kits.values())))}")
        for path in ("README.md", "docs/PROVED.md"):
            listed = [it[0] for _, it in self.documents[path].found(r"(?:\*\*)?Trusted(?:\*\*)?: (?:[^\n]|\n(?!\n|- ))*")]
            self.is_so(len(listed) == 1, path, "lists what is trusted not once")
            for library in sorted(self.sources.libraries):
                self.is_so(f"`{library}`" in " ".join(listed), path, f"doesn't list {library} as trusted")

    def worked_rows(self):
        """Each worked row runs somewhere, and none has left the list in silence."""
        for line, is_right, what in worked_rows(TOP, self.rows):
            self.is_so(is_right, f"{ROWS}:{line}", what)

    def pictures(self):
        """Each picture is as it would be drawn now, and names crates that are there."""
        for path, draw in PICTURES.items():
            text = draw()
            self.is_so(os.path.isfile(f"{TOP}/{path}") and read(f"{TOP}/{path}") == text, path, "isn't what bin/pictures draws")
            for name in sorted(set(re.findall(r"\b[a-z0-9]+(?:_[a-z0-9]+)+\b", text))):
                self.is_so(name in self.sources.crates, path, f"names no crate: {name}")

    def run(self):
        """All checks. Returns whether any failed."""
        for check in (self.paths, self.links, self.commands, self.names, self.variables, self.keys, self.options, self.crates, self.compilers,
                      self.clauses, self.faults, self.tables, self.promises, self.trusted, self.worked_rows, self.pictures):
            check()
        for row in self.exceptions.patterns:
            self.is_so(row in self.exceptions.used, "lib/docs/exceptions", f"nothing needs: {' '.join(row)}")
        print(f"{self.passed} passed, {self.failed} failed")
        return self.failed != 0


if __name__ == "__main__":
    sys.exit(Check().run())
