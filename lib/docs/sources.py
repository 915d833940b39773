"""What the sources have: files, words, crates, settings and options."""

import functools
import glob
import os
import re

FOLDERS = ("bin", "crates", "host", "lib", "share", "bench")
SKIPPED = {"out", "out-unproved", "__pycache__", "docs"}
SUFFIXES = (".rt", ".antt", ".edit", ".c", ".h", ".py", ".bash", ".js", ".fish", ".1")
DEFINED = re.compile(r"\b(?:fn|struct|enum|trait|type|const|mod)\s+(\w+)|\bpub use ([^;]*)|\bimpl\b([^{]*?) for ")


def read(path):
    with open(path, encoding="utf-8") as file:
        return file.read()


class Sources:
    """The sources below a folder."""

    def __init__(self, top):
        self.top = top
        self.files, self.folders = {}, set()
        for folder in FOLDERS:
            for at, folders, names in os.walk(os.path.join(top, folder)):
                folders[:] = [it for it in folders if it not in SKIPPED]
                place = os.path.relpath(at, top)
                self.folders.add(place)
                self.files.update((f"{place}/{name}", None) for name in names)
        self.base_names = {os.path.basename(path) for path in self.files}
        self.in_crates = {it.split("/", 2)[2] for it in [*self.files, *self.folders] if it.count("/") > 1 and it.startswith("crates/")}
        self.crates, self.libraries = self.read_crates()
        texts = [self.text_of(it) for it in self.files if (it.endswith(SUFFIXES) and "/proofs/" not in it) or it.startswith("bin/")]
        self.words = set(self.crates).union(re.findall(r"[A-Za-z]\w*", "\n".join(texts), re.A))
        self.words.update(name.partition(".")[0] for name in [*self.base_names, *map(os.path.basename, self.folders)])
        self.options = set(re.findall(r"--[a-zA-Z][\w-]*", "\n".join(texts)))

    def text_of(self, path):
        """The text of a file; nothing where it isn't text."""
        if self.files.get(path) is None:
            try:
                self.files[path] = read(os.path.join(self.top, path))
            except (OSError, UnicodeDecodeError):
                self.files[path] = ""
        return self.files[path]

    def read_crates(self):
        """The crates of crates.txt, each with the crates that it uses, and the libraries that they use."""
        rows = [line.partition(":") for line in read(f"{self.top}/crates.txt").splitlines() if line and not line.startswith("#")]
        used = {name: set(names.split()) for name, _, names in rows}
        libraries = set().union(*used.values()) - set(used)
        return {name: names - libraries for name, names in used.items()}, libraries

    @functools.lru_cache(maxsize=None)
    def defined(self, crate):
        """The names that the sources of a crate define, implement, or hand on from another crate."""
        texts = [self.text_of(it) for it in self.files if it.startswith(f"crates/{crate}/src/")]
        return set().union(*(re.findall(r"\w+", " ".join(it)) for text in texts for it in DEFINED.findall(text)))

    def defines(self, crate, name):
        """Whether a crate defines this name. `with_` is any name that begins so."""
        names = self.defined(crate)
        return name in names or (name.endswith("_") and any(it.startswith(name) for it in names))

    def settings(self):
        """Each key of the settings with its variable and its usual value."""
        text = self.text_of("crates/cache_settings/src/key.rt")
        bodies = dict(re.findall(r"pub fn (\w+)\(self\) -> &'static str \{\n(.*?)\n    \}\n", text, re.S))
        arms = {name: {} for name in ("name", "variable", "usual")}
        for function, found in arms.items():
            for keys, value in re.findall(r"((?:\|?\s*Key::\w+\s*)+)=>\s*\"([^\"]*)\"", bodies[function]):
                found.update((key, value) for key in re.findall(r"Key::(\w+)", keys))
        return {arms["name"][key]: (arms["variable"][key], arms["usual"][key]) for key in arms["name"]}

    def host_variables(self):
        """The variables that the host reads beside those of the settings."""
        return set().union(*(re.findall(r'"(GULMAAT_[A-Z_]+)"', self.text_of(it)) for it in self.files if it.startswith("host/")))

    def script_variables(self):
        """The variables that scripts read."""
        scripts = [it for it in self.files if it.startswith(("bin/", "lib/", "bench/"))]
        return set().union(*(re.findall(r"\$\{(GULMAAT_[A-Z_]+)", self.text_of(it)) for it in scripts))

    @functools.lru_cache(maxsize=None)
    def taken_options(self):
        """The options that the program and its host take."""
        places = ["crates/gulmaat_options/src/asked.rt", "crates/gulmaat_page/src/asked.rt", "host/gulmaat.c"]
        return set().union(*(re.findall(r'"(--?[a-zA-Z][\w-]*)"', self.text_of(it)) for it in places))

    def script_texts(self, script):
        """What has the options and arguments of a command in bin/: its text, that of files in lib/ that it names, and its program's sources."""
        text = self.text_of(script)
        texts = [text, *(self.text_of(it) for it in re.findall(r"lib/[\w./-]+\w", text))]
        for crate in re.findall(r"/program\" (\w+)", text):
            for name in (crate, *self.crates[crate]):
                texts += [self.text_of(it) for it in self.files if it.startswith(f"crates/{name}/src/")]
        return "\n".join(texts)

    def has_path(self, name, folder):
        """Whether a file or folder is there: from the top, from a document's folder, from crates/ or in some crate. A source may be named
        without its folder."""
        name = name.rstrip("/")
        if name in self.in_crates or (name.endswith((".rt", ".antt", ".edit")) and name in self.base_names):
            return True
        places = [os.path.join(self.top, name), os.path.join(self.top, folder, name), os.path.join(self.top, "crates", name)]
        return any(glob.glob(place) if "*" in name else os.path.exists(place) for place in places)
