"""An LLVM module as text, as the kit translates a program for a try: what of it isn't for a program that is kept is taken out, and
it is cut into parts that are compiled side by side.

The checks in the program itself stay: an index out of bounds, a failed unwrap, `unreachable!` and `prove!` stop it. Those of the sanitizer
go; most of them are for sums that wrap.
"""
import re

NAME = r'"(?:[^"\\]|\\.)*"|[\w.$]+'
BEGIN = re.compile(r"(?m)^(?=define )")
DEFINED = re.compile(rf"define [^@]*@({NAME})\(")
USED = re.compile(rf"@({NAME})")
GLOBAL = re.compile(rf"(?m)^@({NAME}) = (.*)$")
SANITIZER = '"rattle-llvm-checks::'
# Fresh memory that is filled with a pattern, and the sanitizer's checks.
FOR_A_TRY = re.compile(
    r'(?m)^  call void @llvm\.memset\.p0\.i64\(ptr %r\d+, i8 -86, i64 \d+, i1 false\)\n'
    rf'|^  call void @{SANITIZER}\w+"\(i8 [^)]*\)\n'
)
# A function of so many lines is small: other parts have a copy of it to inline.
SMALL = 60


class Module:
    """What comes before the functions, each function by its name, and what comes after them."""

    def __init__(self, text):
        self.head, *pieces = BEGIN.split(text)
        self.functions, tail = {}, []
        for piece in pieces:
            end = piece.index("\n}\n") + 3
            self.functions[DEFINED.match(piece)[1]] = piece[:end]
            tail.append(piece[end:])
        self.tail = "".join(tail)

    def take_out_checks(self):
        """Takes out what is for a try alone, and the functions that main doesn't reach."""
        for name, body in self.functions.items():
            if not name.startswith(SANITIZER):
                self.functions[name] = FOR_A_TRY.sub("", body)
        reached = self.reached()
        self.functions = {name: body for name, body in self.functions.items() if name in reached}

    def reached(self):
        """The names that main reaches, and what other modules call."""
        values = {found[1]: found[2] for found in GLOBAL.finditer(self.head + self.tail)}
        todo = ["main", *(name for name, body in self.functions.items() if not body.startswith("define internal"))]
        seen = set()
        while todo:
            name = todo.pop()
            if name not in seen:
                seen.add(name)
                todo += USED.findall(self.functions.get(name) or values.get(name) or "")
        return seen

    def hear(self, wishes):
        """Gives functions what their sources ask for, by module and name."""
        for name, body in self.functions.items():
            path = re.sub(r"(::)?<[^>]*>", "", name.strip('"')).split("::")
            asked = (wishes.get(("::".join(path[:end]), path[-1])) for end in range(len(path) - 1, 0, -1))
            wish = next((it for it in asked if it is not None), None)
            if wish:
                line, rest = body.split("\n", 1)
                self.functions[name] = re.sub(r" (#\d+ \{)$", rf" {wish} \1", line) + "\n" + rest

    def set_attributes(self, processor):
        """Has functions made as in a build: without the sanitizer and frame pointers, for that processor."""

        def as_built(found):
            line = found[0].replace(" sanitize_address", "").replace(' "frame-pointer"="all"', "")
            line = line.replace('"target-cpu"="x86-64"', f'"target-cpu"="{processor}"')
            return re.sub(r"= \{ \}$", "= { nounwind }", line)

        self.tail = re.sub(r"(?m)^attributes #\d+ = \{.*$", as_built, self.tail)

    def uses(self):
        """The functions that each function names."""
        return {
            name: [other for other in dict.fromkeys(USED.findall(body)) if other in self.functions and other != name]
            for name, body in self.functions.items()
        }

    def parts(self, count):
        """The texts of so many modules of about one size, which are the program once they are linked."""
        total, size, owned = sum(map(len, self.functions.values())), 0, [[] for _ in range(count)]
        for name, body in self.functions.items():
            owned[min(size * count // total, count - 1)].append(name)
            size += len(body)
        uses = self.uses()
        return [self.part(own, uses) for own in owned if own]

    def part(self, own, uses):
        """The text of one module: its own functions, copies of small ones that they call, and what else they name as it is declared."""
        seen, todo, copies, others = set(own), list(own), [], []
        while todo:
            for name in uses[todo.pop()]:
                if name not in seen:
                    seen.add(name)
                    if self.is_copied(name):
                        copies.append(name)
                        todo.append(name)
                    else:
                        others.append(name)
        others += [name for name in dict.fromkeys(USED.findall(self.head)) if name in self.functions and name not in seen]
        return "".join(
            [
                self.head,
                *(re.sub(r"^define internal ", "define hidden ", self.functions[name]) + "\n" for name in own),
                *(re.sub(r"^define ((internal|hidden) )?", "define available_externally hidden ", self.functions[name]) + "\n" for name in copies),
                *(self.declaration(name) for name in others),
                self.tail,
            ]
        )

    def is_copied(self, name):
        body = self.functions[name]
        return body.count("\n") <= SMALL or "alwaysinline" in body.split("\n", 1)[0]

    def declaration(self, name):
        line = self.functions[name].split("\n", 1)[0]
        return re.sub(r" \{$", "", re.sub(r"^define (internal |hidden )?", "declare hidden ", line)) + "\n\n"
