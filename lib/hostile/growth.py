"""Scenarios in which one list is long: of names, words, files, variables, markers or requests. Each is answered in time about the length."""

# How long the list is.
LENGTHS = (1000, 4000, 16000, 40000)


def c_request(words, files, **more):
    """A request to a C compiler."""
    return {"compiler": "gcc", "words": words, "files": files, **more}


def object_of(words=(), files=None, text="int x;\n", **more):
    """A request for one object, with these words and files beside its own."""
    return c_request([*words, "-c", "a.c"], {"/w/a.c": text, **(files or {})}, **more)


def crate_of(words=(), files=None, **more):
    """A request for one library, with these words and files beside its own, and what rustc prints."""
    own = ["--crate-name", "foo", "--crate-type", "rlib", "--emit=link,dep-info", "--out-dir", "out", "a.rs"]
    texts = {"dep_info": "foo.d: a.rs\n", "file_names": "libfoo.rlib\n", **more}
    return {"compiler": "rustc", "words": [*own, *words], "files": {"/w/a.rs": "x", **(files or {})}, **texts}


def files_of(count, name, text="x"):
    """So many files, by the form of their names."""
    return {name % place: text for place in range(count)}


def lines_of(count, line):
    """So many lines, by their form."""
    return "".join(line % place for place in range(count))


def words_of(count, *words):
    """So many words or pairs of words, by their form."""
    return [word % place if "%" in word else word for place in range(count) for word in words]


# What is long, and the requests of the scenario by its length.
GROWN = {
    "names that rustc prints": lambda count: [crate_of(file_names=lines_of(count, "f%d\n"))] * 2,
    "one name again and again": lambda count: [crate_of(file_names="f\n" * count)],
    "sources of a crate": lambda count: [
        crate_of(files=files_of(count, "/w/s%d"), dep_info="foo.d: " + lines_of(count, "s%d ") + "\n")
    ],
    "rules of a text on dependencies": lambda count: [crate_of(dep_info=lines_of(count, "t%d: a.rs\n"))],
    "variables of a source": lambda count: [crate_of(dep_info="foo.d: a.rs\n" + lines_of(count, "# env-dep:A%d=b\n"))],
    "crates of a crate": lambda count: [crate_of(words_of(count, "--extern", "e=e%d.rlib"), files_of(count, "/w/e%d.rlib"))],
    "static libraries": lambda count: [
        crate_of(
            [*words_of(count, "-l", "static=l%d"), "-L", "native=n"],
            files_of(count, "/w/n/libl%d.a"),
            archives=files_of(count, "/w/n/libl%d.a", "0" * 64),
        )
    ],
    "folders of static libraries": lambda count: [crate_of([*words_of(count, "-L", "native=n%d"), "-l", "static=l"])],
    "files of the toolchain": lambda count: [crate_of(files=files_of(count, "/t/%d"), libs=list(files_of(count, "/t/%d")))],
    "values of one option": lambda count: [crate_of(words_of(count, "--cfg", "c%d"))],
    "types of a crate": lambda count: [crate_of(["--crate-type=" + ",".join(["rlib"] * count)])],
    "variables of cargo": lambda count: [crate_of(env=[[f"CARGO_{place}", "x"] for place in range(count)])],
    "words of rustc in a file": lambda count: [crate_of(["@r"], {"/w/r": lines_of(count, "--cfg\nc%d\n")})],
    "files of words of rustc": lambda count: [crate_of(words_of(count, "@r%d"), files_of(count, "/w/r%d", "--cfg\nc\n"))],
    "words": lambda count: [object_of(words_of(count, "-DA%d"))],
    "pairs of words": lambda count: [object_of(words_of(count, "-o", "o%d"))],
    "words of no table": lambda count: [object_of(words_of(count, "--foo%d"))],
    "architectures": lambda count: [object_of(words_of(count, "-arch", "x"))],
    "extra files": lambda count: [object_of(words_of(count, "-fplugin=p%d"), files_of(count, "/w/p%d"))],
    "variables": lambda count: [object_of(env=[[f"A{place}", "x"] for place in range(count)])],
    "words in a file": lambda count: [object_of(["@r"], {"/w/r": lines_of(count, "-DA%d ")})],
    "files of words": lambda count: [object_of(words_of(count, "@r%d"), files_of(count, "/w/r%d", "-DA"))],
    "backslashes in a file of words": lambda count: [object_of(["@r"], {"/w/r": "-DA=" + "\\\\" * count})],
    "included files": lambda count: [
        object_of(files=files_of(count, "/w/h%d.h"), text=lines_of(count, '#include "h%d.h"\n'))
    ] * 2,
    "one included file": lambda count: [object_of(files={"/w/h.h": "x"}, text='#include "h.h"\n' * count)] * 2,
    "markers of files": lambda count: [object_of(files=files_of(count, "/w/h%d.h"), text=lines_of(count, '# 1 "h%d.h"\n'))] * 2,
    "markers of files that aren't there": lambda count: [object_of(text=lines_of(count, '# 1 "h%d.h"\n'))] * 2,
    "escapes in a marker": lambda count: [object_of(text='# 1 "' + "\\\\" * count + '"\n')],
    "beginnings of macros": lambda count: [object_of(text="__TIME" * count)],
    "slashes of a text": lambda count: [object_of(text=" /b" * count)] * 2,
    "steps up in a path": lambda count: [c_request(["-c", "../" * count + "a.c"], {"/w/" + "../" * count + "a.c": "x"})],
    "requests that are the same": lambda count: [object_of()] * (count // 4),
    "requests that differ": lambda count: [object_of(text=f"int x{place};") for place in range(count // 4)],
}


def scenario(random):
    """A scenario in which one list is long, with some folders that don't count."""
    count = random.choice(LENGTHS)
    requests = GROWN[random.choice(sorted(GROWN))](count)
    folders = [f"/b{place}" for place in range(random.choice((0, 0, 0, 100)))]
    return {"direct": bool(random.randrange(2)), "capacity": random.choice((0, 1, count)), "basedirs": folders, "requests": requests}
