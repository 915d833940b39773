"""logs.py made COUNT FILE, or hostile FILE: writes a log of made-up calls, or a hostile one.

A made-up log says by its last line on standard output what a page of it must show.
"""
import json
import random
import sys

KINDS = [
    ("direct_cache_hit", 55),
    ("preprocessed_cache_hit", 15),
    ("cache_miss", 20),
    ("called_for_link", 4),
    ("unsupported_compiler_option", 4),
    ("error_memory", 2),
]
WHYS = [
    "text: lines of include/config.h",
    "text: lines of src/lib/size.h",
    "word 7: -DVERSION=2, earlier -DVERSION=1",
    "the first call that was compiled",
]


def made(count, place):
    """So many calls of eight jobs, like those of a large build."""
    chance = random.Random(61)
    now = 1_700_000_000_000_000
    free = [now] * 8
    names = [name for name, weight in KINDS for _ in range(weight)]
    sums = {name: 0 for name, _ in KINDS}
    longest = 0
    common = [f"-I/home/user/project/component-{n}/include" for n in range(12)] + ["-O2", "-g", "-Wall", "-Wextra", "-fPIC", "-std=c++17"]
    with open(place, "w", encoding="utf-8") as file:
        for number in range(count):
            job = min(range(8), key=free.__getitem__)
            what = chance.choice(names)
            time = chance.randint(2_000, 9_000) if "hit" in what else int(chance.lognormvariate(13, 0.8))
            start, end = free[job], free[job] + time
            free[job] = end + chance.randint(200, 3_000)
            source = f"component-{number % 12}/source-{number}.cpp"
            line = {
                "v": 1,
                "what": what,
                "dir": f"/home/user/project/build-{number % 3}",
                "compiler": "/usr/bin/g++",
                "words": [*common, f"-DNUMBER={number % 40}", "-MD", "-MF", f"{source}.d", "-c", f"../{source}", "-o", f"{source}.o"],
                "input": f"../{source}",
                "output": f"{source}.o",
                "bytes": 12_345,
                "compile_time": int(chance.lognormvariate(13, 0.8)) if "hit" in what else 0,
                "start": start,
                "end": end,
                "pid": 10_000 + number,
                "ppid": 99,
                "status": 0,
                "ran": [] if "hit" in what else [["P", start + 500, start + time // 5], ["C", start + time // 4, end - 100]],
            }
            if what == "cache_miss":
                line["why"] = chance.choice(WHYS)
                longest = max(longest, time)
            if what.startswith("unsupported"):
                line["reason"] = "pass: argument @, unsupported"
            sums[what] += 1
            file.write(json.dumps(line, separators=(",", ":")) + "\n")
    print(json.dumps({"calls": count, "longest": longest, **sums}))


def hostile(place):
    """Names that are markup, control characters, bytes that aren't UTF-8, numbers out of range, and lines that are cut or empty."""
    moment = 1_700_000_000_000_000
    names = [
        "<script>document.body.innerHTML='hacked';window.hacked=1</script>.c",
        "</script><script>window.hacked=1</script>.c",
        "--><img src=x onerror=window.hacked=1>.c",
        "\"><svg onload=window.hacked=1>.c",
        "<!--<script>.c",
        "]]>&lt;b&gt;&amp;.c",
        "a\u0000b\u0001\u001b[31m\u007f\u0085.c",
        "\u202egnp.c\u202c\u2066\u200f",
        "line\nend\ttab\r.c",
        "{{constructor.constructor('window.hacked=1')()}}.c",
        "__proto__",
        "javascript:window.hacked=1",
        "'\\''; rm -rf /",
        "\U0001f600 \u4f60\u597d.c",
        "x" * 100_000,
        "",
    ]
    lines = []
    for number, name in enumerate(names):
        lines.append(
            json.dumps(
                {
                    "v": 1,
                    "what": "cache_miss" if number % 2 else name or "x",
                    "dir": name,
                    "compiler": name,
                    "words": ["-c", name, name],
                    "input": name,
                    "output": name + ".o",
                    "reason": name,
                    "why": "text: lines of " + name,
                    "start": moment + number,
                    "end": moment + 5_000_000,
                    "pid": number,
                    "ppid": 1,
                    "status": 1,
                    "ran": [["C", 0, 9007199254740991], ["P", moment, moment]],
                }
            ).encode()
        )
    good = {"v": 1, "what": "cache_miss", "start": moment, "end": moment + 10}
    lines.append(json.dumps({**good, "dir": {"hex": "2fff3c"}, "words": [{"hex": "ff3c7363726970743e"}]}).encode())
    lines.append(json.dumps({**good, "unknown": {"deep": [1, 2, {"x": None}]}}).encode())
    lines.append(json.dumps({**good, "end": moment - 10}).encode())
    broken = [
        b"{",
        b"}",
        b"null",
        b"[]",
        b"[" * 100_000,
        b"\xff\xfe\x00",
        b"1700000000 direct_cache_hit 5 ms: gcc -c it.c",
        lines[0][: len(lines[0]) // 2],
        json.dumps({**good, "v": 2}).encode(),
        json.dumps({"v": 1, "what": "cache_miss", "start": 5}).encode(),
        json.dumps({"v": 1, "start": 5, "end": 6}).encode(),
        json.dumps({**good, "start": -5}).encode(),
        json.dumps({**good, "start": 1.5}).encode(),
        json.dumps({**good, "end": 2**64}).encode(),
        json.dumps({**good, "end": 2**63}).encode(),
        json.dumps({**good, "words": "none"}).encode(),
        json.dumps({**good, "words": [5]}).encode(),
        json.dumps({**good, "dir": {"hex": "f"}}).encode(),
        json.dumps({**good, "dir": {"hex": "zz"}}).encode(),
        json.dumps({**good, "ran": [["X", 1, 2]]}).encode(),
        json.dumps({**good, "ran": [["C", 1]]}).encode(),
        json.dumps({**good, "status": "none"}).encode(),
        b'{"v":1,"what":"cache_miss","start":1,"end":2,"words":["\\ud800"]}',
        b'{"v":1,"what":"cache_miss","start":1,"end":2} more',
    ]
    with open(place, "wb") as file:
        # The last line has no end.
        file.write(b"\n\n" + b"\n".join(lines + broken))
    print(json.dumps({"calls": len(lines), "broken": len(broken)}))


if sys.argv[1] == "made":
    made(int(sys.argv[2]), sys.argv[3])
else:
    hostile(sys.argv[2])
