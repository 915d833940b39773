"""Mutations of bytes, and of values as JSON has them, by a random source."""

import copy
import sys

# Values are nested up to some thousands of levels, and walked by recursive functions.
sys.setrecursionlimit(50000)
# Numbers at the edges of what fits.
EDGES = (0, 1, 2, 127, 128, 255, 256, 65535, 2**31 - 1, 2**31, 2**32 - 1, 2**32, 2**60, 2**62, 2**63 - 1, 2**63, 2**64 - 1)
# Pieces that mean something in one of the formats, or are no UTF-8.
PIECES = (
    b"\0", b"\xff", b"\xc3\x28", b"\xed\xa0\x80", b"\xf0\x9f", b"\xef\xbb\xbf", b"\xff\xfe", b"\xfe\xff", b"\xff\xfe-", b"\xd8\x3d",
    b"\r", b"\n", b"\r\n", b"\t", b"\x0b", b" ", b"'", b'"', b"\\", b'\\"', b"\\\\", b"@", b"-@", b"@a.rsp", b"@@", b"-", b"--", b"=", b",", b":",
    b": ", b"/", b"//", b"/../", b"./", b"#", b'# 1 "', b'\n# 2 "a" 1\n', b'#line 3 "b"\n', b'#include "', b'#include "h.h"\n', b"#error",
    b"__TIME__", b"__DATE__", b"__TIMESTAMP__", b"__TIME", b".incbin", b"# env-dep:A=b\n", b"\n\n", b"\\ ", b"a: b\n", b"-c", b"-o", b"-I",
    b"-Xclang", b"-arch", b"-x", b"-E", b"--crate-name", b"--extern", b"-L", b"-C", b"--emit", b"{", b"}", b"[", b"]", b"null", b"1e999", b"-0",
    b"\\u0000", b"\\ud800", b"[" * 130, b'{"a":' * 130,
)
# Values that are put in the place of others.
VALUES = (
    None, True, False, 0, -1, 1.5, 1e300, 2**31, 2**63 - 1, 2**63, 2**64 - 1, 2**64, -(2**63), -(2**63) - 1, "", "a", "\0", "@a.rsp", [], {},
    [[]], {"hex": ""}, {"hex": "00"}, {"hex": "0"}, {"hex": "ff"}, {"hex": "2d4400"}, {"text": "x", "mtime": 2**63 - 1},
)


def place(random, data):
    """A stretch of the data: where it begins and ends."""
    begin = random.randint(0, len(data))
    return begin, min(len(data), begin + random.choice((0, 1, 1, 2, 4, 8, 8, 16, 64, 1024)))


def mutated_once(random, data):
    """These bytes with one change."""
    begin, end = place(random, data)
    piece = data[begin:end]
    kind = random.randrange(10)
    if kind == 0 and data:
        at = random.randrange(len(data))
        return data[:at] + bytes([data[at] ^ 1 << random.randrange(8)]) + data[at + 1:]
    if kind == 1:
        return data[:begin] + bytes(random.randrange(256) for _ in piece) + data[end:]
    if kind == 2:
        return random.choice((data[:begin], data[begin:], data[:begin] + data[end:]))
    if kind == 3:
        times = random.choice((2, 3, 9, 100, 5000 if len(piece) <= 64 else 100))
        return data[:begin] + piece * times + data[end:]
    if kind == 4:
        first, second = sorted(((begin, end), place(random, data)))
        if first[1] <= second[0]:
            middle = data[first[1]:second[0]]
            return data[:first[0]] + data[second[0]:second[1]] + middle + data[first[0]:first[1]] + data[second[1]:]
    if kind == 5:
        return data[:begin] + random.choice(EDGES).to_bytes(8, "little") + data[begin + 8:]
    if kind == 6:
        return data[:begin] + str(random.choice(EDGES)).encode() + data[end:]
    return data[:begin] + random.choice(PIECES) * random.choice((1, 1, 1, 2, 50)) + data[begin if kind == 7 else end:]


def mutated(random, data):
    """These bytes with some changes."""
    for _ in range(random.choice((1, 1, 2, 3, 8))):
        data = mutated_once(random, data)
    return data


def spots(value, found, inside=None):
    """All places of a value: what each is in, under which name or number, and under which name that is."""
    if isinstance(value, dict):
        items = value.items()
    elif isinstance(value, list):
        items = enumerate(value)
    else:
        return
    for name, part in items:
        found.append((value, name, inside))
        spots(part, found, name if isinstance(value, dict) else inside)


def other_value(random):
    """One of the values that are put in the place of others: a copy, since it is changed in place later."""
    return copy.deepcopy(random.choice(VALUES))


def nested(random):
    """A value nested deeply."""
    value = other_value(random)
    for _ in range(random.choice((10, 100, 126, 127, 128, 1000))):
        value = [value] if random.randrange(2) else {"a": value}
    return value


def as_bytes(value):
    """The bytes of a byte text, or none."""
    if isinstance(value, str):
        return value.encode(errors="surrogatepass")
    if isinstance(value, dict) and isinstance(value.get("hex"), str):
        try:
            return bytes.fromhex(value["hex"])
        except ValueError:
            return None
    return None


def change_bytes(random, holder, name):
    """Changes a byte text in place, if there is one."""
    data = as_bytes(holder[name])
    if data is None:
        return
    data = mutated(random, data)
    try:
        text = data.decode()
    except UnicodeDecodeError:
        text = None
    if text is None or random.randrange(3) == 0:
        holder[name] = {"hex": data.hex()}
    else:
        holder[name] = text


def change_place(random, holder, name, others):
    """Changes what is in one place of a value."""
    kind = random.randrange(8)
    if kind == 0:
        del holder[name]
    elif kind == 1:
        holder[name] = other_value(random)
    elif kind == 2:
        holder[name] = nested(random)
    elif kind == 3:
        there, key, _ = random.choice(others)
        if key in there if isinstance(there, dict) else key < len(there):
            holder[name] = copy.deepcopy(there[key])
    elif kind == 4 and isinstance(holder, list):
        holder[name:name] = [copy.deepcopy(holder[name]) for _ in range(random.choice((1, 2, 30, 30, 2000)))]
    elif kind == 5 and isinstance(holder, dict):
        holder[random.choice(("", "a", "@a.rsp", "/w/a.rsp", str(name) + "x"))] = copy.deepcopy(holder[name])
    else:
        change_bytes(random, holder, name)


def mutated_value(random, value, weighty):
    """A value of JSON with some changes, more often in byte texts under the names that are weighty."""
    value = copy.deepcopy(value)
    for _ in range(random.choice((1, 1, 2, 4))):
        found = []
        spots(value, found)
        if not found:
            return value
        heavy = [spot for spot in found if spot[1] in weighty or spot[2] in weighty]
        if heavy and random.randrange(3) < 2:
            holder, name, _ = random.choice(heavy)
            change_bytes(random, holder, name)
        else:
            holder, name, _ = random.choice(found)
            change_place(random, holder, name, found)
    return value
