"""Draws the pictures of the documents: the floors of crates, as crates.txt has them, and the way of a call. bin/pictures has what it is for."""

import sys
from pathlib import Path

TOP = Path(__file__).resolve().parent.parent.parent
LETTER = 7.0    # how wide a letter is, in the size that all text has
WIDTH = 880

STYLE = """
  text { font: 12px ui-monospace, monospace; fill: #1f2328; }
  .head { font-weight: bold; }
  .box { fill: #f6f8fa; stroke: #8c959f; }
  .proved { fill: #dafbe1; stroke: #1a7f37; }
  .floor { fill: none; stroke: #d0d7de; }
  .way { fill: none; stroke: #57606a; marker-end: url(#end); }
  .end { fill: #57606a; }
  .on { font-size: 11px; fill: #57606a; }
  @media (prefers-color-scheme: dark) {
    text { fill: #e6edf3; }
    .box { fill: #161b22; stroke: #6e7681; }
    .proved { fill: #12261e; stroke: #3fb950; }
    .floor { stroke: #30363d; }
    .way { stroke: #8b949e; }
    .end, .on { fill: #8b949e; }
  }
"""


def escaped(text):
    """Text, escaped for XML."""
    return text.replace("&", "&amp;").replace("<", "&lt;").replace(">", "&gt;")


def line_at(x, y, text, kind="", anchor="start"):
    """A line of text."""
    return f'<text x="{x:g}" y="{y:g}" class="{kind}" text-anchor="{anchor}">{escaped(text)}</text>'


def box(x, y, width, lines, kind="box"):
    """A box with lines of text in its middle, of which the first one is its name."""
    parts = [f'<rect x="{x}" y="{y}" width="{width}" height="{14 + 16 * len(lines)}" rx="5" class="{kind}"/>']
    parts += [line_at(x + width / 2, y + 20 + 16 * at, text, "" if at else "head", "middle") for at, text in enumerate(lines)]
    return "\n".join(parts)


def way(points, text="", at=None):
    """A line with an arrow at its end, and a text at a place."""
    path = "M" + " L".join(f"{x} {y}" for x, y in points)
    parts = [f'<path d="{path}" class="way"/>']
    if text:
        parts.append(line_at(*at, text, "on"))
    return "\n".join(parts)


def picture(title, height, parts):
    """A whole picture."""
    return "\n".join([
        f'<svg xmlns="http://www.w3.org/2000/svg" viewBox="0 0 {WIDTH} {height}" width="{WIDTH}" height="{height}" role="img">',
        f"<title>{escaped(title)}</title>",
        f"<style>{STYLE}</style>",
        '<defs><marker id="end" viewBox="0 0 8 8" refX="7" refY="4" markerWidth="8" markerHeight="8" orient="auto">',
        '<path d="M0 0 L8 4 L0 8 z" class="end"/></marker></defs>',
        *parts,
        "</svg>",
        "",
    ])


def floors():
    """The headings of crates.txt, each with the names of its crates."""
    found = []
    for line in (TOP / "crates.txt").read_text(encoding="utf-8").splitlines():
        name, colon, _ = line.partition(":")
        if line.startswith("# "):
            found.append((line[2:], []))
        elif colon and found:
            found[-1][1].append(name)
    return [(head, names) for head, names in found if names]


def drawn_floor(head, names, top):
    """A floor with the boxes of its crates, and where it ends."""
    parts, x, y = [line_at(20, top + 18, head, "head")], 20, top + 28
    for name in names:
        width = round(len(name) * LETTER) + 16
        if x + width > WIDTH - 20:
            x, y = 20, y + 30
        parts.append(f'<rect x="{x}" y="{y}" width="{width}" height="24" rx="4" class="box"/>')
        parts.append(line_at(x + width / 2, y + 16, name, "", "middle"))
        x += width + 8
    end = y + 34
    parts.append(f'<rect x="10" y="{top}" width="{WIDTH - 20}" height="{end - top}" rx="6" class="floor"/>')
    return parts, end


def floors_picture():
    """All floors, the highest one on top: each rests on those below it."""
    parts, top = [], 10
    for head, names in reversed(floors()):
        drawn, end = drawn_floor(head, names, top)
        parts += drawn
        top = end + 8
    return picture("The crates of Gulmaat by floor, each on those below", top + 2, parts)


def call_picture():
    """The way of a call from the build tool to its outputs. Green boxes are proved."""
    left, middle, right, wide = 20, 250, 620, 300
    parts = [
        box(left, 20, 170, ["build tool", "make, ninja, cargo"]),
        box(left, 110, 170, ["gulmaat-host", "in C: runs commands,", "decides nothing"]),
        box(middle, 20, wide, ["Is the call cacheable?", "cache_c_requests, cache_known_options", "cache_rustc_requests"], "proved"),
        box(right, 28, 230, ["the compiler alone", "uncacheable, by reason"]),
        box(middle, 130, wide, ["Is there a manifest that still fits?", "cache_files: result keys and states", "cache_watch_lists: new headers"], "proved"),
        box(right, 138, 230, ["the preprocessor", "its text, and lines as written"]),
        box(middle, 240, wide, ["Which key, and what is answered?", "wrap_replay: `serve` over recorded answers", "wrap, ckeys, rustkeys"], "proved"),
        box(middle, 350, wide, ["Is there a result of this key?", "cache_dir, cache_format: kept here", "cache_remote_storage: on a server"], "proved"),
        box(right, 358, 230, ["gulmaat-remote", "in C: Redis, HTTP, a folder"]),
        box(middle, 460, wide, ["What did the compile make?", "cache_c_calls, cache_rustc_calls: is it kept?", "manifest, result, statistics"], "proved"),
        box(right, 468, 230, ["the compiler", "outputs and messages"]),
        box(left, 350, 170, ["outputs in place", "cache_source_files,", "cache_rustc_calls"], "proved"),
        way([(105, 66), (105, 110)]),
        way([(190, 140), (220, 140), (220, 51), (middle, 51)], "asks", (196, 100)),
        way([(middle + wide, 51), (right, 51)], "no", (middle + wide + 24, 45)),
        way([(middle + wide / 2, 82), (middle + wide / 2, 130)], "yes", (middle + wide / 2 + 8, 110)),
        way([(middle + wide, 161), (right, 161)], "no", (middle + wide + 24, 155)),
        way([(right + 115, 184), (right + 115, 271), (middle + wide, 271)], "text", (right + 75, 265)),
        way([(middle + wide / 2, 192), (middle + wide / 2, 240)], "direct hit", (middle + wide / 2 + 8, 220)),
        way([(middle + wide / 2, 302), (middle + wide / 2, 350)], "key", (middle + wide / 2 + 8, 330)),
        way([(middle + wide, 375), (right, 375)], "not here", (middle + wide + 8, 369)),
        way([(right, 392), (middle + wide, 392)]),
        way([(middle, 381), (190, 381)], "hit", (208, 375)),
        way([(middle + wide / 2, 412), (middle + wide / 2, 460)], "miss", (middle + wide / 2 + 8, 440)),
        way([(middle + wide, 485), (right, 485)], "runs", (middle + wide + 18, 479)),
        way([(right, 502), (middle + wide, 502)]),
        way([(middle, 491), (105, 491), (105, 412)], "fresh outputs", (120, 485)),
    ]
    return picture("The way of a call from the build tool to its outputs", 540, parts)


PICTURES = {"docs/floors.svg": floors_picture, "docs/call.svg": call_picture}


def main():
    """Writes all pictures, or with --check says which ones aren't as they would be written."""
    stale = 0
    for name, draw in PICTURES.items():
        place, text = TOP / name, draw()
        if "--check" not in sys.argv[1:]:
            place.write_text(text, encoding="utf-8")
        elif not place.is_file() or place.read_text(encoding="utf-8") != text:
            stale += 1
            print(f"{name} isn't what bin/pictures draws")
    return 1 if stale else 0


if __name__ == "__main__":
    sys.exit(main())
