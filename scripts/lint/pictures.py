#!/usr/bin/env python3
"""Draws the two pictures of docs/ARCHITECTURE.md, and that of docs/RECORDER.md, as SVG.

    scripts/lint/pictures.py            writes docs/pictures/layers.svg, data.svg and recorder.svg
    scripts/lint/pictures.py --check    draws nothing; fails if a picture is not what would be drawn, or if a text does not agree
                                        with crates.txt

The layers come from crates.txt and from the table of crates in docs/ARCHITECTURE.md (layer, crate, a phrase of at most eight
words). The table has to name each crate once, and no crate before one that it stands on. An edge that follows from others is left
out, and so are those of trials and tests. Graphviz places them, so only drawing wants its command `dot`; a check reads the picture,
and compares its crates, layers and lines. The data's way comes from docs/pictures/data.txt, and that through the service from
docs/pictures/recorder.txt.
"""
import re
import subprocess
import sys
import xml.etree.ElementTree as tree
from pathlib import Path
from typing import NamedTuple
from xml.sax.saxutils import escape

TOP = Path(__file__).resolve().parents[2]
PAGE = TOP / "docs" / "ARCHITECTURE.md"
FOLDER = TOP / "docs" / "pictures"
LINE = re.compile(r"^\| ([^|]*?) ?\| `(r10_\w+)` \| ([^|]+?) \|$", re.MULTILINE)
LONGEST_PHRASE = 8
WITHOUT_EDGES = "Trials and tests"
COLOURS = ["#4c6a92", "#8a6d3b", "#5b7f4f", "#7a5195", "#a65449", "#2f7f86", "#6f6f2f", "#94507e", "#57606a", "#888888"]
FONT = 'font-family="DejaVu Sans, Verdana, Arial, sans-serif"'


class Fault(Exception):
    """What is wrong, in one line."""


class Crate(NamedTuple):
    """A line of the page's table."""

    layer: str
    name: str
    phrase: str


Edges = dict[str, list[str]]
Places = dict[str, tuple[float, float]]


def edges_of(text: str) -> Edges:
    """What each crate of crates.txt stands on, of the crates that it lists."""
    lines = [line for line in text.splitlines() if line.strip() and not line.startswith("#")]
    named = {line.split(":")[0].split()[0]: line.split(":")[1].split() for line in lines}
    return {name: [it for it in used if it in named] for name, used in named.items()}


def crates_of(text: str, edges: Edges) -> list[Crate]:
    """The page's table, which has to agree with crates.txt."""
    crates, layer = [], ""
    for match in LINE.finditer(text):
        layer = match[1].strip() or layer
        crates.append(Crate(layer, match[2], match[3]))
    names = [crate.name for crate in crates]
    for name in edges:
        if names.count(name) != 1:
            raise Fault(f"docs/ARCHITECTURE.md: {name} has {names.count(name)} lines in the table of crates, not one")
    for crate in crates:
        if crate.name not in edges:
            raise Fault(f"docs/ARCHITECTURE.md: {crate.name} is no crate of crates.txt")
        if len(crate.phrase.split()) > LONGEST_PHRASE:
            raise Fault(f"docs/ARCHITECTURE.md: {crate.name} has a phrase of more than {LONGEST_PHRASE} words")
        later = [it for it in edges[crate.name] if names.index(it) > names.index(crate.name)]
        if later:
            raise Fault(f"docs/ARCHITECTURE.md: {crate.name} comes before {later[0]}, on which it stands")
    return crates


def reduced(edges: Edges) -> Edges:
    """The edges without those that follow from others."""
    below: dict[str, set[str]] = {}

    def all_below(name: str) -> set[str]:
        if name not in below:
            below[name] = set(edges[name]).union(*(all_below(it) for it in edges[name]))
        return below[name]

    return {name: [it for it in used if not any(it in all_below(other) for other in used)] for name, used in edges.items()}


# ---- the layers


def graph_of(crates: list[Crate], edges: Edges) -> str:
    """The layers as dot reads them: a cluster for each, with its crates, and a line from a crate up to each that stands on it."""
    colour = colours_of(crates)
    layer_of = {crate.name: crate.layer for crate in crates}
    font = 'fontname="DejaVu Sans,Verdana,Arial,sans-serif"'
    out = ["digraph layers {", f"rankdir=BT; newrank=true; nodesep=0.12; ranksep=0.35; {font};",
           f'node [shape=box, style="rounded,filled", fillcolor=white, {font}, fontsize=11, height=0.3, margin="0.08,0.03"];',
           "edge [arrowhead=none];",
           'fontsize=11; labelloc=b; label="Each name has r10_ before it. A line leads from a crate up to one that stands on it; a '
           'line that follows from others is left out.";']
    for place, (layer, tone) in enumerate(colour.items()):
        out.append(f'subgraph cluster_{place} {{ label="{layer}"; labeljust=l; fontsize=13; fontcolor="{tone}"; color="{tone}"; '
                   f'style="rounded,filled"; fillcolor="{tone}1a";')
        out += [f'{crate.name} [label="{shown(crate.name)}", color="{tone}", tooltip="{tip_of(crate)}"];'
                for crate in crates if crate.layer == layer]
        out.append("}")
    out += [f'{lower} -> {upper} [color="{colour[layer_of[lower]]}"];' for upper, lower in drawn(crates, edges)]
    return "\n".join([*out, "}", ""])


def colours_of(crates: list[Crate]) -> dict[str, str]:
    """The layers from the lowest up, and the colour of each."""
    layers = dict.fromkeys(crate.layer for crate in crates)
    return {layer: COLOURS[place % len(COLOURS)] for place, layer in enumerate(layers)}


def drawn(crates: list[Crate], edges: Edges) -> list[tuple[str, str]]:
    """The lines of the picture: a crate, and one that it stands on."""
    plain = {crate.name for crate in crates if crate.layer == WITHOUT_EDGES}
    return [(name, it) for name, used in reduced(edges).items() if name not in plain for it in used]


def shown(name: str) -> str:
    """A crate's name in the picture."""
    return name.removeprefix("r10_")


def tip_of(crate: Crate) -> str:
    """What is shown of a crate where a mouse is."""
    return f"{crate.name}: {crate.phrase}"


def layers_picture(graph: str) -> str:
    """The picture that dot draws of a graph."""
    try:
        done = subprocess.run(["dot", "-Tsvg"], input=graph, capture_output=True, text=True, encoding="utf-8")
    except FileNotFoundError:
        raise Fault("there is no dot to draw the layers with: it is in Debian's package graphviz") from None
    if done.returncode:
        raise Fault(f"dot does not draw the layers: {done.stderr.strip()}")
    return done.stdout


def check_layers(picture: str, crates: list[Crate], edges: Edges) -> None:
    """Whether a picture has these crates, in the colours of their layers, and these lines, and no others. Where it has them is left
    to dot, which places them by its version and by the fonts that are there."""
    spaces = {"s": "http://www.w3.org/2000/svg", "x": "http://www.w3.org/1999/xlink"}
    found: dict[str, list[tuple[str, ...]]] = {"cluster": [], "node": [], "edge": []}
    try:
        groups = tree.fromstring(picture).iterfind(".//s:g", spaces)
    except tree.ParseError as error:
        raise Fault(f"docs/pictures/layers.svg cannot be read: {error}") from None
    for group in groups:
        if group.get("class") in found:
            text = [it.text or "" for it in group.iterfind(".//s:text", spaces)]
            tips = [it.get(f"{{{spaces['x']}}}title") or "" for it in group.iterfind(".//s:a", spaces)]
            tones = [it.get("stroke") or "" for it in group.iterfind(".//s:path", spaces)]
            names = [] if group.get("class") == "cluster" else [group.findtext("s:title", "", spaces)]
            found[str(group.get("class"))].append((*names, *text, *tips, *tones))
    colour = colours_of(crates)
    tone_of = {crate.name: colour[crate.layer] for crate in crates}
    wanted: dict[str, list[tuple[str, ...]]] = {
        "cluster": [*colour.items()],
        "node": [(crate.name, shown(crate.name), tip_of(crate), tone_of[crate.name]) for crate in crates],
        "edge": [(f"{lower}->{upper}", tone_of[lower]) for upper, lower in drawn(crates, edges)],
    }
    for kind, there in found.items():
        other = sorted(set(there) ^ set(wanted[kind]))
        if other or len(there) != len(wanted[kind]):
            raise Fault(f"docs/pictures/layers.svg has not each {kind} that scripts/lint/pictures.py draws, and no other: "
                        f"{other[:1] or 'one is there twice'}: run it")


# ---- the data's way


def text_at(x: float, y: float, size: int, words: str, more: str = "") -> str:
    """A line of text around a place."""
    return f'<text x="{x:.0f}" y="{y:.0f}" font-size="{size}" {FONT} {more}>{escape(words)}</text>'


class Box(NamedTuple):
    """A box of the data's way."""

    column: int
    row: int
    title: str
    below: str


def data_of(name: str, edges: Edges) -> tuple[dict[int, str], dict[str, Box], list[tuple[str, str, str]]]:
    """Rows, boxes and arrows of a text in docs/pictures."""
    text = (FOLDER / name).read_text(encoding="utf-8")
    rows: dict[int, str] = {}
    boxes: dict[str, Box] = {}
    arrows: list[tuple[str, str, str]] = []
    for number, line in enumerate(text.splitlines(), 1):
        if not line.strip() or line.startswith("#"):
            continue
        head, _, rest = line.partition(": ")
        words = head.split()
        if words[0] == "row" and len(words) == 2:
            rows[int(words[1])] = rest
        elif words[0] == "box" and len(words) == 4:
            title, _, below = rest.partition("; ")
            boxes[words[1]] = Box(int(words[2]), int(words[3]), title, below)
        elif words[0] == "arrow" and len(words) == 3 and words[1] in boxes and words[2] in boxes:
            arrows.append((words[1], words[2], rest))
        else:
            raise Fault(f"docs/pictures/{name}: line {number} is no row, box or arrow between boxes")
    for crate in re.findall(r"\br10_\w+", text.split("\n\n", 1)[-1]):
        if crate not in edges:
            raise Fault(f"docs/pictures/{name}: {crate} is no crate of crates.txt")
    return rows, boxes, arrows


def data_picture(rows: dict[int, str], boxes: dict[str, Box], arrows: list[tuple[str, str, str]]) -> str:
    """The picture of the data's way: recording goes right, reading comes back left."""
    wide, high, step_x, step_y, left, top = 140, 48, 196, 130, 20, 40
    columns = max(box.column for box in boxes.values())
    width, height = left * 2 + step_x * (columns - 1) + wide, top + step_y * (len(rows) - 1) + high + 24
    corner: Places = {name: (left + step_x * (box.column - 1), top + step_y * (box.row - 1)) for name, box in boxes.items()}
    out = [f'<svg xmlns="http://www.w3.org/2000/svg" width="{width}" height="{height}" viewBox="0 0 {width} {height}">',
           '<defs><marker id="tip" viewBox="0 0 10 10" refX="9" refY="5" markerWidth="7" markerHeight="7" orient="auto"><path '
           'd="M0 0 L10 5 L0 10 z" fill="#333333"/></marker></defs>',
           f'<rect width="{width}" height="{height}" fill="#ffffff"/>']
    for row, label in rows.items():
        colour = COLOURS[row % len(COLOURS)]
        out.append(f'<rect x="6" y="{top + step_y * (row - 1) - 28}" width="{width - 12}" height="{high + 44}" rx="6" '
                   f'fill="{colour}" fill-opacity="0.10"/>')
        out.append(text_at(14, top + step_y * (row - 1) - 12, 13, label, f'font-weight="bold" fill="{colour}"'))
    for start, end, words in arrows:
        (x, y), (to_x, to_y) = corner[start], corner[end]
        if y == to_y:
            from_x, goal = (x + wide, to_x) if to_x > x else (x, to_x + wide)
            points = f"M{from_x} {y + high / 2:.0f} L{goal} {y + high / 2:.0f}"
            label_x, label_y, anchor = (from_x + goal) / 2, y + high / 2 - 6, "middle"
            if abs(goal - from_x) < 7 * len(words):
                label_y = y + high + 12
        elif x == to_x:
            points = f"M{x + wide / 2:.0f} {y + high} L{to_x + wide / 2:.0f} {to_y}"
            label_x, label_y, anchor = x + wide / 2 + 6, (y + high + to_y) / 2 - 8, "start"
        else:
            middle = (y + high + to_y) / 2 + 14
            points = (f"M{x + wide / 2:.0f} {y + high} L{x + wide / 2:.0f} {middle:.0f} "
                      f"L{to_x + wide / 2:.0f} {middle:.0f} L{to_x + wide / 2:.0f} {to_y}")
            label_x, label_y, anchor = (x + to_x + wide) / 2, middle - 5, "middle"
        out.append(f'<path d="{points}" fill="none" stroke="#333333" stroke-width="1.4" marker-end="url(#tip)"/>')
        out.append(text_at(label_x, label_y, 11, words, f'text-anchor="{anchor}" fill="#333333"'))
    for name, box in boxes.items():
        x, y = corner[name]
        out.append(f'<rect x="{x}" y="{y}" width="{wide}" height="{high}" rx="5" fill="#ffffff" '
                   f'stroke="{COLOURS[box.row % len(COLOURS)]}" stroke-width="1.6"/>')
        out.append(text_at(x + wide / 2, y + 19, 13, box.title, 'text-anchor="middle" font-weight="bold"'))
        out.append(text_at(x + wide / 2, y + 37, 10, box.below, 'text-anchor="middle" fill="#444444"'))
    return "\n".join(out) + "\n</svg>\n"


def main(words: list[str]) -> int:
    """Writes the pictures, or checks them."""
    if words not in ([], ["--check"]):
        print(__doc__, file=sys.stderr)
        return 2
    try:
        edges = edges_of((TOP / "crates.txt").read_text(encoding="utf-8"))
        crates = crates_of(PAGE.read_text(encoding="utf-8"), edges)
        layers = FOLDER / "layers.svg"
        if words:
            check_layers(layers.read_text(encoding="utf-8") if layers.is_file() else "", crates, edges)
        else:
            layers.write_text(layers_picture(graph_of(crates, edges)), encoding="utf-8")
        pictures = {
            "data.svg": data_picture(*data_of("data.txt", edges)),
            "recorder.svg": data_picture(*data_of("recorder.txt", edges)),
        }
        for name, picture in pictures.items():
            path = FOLDER / name
            if not words:
                path.write_text(picture, encoding="utf-8")
            elif not path.is_file() or path.read_text(encoding="utf-8") != picture:
                raise Fault(f"docs/pictures/{name} is not what scripts/lint/pictures.py draws: run it")
    except Fault as fault:
        print(f"pictures: {fault}", file=sys.stderr)
        return 1
    return 0


if __name__ == "__main__":
    sys.exit(main(sys.argv[1:]))
