#!/usr/bin/env python3
"""Draws the crates as a house, docs/crates.svg, the picture of architecture.md: make_picture.py [--check]

The floors are the groups of crates in architecture.md, the lowest at the bottom, and a crate's box has its name and the
beginning of what its lib.rt or main.rt says. Two ways are drawn on it, that of a byte to a count and that of a wrong byte to a
status, as WAYS below tells them: each step must be in a crate that stands on the one before it, or on which that one stands, by
crates.txt. A crate on which the program doesn't stand has a dashed border. The picture follows the reader's light or dark
theme. With --check nothing is written, and it ends with 1 where the picture isn't current.
"""

import re
import textwrap
from dataclasses import dataclass
from html import escape

import make_crates
import make_proved
from made_parts import ROOT, finish, read

PICTURE = "docs/crates.svg"
WIDTH, LEFT, BOX, HEIGHT, GAP, ACROSS = 960, 112, 160, 58, 8, 5  # of the picture, the floors' names, and the boxes
LETTERS, LINES = 31, 3  # of a line, and lines in a box

# The steps of each way: the crate, and what happens there.
WAYS = {
    "count": [
        ("ptu_cli", "a read gives a piece of the file"),
        ("command_work", "the bytes after the header go on"),
        ("report_work", "the work of run: to the engine"),
        ("tally_engine", "which feeds its stream of records"),
        ("record_stream", "four bytes are a record"),
        ("lane_decode", "its fields, for eight records at once"),
        ("abs_time", "its absolute time; late or not"),
        ("gate_plan", "the groups that the photon is in"),
        ("tally_engine", "each table is given the block of events"),
        ("tcspc_hist", "one more in the cell of its dtime"),
        ("table_out", "the cell's line of the report"),
        ("ptu_cli", "standard output takes it"),
    ],
    "status": [
        ("ptu_cli", "a read gives a piece of the file"),
        ("command_work", "its first bytes go to the header's reader"),
        ("ptu_header", "a tag of an unknown type: refused"),
        ("tally_base", "a fault, with its status and line"),
        ("command_work", "nothing more is read"),
        ("ptu_cli", "the line goes to standard error"),
        ("ptu", "the program ends with the status"),
    ],
}
TITLES = {"count": "A byte becomes a count", "status": "A wrong byte becomes a status"}

STYLE = """
  svg { --ground: #ffffff; --floor: #f1f3f6; --box: #ffffff; --line: #9aa4b2; --text: #1b1f24; --soft: #57606a; --count: #0b62c4; --status: #b42318; }
  @media (prefers-color-scheme: dark) {
    svg { --ground: #0d1117; --floor: #171c24; --box: #212832; --line: #57606a; --text: #e6edf3; --soft: #a3adb8; --count: #6cb0ff; --status: #ff8f80; }
  }
  text { font-family: "DejaVu Sans", Verdana, sans-serif; font-size: 8.6px; fill: var(--soft); }
  .ground { fill: var(--ground); } .floor { fill: var(--floor); }
  .box { fill: var(--box); stroke: var(--line); } .aside { stroke-dasharray: 4 3; }
  .name { font-size: 11px; font-weight: bold; fill: var(--text); } .title { font-size: 11px; font-weight: bold; fill: var(--text); }
  .step { font-size: 8.6px; font-weight: bold; fill: var(--ground); text-anchor: middle; }
  .count { fill: var(--count); } .status { fill: var(--status); }
  path { fill: none; stroke-width: 1.6; opacity: 0.45; } path.count { stroke: var(--count); fill: none; } path.status { stroke: var(--status); fill: none; }
"""


@dataclass
class Floor:
    """A group of crates: its name, and its crates."""

    name: str
    crates: list[str]


def floors(crates: list[str]) -> list[Floor]:
    """The groups of crates in architecture.md, from the bottom up, as make_crates.py puts them there."""
    text = read(make_crates.PAGE)
    names = re.findall(r"^\*\*(.+?)\*\*\n\n<!-- made by docs/make_crates\.py: ", text, flags=re.M)
    return [Floor(name, group) for name, group in zip(names, make_proved.parts(text, crates, make_crates.PART), strict=True)]


def below() -> dict[str, set[str]]:
    """All that each crate stands on, at once or by others; the lowest come first in crates.txt."""
    found: dict[str, set[str]] = {}
    for line in read("crates.txt").split("\n"):
        name, colon, stands = line.partition(":")
        if colon:
            found[name] = {one for direct in stands.split() for one in {direct, *found.get(direct, set())}}
    return found


def said(crate: str) -> str:
    """The first line of a crate: what it is for."""
    sources = [ROOT / "crates" / crate / "src" / name for name in ("lib.rt", "main.rt")]
    lines = next(path for path in sources if path.exists()).read_text("utf-8").split("\n")
    return make_proved.comment([line for line in lines if line.startswith("//!")])


def in_box(text: str) -> list[str]:
    """The beginning of what is said, up to a full stop, a colon or a bracket, and where that is long up to a comma."""
    short = re.split(r"[.:] |[.:]$| \(", text.replace("`", ""))[0]
    while len(textwrap.wrap(short, LETTERS)) > LINES and "," in short:
        short = short.rpartition(",")[0]
    return textwrap.wrap(short, LETTERS)[:LINES]


def check_ways(stands: dict[str, set[str]]) -> None:
    for way in WAYS.values():
        for (one, _), (other, _) in zip(way, way[1:], strict=False):
            if other not in stands.get(one, set()) and one not in stands.get(other, set()) and not hangs(one, other, stands):
                raise SystemExit(f"docs/make_picture.py: a way goes from {one} to {other}, which crates.txt doesn't join")


def hangs(one: str, other: str, stands: dict[str, set[str]]) -> bool:
    """Neither stands on the other, but one above calls both of them with what it has of the other."""
    return any({one, other} <= found for found in stands.values()) and one in stands and other in stands


def box(crate: str, x: int, y: int, stands: dict[str, set[str]]) -> tuple[str, str]:
    """The box of a crate, and the words in it, which stand above the ways."""
    aside = " aside" if crate not in {"ptu", *stands["ptu"]} else ""
    title = escape(f"{crate}: {said(crate)}")
    lines = "".join(f'<text x="{x + 6}" y="{y + 27 + 11 * k}">{escape(line)}</text>' for k, line in enumerate(in_box(said(crate))))
    words = f'<g><title>{title}</title><text class="name" x="{x + 6}" y="{y + 14}">{crate}</text>{lines}</g>'
    return f'<rect class="box{aside}" x="{x}" y="{y}" width="{BOX}" height="{HEIGHT}" rx="5"><title>{title}</title></rect>', words


def badges(places: dict[str, tuple[int, int]]) -> dict[str, list[tuple[int, int]]]:
    """Where the number of each step stands: at the upper right of its box, side by side where a box has several."""
    taken: dict[str, int] = {}
    found: dict[str, list[tuple[int, int]]] = {}
    for way, steps in WAYS.items():
        for crate, _ in steps:
            x, y = places[crate]
            found.setdefault(way, []).append((x + BOX - 9 - 15 * taken.get(crate, 0), y + 9))
            taken[crate] = taken.get(crate, 0) + 1
    return found


def drawn_way(way: str, at: list[tuple[int, int]]) -> tuple[list[str], list[str]]:
    """The curves from step to step, and the numbers on them."""
    curves, marks = [], []
    for (x, y), (to_x, to_y) in zip(at, at[1:], strict=False):
        first, last = (y - 26, to_y - 26) if y == to_y else (y + (to_y - y) // 3, to_y - (to_y - y) // 3)
        curves.append(f'<path class="{way}" d="M{x} {y} C{x} {first} {to_x} {last} {to_x} {to_y}"/>')
    for number, (x, y) in enumerate(at, 1):
        marks.append(f'<circle class="{way}" cx="{x}" cy="{y}" r="7"/><text class="step" x="{x}" y="{y + 3}">{number}</text>')
    return curves, marks


def legend(y: int) -> list[str]:
    """The steps of both ways in words, in two columns."""
    parts = []
    for column, (way, steps) in enumerate(WAYS.items()):
        x = 16 + column * 560
        parts.append(f'<text class="title {way}" x="{x}" y="{y}">{TITLES[way]}</text>')
        half = (len(steps) + 1) // 2 if len(steps) > 8 else len(steps)
        for k, (crate, words) in enumerate(steps):
            across, down = x + (k // half) * 270, y + 16 + 13 * (k % half)
            parts.append(f'<text x="{across}" y="{down}"><tspan class="{way}" font-weight="bold">{k + 1}</tspan> {crate}: {escape(words)}</text>')
    return parts


def picture() -> str:
    stands = below()
    check_ways(stands)
    parts: list[str] = []
    words: list[str] = []
    places: dict[str, tuple[int, int]] = {}
    y = 12
    for floor in reversed(floors(list(stands))):
        rows = -(-len(floor.crates) // ACROSS)
        high = rows * (HEIGHT + GAP) + GAP
        parts.append(f'<rect class="floor" x="8" y="{y}" width="{WIDTH - 16}" height="{high}" rx="6"/>')
        parts += [f'<text class="title" x="16" y="{y + 22 + 14 * k}">{escape(line)}</text>' for k, line in enumerate(textwrap.wrap(floor.name, 13))]
        for k, crate in enumerate(floor.crates):
            places[crate] = LEFT + (k % ACROSS) * (BOX + GAP), y + GAP + (k // ACROSS) * (HEIGHT + GAP)
            under, above = box(crate, *places[crate], stands)
            parts.append(under)
            words.append(above)
        y += high + 6
    ways = [drawn_way(way, at) for way, at in badges(places).items()]
    parts += [line for way in ways for line in way[0]] + words + [mark for way in ways for mark in way[1]] + legend(y + 20)
    high = y + 44 + 13 * 6
    head = f'<svg xmlns="http://www.w3.org/2000/svg" viewBox="0 0 {WIDTH} {high}" width="{WIDTH}" height="{high}" role="img" aria-label="The crates as floors of a house, and the ways of a byte to a count and of a wrong byte to a status">'
    note = "<!-- made by docs/make_picture.py -->"
    return "\n".join([head, note, f"<style>{STYLE}</style>", f'<rect class="ground" width="{WIDTH}" height="{high}"/>', *parts, "</svg>"]) + "\n"


if __name__ == "__main__":
    finish({PICTURE: picture()})
