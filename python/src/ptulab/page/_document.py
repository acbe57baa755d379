"""The page as a text: what is in it from a report or a name is escaped where it is put in."""

from __future__ import annotations

import base64
import hashlib
import html
import json
import math
from collections.abc import Iterable, Sequence
from importlib import resources
from typing import Any

import numpy as np
from numpy.typing import NDArray

from ..headers import other_records
from ..report import Head
from ._figures import ROWS, Curve, Figure, Picture, limits_of, measured, thinned
from ._plain import plain_picture

DIGITS = 9  # that numbers have in the page
KEYS = "With the keys: arrows go from point to point, Home and End to the first and the last."
HEAD = {
    "type": "record type", "announced": "records announced by the header", "global": "a tick, or a sync period",
    "resolution": "a tick of the dtime",
    "records": "records", "photons": "photons", "markers": "markers", "wraps": "wraps", "reserved": "reserved words", "late": "late events",
    "first": "first event",
    "last": "last event",
}


def escaped(value: Any) -> str:
    """A value as text of HTML, also within quotes; control characters, which HTML can't show, as question marks."""
    return html.escape("".join(letter if letter.isprintable() or letter in "\n\t" else "\ufffd" for letter in str(value)))


def script_json(value: Any) -> str:
    """A value as JSON that is safe within a script element."""
    text = json.dumps(value, allow_nan=False, separators=(",", ":"))
    return text.replace("&", "\\u0026").replace("<", "\\u003c").replace(">", "\\u003e")


def whole_page(title: str, told: Sequence[tuple[str, str]], plan_text: str | None, head: Head | str, figures: Sequence[Figure], plotly: str) -> str:
    """The whole document. ``told`` are the lines of the heading, ``plotly`` the library's script, ``head`` that of a report, or
    the numbers that Python found where there is no report."""
    own = _resource("page.js")
    rules = f"default-src 'none'; img-src data: blob:; style-src 'unsafe-inline'; script-src {_digest(plotly)} {_digest(own)}"
    parts = [
        '<!doctype html>\n<html lang="en">\n<head>\n<meta charset="utf-8">',
        f'<meta http-equiv="Content-Security-Policy" content="{rules}">',
        '<meta name="viewport" content="width=device-width, initial-scale=1">\n<meta name="color-scheme" content="light dark">',
        f"<title>{escaped(title)}</title>\n<style>\n{_resource('page.css')}</style>\n</head>\n<body>",
        '<a class="skip" href="#figures">To the plots</a>',
        f"<header>\n<h1>{escaped(title)}</h1>\n{_heading(told, plan_text, head)}</header>",
        f'<nav aria-label="Plots"><ul>{"".join(_link(figure) for figure in figures)}</ul></nav>',
        f'<main id="figures" tabindex="-1">\n{"".join(map(_section, figures))}</main>',
        f'<script type="application/json" id="numbers">{script_json([_numbers(figure) for figure in figures])}</script>',
        f"<script>{plotly}</script>\n<script>{own}</script>\n</body>\n</html>\n",
    ]
    return "\n".join(parts)


def _resource(name: str) -> str:
    return resources.files(__package__).joinpath(name).read_text(encoding="utf-8")


def _digest(script: str) -> str:
    """The word by which a browser runs this script and no other."""
    return "'sha256-" + base64.b64encode(hashlib.sha256(script.encode()).digest()).decode() + "'"


# ## The heading


def _heading(told: Sequence[tuple[str, str]], plan_text: str | None, head: Head | str) -> str:
    if isinstance(head, str):
        return f'{_lines(told)}<h2>Numbers</h2>\n<pre tabindex="0">{escaped(head)}</pre>\n{_plan(plan_text)}'
    return f"{_lines([*told, *_in_short(head)])}{_warnings(head)}{_plan(plan_text)}{_head(head)}"


def _lines(told: Iterable[tuple[str, str]]) -> str:
    return '<dl class="head">' + "".join(f"<dt>{escaped(word)}</dt><dd>{escaped(value)}</dd>" for word, value in told) + "</dl>\n"


def _in_short(head: Head) -> list[tuple[str, str]]:
    told = [("type", head.record_type), ("photons", f"{head.photons:,}")]
    told += [("markers", f"{head.markers:,}")] if head.markers else []
    tick = head.global_seconds
    if head.first is not None and head.last is not None and tick is not None and math.isfinite(tick) and tick > 0:
        told.append(("length", measured((head.last - head.first) * tick, "s")))
    return told


def _warnings(head: Head) -> str:
    said = []
    if odd := other_records(head.announced, head.records):
        said.append(f"{odd[0].upper()}{odd[1:]}.")
    if head.late:
        said.append(f"{head.late:,} events are late, and in no table.")
    return "".join(f'<p class="warn">{escaped(line)}</p>\n' for line in said)


def _plan(text: str | None) -> str:
    return "" if text is None else f'<details><summary>The plan</summary><pre tabindex="0">{escaped(text)}</pre></details>\n'


def _head(head: Head) -> str:
    unit = "ticks" if head.mode == "T2" else "sync periods"
    lines = []
    for word, value in head.items():
        said = "not told" if value is None else f"{value:,}" if isinstance(value, int) else value
        if isinstance(value, float):
            said = f"{value:.9g} s"
        lines.append((HEAD[word], f"{said} {unit}" if word in ("first", "last") and value is not None else said))
    return f"<details><summary>The head of the report</summary>{_lines(lines)}</details>\n"


# ## The figures


def _link(figure: Figure) -> str:
    return f'<li><a href="#{escaped(figure.name)}">{escaped(figure.title)}</a></li>'


def _section(figure: Figure) -> str:
    name, title = escaped(figure.name), escaped(figure.title)
    begin = f'<section id="{name}" aria-labelledby="{name}-title">\n<h2 id="{name}-title">{title}</h2>\n'
    begin += f'<p id="{name}-summary">{escaped(figure.summary)}</p>\n'
    if not _points(figure):
        return f"{begin}</section>\n"
    kind = "picture" if isinstance(figure, Picture) else "curve"
    return (
        f'{begin}<noscript><img class="plain" alt="{title}" aria-describedby="{name}-summary" src="{plain_picture(figure)}"></noscript>\n'
        f'<figure id="{name}-figure" hidden>\n<div class="controls">{_controls(figure)}</div>\n'
        f'<div id="{name}-plot" class="plot {kind}" tabindex="0" role="application" aria-label="{title}" '
        f'aria-describedby="{name}-summary {name}-keys"></div>\n<p id="{name}-said" class="said" role="status" aria-live="polite"></p>\n'
        f'<p id="{name}-keys" class="faint">{KEYS}</p>\n</figure>\n{_table(figure)}</section>\n'
    )


def _points(figure: Figure) -> int:
    return len(figure.xs) if isinstance(figure, Curve) else figure.values.size


def _controls(figure: Figure) -> str:
    name = escaped(figure.name)
    if isinstance(figure, Picture):
        most = int(figure.photons.max(initial=1))
        return (
            f'<label for="{name}-threshold">pixels with at least</label><input type="range" id="{name}-threshold" min="0" max="{most}" '
            f'value="{figure.threshold}" aria-valuetext="{figure.threshold} photons">'
            f'<span><output id="{name}-bound" for="{name}-threshold">{figure.threshold:,}</output> photons</span>'
        )
    boxes = []
    if figure.log is not None:
        boxes.append(("log", "logarithmic counts", figure.log))
    if figure.start is not None:
        boxes.append(("all", "all delays, those with great errors too", False))
    return "".join(
        f'<label><input type="checkbox" id="{name}-{part}"{" checked" if checked else ""}> {words}</label>' for part, words, checked in boxes
    )


def _table(figure: Figure) -> str:
    """The values of a figure as a table, every n-th where there are many."""
    if isinstance(figure, Picture):
        return _table_of_rows(figure)
    step = math.ceil(len(figure.xs) / ROWS)
    caption = f"{figure.title}: every {step}th of {len(figure.xs):,} values" if step > 1 else f"{figure.title}: {len(figure.xs):,} values"
    heads = [figure.xlabel, figure.ylabel, *(["error"] if figure.errors is not None else [])]
    rows = []
    for place in range(0, len(figure.xs), step):
        first = figure.names[place] if figure.names is not None else f"{figure.xs[place]:.6g}"
        rows.append([first, f"{figure.ys[place]:.6g}", *([] if figure.errors is None else [f"{figure.errors[place]:.3g}"])])
    return _rows(caption, heads, rows)


def _table_of_rows(figure: Picture) -> str:
    """Of a picture its rows: their photons, and the mean of what is drawn, weighted by photons."""
    step = math.ceil(len(figure.photons) / ROWS)
    caption = f"{figure.title}: the rows, {f'every {step}th' if step > 1 else 'each'} with all its photons"
    of_photons = figure.unit == "photons"
    rows = []
    for y in range(0, len(figure.photons), step):
        photons = figure.photons[y].astype(np.float64)
        mean = float(np.nansum(photons * figure.values[y]) / photons.sum()) if photons.any() else math.nan
        rows.append([f"{y * figure.block}", f"{photons.sum():,.0f}", *([] if of_photons else ["" if math.isnan(mean) else f"{mean:.5g}"])])
    return _rows(caption, ["row", "photons", *([] if of_photons else [figure.label])], rows)


def _rows(caption: str, heads: Sequence[str], rows: Sequence[Sequence[str]]) -> str:
    head = "".join(f'<th scope="col">{escaped(word)}</th>' for word in heads)
    body = "".join(f'<tr><th scope="row">{escaped(row[0])}</th>{"".join(f"<td>{escaped(cell)}</td>" for cell in row[1:])}</tr>\n' for row in rows)
    return (
        f'<details><summary>Values as a table</summary><div class="rows" tabindex="0" role="region" aria-label="{escaped(caption)}"><table>'
        f"<caption>{escaped(caption)}</caption><thead><tr>{head}</tr></thead><tbody>{body}</tbody></table></div></details>\n"
    )


# ## The numbers that the script draws


def _numbers(figure: Figure) -> dict[str, Any] | None:
    if not _points(figure):
        return None
    if isinstance(figure, Picture):
        return _pixels(figure)
    places = thinned(figure)
    return {
        "kind": "curve" if figure.names is None else "bars", "name": figure.name,
        "x": _listed(figure.xs[places]), "y": _listed(figure.ys[places]), "errors": None if figure.errors is None else _listed(figure.errors[places]), "names": figure.names, "xlabel": figure.xlabel,
        "ylabel": figure.ylabel, "xunit": figure.xunit, "yunit": figure.yunit, "xlog": figure.xlog, "shape": figure.shape, "start": figure.start,
        "level": figure.level, "choice": figure.log is not None,
        "more": [{"label": one.label, "x": _listed(one.xs), "y": _listed(one.ys)} for one in figure.more],
    }


def _pixels(figure: Picture) -> dict[str, Any]:
    rows, columns = figure.photons.shape
    of_photons = figure.unit == "photons"
    least, most = limits_of(figure)
    return {
        "kind": "picture", "name": figure.name, "rows": rows, "columns": columns, "block": figure.block, "label": figure.label,
        "unit": figure.unit, "micrometres": figure.micrometres,
        "photons": packed(figure.photons), "values": None if of_photons else packed(figure.values.astype("<f4")), "zmin": least,
        "zmax": most, "colours": figure.colours,
    }


def packed(array: NDArray[Any]) -> dict[str, str]:
    """An array as base64, of counts in as few bytes as hold them."""
    if array.dtype.kind != "f":
        most = int(array.max(initial=0))
        array = array.astype("<u1" if most < 1 << 8 else "<u2" if most < 1 << 16 else "<u4" if most < 1 << 32 else "<f8")
    return {"kind": array.dtype.str[1:], "base64": base64.b64encode(array.tobytes()).decode()}


def _listed(values: NDArray[np.float64]) -> list[float | int | None]:
    """Numbers as JSON has them: whole ones without a point, and none for what is no number."""
    return [None if not math.isfinite(x) else int(x) if x == int(x) else float(f"{x:.{DIGITS}g}") for x in values.tolist()]
