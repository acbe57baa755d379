#!/usr/bin/env python3
"""All commands of ptu by brute force

  brute.py count FILE | header FILE | events FILE | run PLAN FILE | trace PLAN FILE | pick PLAN GROUP FILE | demo SEED COUNT

It says what ptu says, on standard output and standard error, and ends with its status. It should be given a few
thousand records at most: whatever can be counted by looking at everything is counted so. All pairs of photons are
looked at for coincidences, correlations and folds, and all markers before each photon of an image. It shares no code with
anything. Its reader of TOML is that of python 3.11, which reads TOML 1.0, where ptu reads TOML 1.1.

bench/fuzz.py calls what stands here. PTU_PLAN_VERSION=1 in the environment is for a program that reads only plans of
version 1.
"""

import bisect
import math
import os
import re
import struct
import sys
import tomllib
from collections import Counter, namedtuple
from collections.abc import Iterator
from typing import Any

GREATEST_VERSION = int(os.environ.get("PTU_PLAN_VERSION", "2"))

Event = namedtuple("Event", "place is_photon number dtime time")  # the input of a photon, or the bits of a marker

TYPES = {
    0x00010303: ("PicoHarpT3", "pico", 3, None),
    0x00010203: ("PicoHarpT2", "pico", 2, None),
    0x00010304: ("HydraHarpT3", "hydra", 3, True),
    0x00010204: ("HydraHarpT2", "hydra", 2, True),
    0x01010304: ("HydraHarp2T3", "hydra", 3, False),
    0x01010204: ("HydraHarp2T2", "hydra", 2, False),
    0x00010305: ("TimeHarp260NT3", "hydra", 3, False),
    0x00010205: ("TimeHarp260NT2", "hydra", 2, False),
    0x00010306: ("TimeHarp260PT3", "hydra", 3, False),
    0x00010206: ("TimeHarp260PT2", "hydra", 2, False),
    0x00010307: ("MultiHarpT3", "hydra", 3, False),
    0x00010207: ("MultiHarpT2", "hydra", 2, False),
}
TAG_TYPES = {
    0xFFFF0008: "tyEmpty8",
    0x00000008: "tyBool8",
    0x10000008: "tyInt8",
    0x11000008: "tyBitSet64",
    0x12000008: "tyColor8",
    0x20000008: "tyFloat8",
    0x21000008: "tyTDateTime",
    0x2001FFFF: "tyFloat8Array",
    0x4001FFFF: "tyAnsiString",
    0x4002FFFF: "tyWideString",
    0xFFFFFFFF: "tyBinaryBlob",
}
WITH_BODY = ("tyFloat8Array", "tyAnsiString", "tyWideString", "tyBinaryBlob")
HEADER_LIMIT = 2**24
PLAN_LIMIT = 65536
DEMO_PLAN = b"""[[group]]
inputs = [1]
[[group]]
inputs = [2]
[[trace]]
group = 1
width = 1048576
bins = 64
[[startstop]]
start = 1
stop = 2
width = 64
bins = 64
[[coincidence]]
first = 1
second = 2
reach = 256
width = 64
[[correlation]]
first = 1
second = 2
lags = 4
levels = 8
"""


class Refused(Exception):
    """A fault: the status and the line without its front."""

    def __init__(self, status: Any, line: Any) -> None:
        super().__init__(line)
        self.status, self.line = status, line


class NotCompared(Exception):
    """A text of which the two readers of TOML may think differently."""


# Headers.


def printable(data: Any, first: Any) -> Any:
    return "".join(chr(b) if first <= b <= 0x7E and b != 0x5C else f"\\x{b:02X}" for b in data)


def shown_value(kind: Any, value: Any, body: Any) -> Any:
    """The value of a tag as it is printed, with as much of its body as there is."""
    if kind in WITH_BODY:
        return f"{value} " + (printable(body.split(b"\0")[0], 0x20) if kind == "tyAnsiString" else body.hex().upper())
    if kind == "tyEmpty8":
        return "-"
    if kind == "tyBool8":
        return "true" if value else "false"
    return str(value) if kind == "tyInt8" else f"{value % 2**64:016X}"


def read_header(data: Any, out: Any) -> Any:
    """Puts the text of each item behind out, and gives the first value of each name and type, and where records begin."""
    whole = len(data)
    data = data[:HEADER_LIMIT]

    def ends(early: str = "") -> None:
        """What is refused where an item passes the end."""
        if early:
            out.append(early)
        if whole >= HEADER_LIMIT:
            raise Refused(16, "header longer than 16777216 bytes")
        raise Refused(11, f"header cut after {whole} bytes")

    if len(data) >= 6 and data[:6] != b"PQTTTR":
        raise Refused(10, "not a PTU file")
    if len(data) < 16:
        ends()
    out.append(f"magic {data[:8].hex().upper()}\nversion {data[8:16].hex().upper()}\n")
    tags: dict[Any, Any] = {}
    at, number, name = 16, 0, None
    while name != b"Header_End":
        if at + 48 > len(data):
            ends()
        number += 1
        ident, index, code, value = struct.unpack_from("<32siIq", data, at)
        name, at = ident.split(b"\0")[0], at + 48
        if code not in TAG_TYPES:
            raise Refused(12, f"tag {number} has type {code:08X}")
        kind = TAG_TYPES[code]
        tags.setdefault((name, kind), value)
        length = value if kind in WITH_BODY else 0
        if length < 0:
            raise Refused(13, f"tag {number} has length {length}")
        body = data[at : at + length]
        line = f"tag {printable(name, 0x21)} {index} {kind} {shown_value(kind, value, body)}"
        if len(body) < length:
            ends(line)
        out.append(line + "\n")
        at += length
    code = tags.get((b"TTResultFormat_TTTRRecType", "tyInt8"))
    if code is None:
        raise Refused(14, "no record type")
    if code not in TYPES:
        raise Refused(15, f"record type {code % 2**64:016X}")
    return tags, at


def type_of(tags: Any) -> Any:
    return TYPES[tags[b"TTResultFormat_TTTRRecType", "tyInt8"]]


# Records.


def hydra_meaning(word: Any, is_t2: Any, is_old: Any) -> Any:
    special, channel = word >> 31, word >> 25 & 63
    time = word & 0x1FFFFFF if is_t2 else word & 1023
    dtime = 0 if is_t2 else word >> 10 & 32767
    if special == 0:
        return "photon", channel + 1 if is_t2 else channel, dtime, time
    if channel == 63 and is_old:
        return "wrap", 0, 0, 33552000 if is_t2 else 1024
    if channel == 63:
        return "wrap", 0, 0, max(time, 1) * (2**25 if is_t2 else 2**10)
    if channel == 0 and is_t2:
        return "photon", 0, 0, time
    if 1 <= channel <= 15:
        return "marker", channel, 0, time
    return "reserved", 0, 0, 0


def pico_meaning(word: Any, is_t2: Any) -> Any:
    channel = word >> 28
    time = word & 0xFFFFFFF if is_t2 else word & 0xFFFF
    bits = word & 15 if is_t2 else word >> 16 & 15
    if channel <= 4:
        return "photon", channel, 0 if is_t2 else word >> 16 & 4095, time
    if channel <= 14:
        return "reserved", 0, 0, 0
    if bits == 0:
        return "wrap", 0, 0, 210698240 if is_t2 else 65536
    return "marker", bits, 0, time


def meaning(record_type: Any, word: Any) -> Any:
    """What a word is: its kind, its number, its dtime and its time field, or the amount of a wrap."""
    _, family, mode, is_old = record_type
    return pico_meaning(word, mode == 2) if family == "pico" else hydra_meaning(word, mode == 2, is_old)


def words_of(data: Any, start: Any) -> Any:
    end = start + (len(data) - start) // 4 * 4
    return [word for (word,) in struct.iter_unpack("<I", data[start:end])]


def left_over(data: Any, start: Any) -> None:
    rest = (len(data) - start) % 4
    if rest:
        raise Refused(17, f"{rest} bytes of a record at the end")


def read_records(record_type: Any, words: Any, policy: Any, take: Any) -> Any:
    """Gives each event with whether it is late, and answers how many records there are of each kind."""
    kinds: Counter[Any] = Counter()
    times: list[Any] = []
    base = 0
    for place, word in enumerate(words, 1):
        if place > policy["records"]:
            raise Refused(20, f"more than {policy['records']} records")
        kind, number, dtime, time = meaning(record_type, word)
        kinds[kind] += 1
        if kind == "reserved":
            if policy["reserved"] == "stop":
                raise Refused(18, f"record {place} is reserved: {word:08X}")
        elif kind == "wrap":
            base += time
            if base > 2**62:
                raise Refused(21, f"record {place} passes the greatest time")
        else:
            event = Event(place, kind == "photon", number, dtime, base + time)
            is_ordered = event.is_photon or record_type[2] == 3
            # Late are those that more than so many before them have overtaken: `times` is in order.
            is_late = is_ordered and len(times) - bisect.bisect_right(times, event.time) > policy["settle"]
            if is_late and policy["order"] == "stop":
                raise Refused(19, f"record {place} goes back from {times[-1]} to {event.time}")
            if is_ordered:
                bisect.insort(times, event.time)
            take(event, is_late)
    return kinds


NO_POLICY = {"order": "drop", "reserved": "skip", "records": 2**40, "settle": 0}


def count_of(kinds: Any) -> Any:
    return f"records {sum(kinds.values())}\n" + "".join(f"{kind}s {kinds[kind]}\n" for kind in ("photon", "marker", "wrap")) + f"reserved {kinds['reserved']}\n"


def count(data: Any, out: Any) -> None:
    tags, start = read_header(data, [])
    kinds = Counter(meaning(type_of(tags), word)[0] for word in words_of(data, start))
    left_over(data, start)
    out.append(f"type {type_of(tags)[0]}\nannounced {announced(tags)}\n{count_of(kinds)}")


def events(data: Any, out: Any) -> None:
    tags, start = read_header(data, [])

    def take(event: Any, is_late: Any) -> None:
        late = " late" if is_late else ""
        if event.is_photon:
            out.append(f"{event.place} photon {event.number} {event.time} {event.dtime}{late}\n")
        else:
            out.append(f"{event.place} marker {event.number} {event.time}{late}\n")

    read_records(type_of(tags), words_of(data, start), NO_POLICY, take)
    left_over(data, start)


# Plans.


def as_float(text: Any) -> Any:
    number = float(text)
    if math.isinf(number) and "inf" not in text:
        raise Refused(7, "plan is not TOML")  # ptu refuses a float that is too large
    return number


def look_at_numbers(value: Any, depth: Any) -> None:
    """Refuses integers that don't fit 64 bits. What nests deeper than 80 is not compared."""
    if depth > 80:
        raise NotCompared("it nests deep")
    if type(value) is int and not -(2**63) <= value < 2**63:
        raise Refused(7, "plan is not TOML")
    for inner in value.values() if type(value) is dict else value if type(value) is list else ():
        look_at_numbers(inner, depth + 1)


# What TOML 1.1 allows and TOML 1.0 doesn't: \e and \x, times without seconds, newlines and a last comma in {}.
NEW_IN_1_1 = re.compile(r"\\[ex]|\d\d:\d\d(?![:\d])|,[ \t]*\}")


def breaks_in_braces(text: Any) -> bool:
    """Whether a line may end within an inline table."""
    depth = 0
    for c in text:
        depth += (c == "{") - (c == "}")
        if c == "\n" and depth > 0:
            return True
    return False


def nests_deep(text: Any) -> Any:
    """Whether there may be 80 brackets in one another, or 80 points in a key."""
    depth = deepest = 0
    for c in text:
        depth += (c in "[{") - (c in "]}")
        deepest = max(depth, deepest)
    return deepest >= 80 or any(line.count(".") >= 80 for line in text.split("\n"))


def read_document(text: Any) -> Any:
    try:
        text = text.decode("utf-8")
    except UnicodeDecodeError:
        raise Refused(7, "plan is not TOML") from None
    text = text.removeprefix("\ufeff")
    try:
        document = tomllib.loads(text, parse_float=as_float)
    except (tomllib.TOMLDecodeError, RecursionError):
        if nests_deep(text):
            raise NotCompared("it nests deep") from None
        if NEW_IN_1_1.search(text) or breaks_in_braces(text):
            raise NotCompared("it may be TOML 1.1") from None
        raise Refused(7, "plan is not TOML") from None
    look_at_numbers(document, 0)
    return document


def is_within(value: Any, least: Any, greatest: Any) -> Any:
    return type(value) is int and least <= value <= greatest


def has_keys(table: Any, needed: Any, other: Any = ()) -> Any:
    return all(key in table for key in needed) and all(key in needed or key in other for key in table)


def is_gate(value: Any) -> Any:
    return type(value) is list and len(value) == 2 and all(is_within(n, 0, 32768) for n in value) and value[0] < value[1]


def are_inputs(value: Any) -> Any:
    good = type(value) is list and 1 <= len(value) <= 65 and all(is_within(n, 0, 64) for n in value)
    return good and all(a < b for a, b in zip(value, value[1:]))


def are_numbers(value: Any, groups: Any) -> Any:
    good = type(value) is list and 1 <= len(value) <= 6 and all(is_within(n, 1, groups) for n in value)
    return good and all(a < b for a, b in zip(value, value[1:]))


def are_gates(value: Any) -> Any:
    good = type(value) is list and 1 <= len(value) <= 8 and all(is_gate(gate) for gate in value)
    return good and all(a[1] <= b[0] for a, b in zip(value, value[1:]))


def are_shifts(tables: Any, at: Any, period: Any) -> Any:
    shift = tables[at]
    before = tables[at - 1]["input"] if at > 0 else -1
    return is_within(shift["input"], before + 1, 64) and is_within(shift["shift"], 0, period - 1)


MOST = {"group": 64, "histogram": 32, "trace": 32, "startstop": 16, "coincidence": 16, "image": 8, "correlation": 16}
NEW_MOST = {"shift": 65, "cube": 2, "fold": 8}


def broken_rules(document: Any) -> Iterator[Any]:
    """Each broken rule of a document with its index, where those before it hold, in their order."""
    has_new = document.get("version") == 2 and type(document.get("version")) is int and GREATEST_VERSION >= 2
    most = MOST | (NEW_MOST if has_new else {})
    known = ["version", "order", "reserved", "limits", *most] + (["period", "settle"] if has_new else [])
    yield 1, 0, all(key in known for key in document)
    yield 2, 0, is_within(document.get("version", 1), 1, GREATEST_VERSION)
    yield 3, 0, document.get("order", "drop") in ("drop", "stop")
    yield 4, 0, document.get("reserved", "skip") in ("skip", "stop")
    limits = document.get("limits", {})
    yield 5, 0, type(limits) is dict and has_keys(limits, (), ("records",)) and is_within(limits.get("records", 1), 1, 2**40)
    for at, key in enumerate(most, 1):
        tables = document.get(key, [])
        yield 6, at, type(tables) is list and all(type(table) is dict for table in tables)
    for at, key in enumerate(most, 1):
        yield 7, at, len(document.get(key, [])) <= most[key]
    groups = document.get("group", [])
    gate = "gates" if has_new else "gate"
    for at, group in enumerate(groups, 1):
        yield 8, at, has_keys(group, ("inputs",), (gate,))
    for at, group in enumerate(groups, 1):
        yield 9, at, are_inputs(group["inputs"])
    for at, group in enumerate(groups, 1):
        yield 10, at, gate not in group or (are_gates if has_new else is_gate)(group[gate])

    one_group = (1, len(groups))
    serpentine = ("serpentine",) if has_new else ()
    big = (1, 2**62)
    kinds: list[Any] = [
        ("histogram", 11, {"group": one_group, "width": (1, 32768), "bins": (1, 32768)}, {}),
        ("trace", 13, {"group": one_group, "width": big, "bins": (1, 2**20)}, {"origin": (0, 2**62)}),
        ("startstop", 15, {"start": one_group, "stop": one_group, "width": big, "bins": (1, 32768)}, {}),
        ("coincidence", 17, {"first": one_group, "second": one_group, "reach": (1, 2**20), "width": (1, 2**21)}, {}),
        ("image", 19, {"group": one_group, "width": (1, 2048), "height": (1, 2048), "dwell": big, "line": (1, 4)},
         {"frame": (1, 4), "stop": (1, 4)}),
        ("correlation", 21, {"first": one_group, "second": one_group, "lags": (2, 128), "levels": (1, 40)}, {}),
    ]
    for key, rule, needed, other in kinds:
        tables = document.get(key, [])
        more = serpentine if key == "image" else ()
        for at, table in enumerate(tables, 1):
            yield rule, at, has_keys(table, tuple(needed), tuple(other) + more)
        for at, table in enumerate(tables, 1):
            ranges = needed | other
            good = all(is_within(table[name], *ranges[name]) for name in table if name in ranges)
            good = good and type(table.get("serpentine", False)) is bool
            yield rule + 1, at, good and (key != "correlation" or table["lags"] % 2 == 0)
    if has_new:
        shifts = document.get("shift", [])
        period = document.get("period", 1)
        yield 23, 0, is_within(period, 1, 32768) and (not shifts or "period" in document)
        for at, shift in enumerate(shifts, 1):
            yield 24, at, has_keys(shift, ("input", "shift"))
        for at, shift in enumerate(shifts):
            yield 25, at + 1, are_shifts(shifts, at, period)
        yield 26, 0, is_within(document.get("settle", 0), 0, 64)
        cubes = document.get("cube", [])
        sides = {"width": (1, 2048), "height": (1, 2048)}
        needed = {"group": one_group, "dwell": big, "line": (1, 4), "dwidth": (1, 32768), "dbins": (1, 32768)} | sides
        other = {"frame": (1, 4), "stop": (1, 4)}
        for at, cube in enumerate(cubes, 1):
            yield 27, at, has_keys(cube, tuple(needed), (*other, "serpentine"))
        for at, cube in enumerate(cubes, 1):
            ranges = needed | other
            good = all(is_within(cube[name], *ranges[name]) for name in cube if name in ranges)
            yield 28, at, good and type(cube.get("serpentine", False)) is bool
        for at, cube in enumerate(cubes, 1):
            yield 29, at, cube["width"] * cube["height"] * cube["dbins"] <= 2**26
        folds = document.get("fold", [])
        for at, fold in enumerate(folds, 1):
            yield 30, at, has_keys(fold, ("groups", "window"))
        for at, fold in enumerate(folds, 1):
            yield 31, at, are_numbers(fold["groups"], len(groups)) and is_within(fold["window"], 1, 2**20)


def read_plan(text: Any) -> Any:
    """The document of a plan that is good."""
    if len(text) > PLAN_LIMIT:
        raise Refused(6, "plan longer than 65536 bytes")
    document = read_document(text)
    for rule, index, holds in broken_rules(document):
        if not holds:
            raise Refused(8, f"plan breaks rule {rule} at {index}")
    return document


def fits(plan: Any, mode: Any) -> None:
    """Refuses the first part that suits only the other mode."""
    gated = [at for at, group in enumerate(plan.get("group", []), 1) if "gate" in group or "gates" in group]
    only = {"gate": gated, "shift": plan.get("shift", []), "histogram": plan.get("histogram", [])}
    only |= {kind: plan.get(kind, []) for kind in ("image", "cube")}
    if mode == 3:
        only = {kind: plan.get(kind, []) for kind in ("startstop", "coincidence", "fold")}
    for kind, parts in only.items():
        if parts:
            raise Refused(9, f"{kind} {parts[0] if kind == 'gate' else 1} does not suit T{mode}")


# Tables.


def takes(group: Any, event: Any) -> Any:
    gates = [group["gate"]] if "gate" in group else group.get("gates")
    passes = gates is None or any(low <= event.dtime < high for low, high in gates)
    return event.is_photon and event.number in group["inputs"] and passes


def cell_lines(cells: Any) -> Any:
    return "".join(f"{cell} {cells[cell]}\n" for cell in sorted(cells))


def binned(values: Any, bins: Any) -> Any:
    """The lines of those that are in a bin, and how many are past the last one."""
    return cell_lines(Counter(value for value in values if value < bins)), sum(value >= bins for value in values)


def histogram(number: Any, table: Any, events: Any, groups: Any) -> str:
    width, bins = table["width"], table["bins"]
    lines, over = binned([e.dtime // width for e in events if takes(groups[table["group"] - 1], e)], bins)
    return f"histogram {number} width {width} bins {bins}\n{lines}over {over}\n"


def trace(number: Any, table: Any, events: Any, groups: Any) -> str:
    origin, width, bins = table.get("origin", 0), table["width"], table["bins"]
    times = [e.time for e in events if takes(groups[table["group"] - 1], e)]
    lines, beyond = binned([(time - origin) // width for time in times if time >= origin], bins)
    before = sum(time < origin for time in times)
    return f"trace {number} origin {origin} width {width} bins {bins}\n{lines}before {before}\nbeyond {beyond}\n"


def start_stop(number: Any, table: Any, events: Any, groups: Any) -> str:
    start, stop = groups[table["start"] - 1], groups[table["stop"] - 1]
    photons = [e for e in events if takes(start, e) or takes(stop, e)]
    neighbours = zip(photons, photons[1:])
    between = [b.time - a.time for a, b in neighbours if takes(start, a) and takes(stop, b)]
    lines, over = binned([time // table["width"] for time in between], table["bins"])
    return f"startstop {number} width {table['width']} bins {table['bins']}\n{lines}over {over}\n"


def members(table: Any, events: Any, groups: Any) -> Any:
    """The places and times of the photons of the first group, and those of the second."""
    first, second = groups[table["first"] - 1], groups[table["second"] - 1]
    firsts = [(place, e.time) for place, e in enumerate(events) if takes(first, e)]
    seconds = [(place, e.time) for place, e in enumerate(events) if takes(second, e)]
    return firsts, seconds


def coincidence(number: Any, table: Any, events: Any, groups: Any) -> str:
    reach, width = table["reach"], table["width"]
    firsts, seconds = members(table, events, groups)
    cells: Counter[Any] = Counter()
    for i, t_i in firsts:
        for j, t_j in seconds:
            if i != j and abs(t_j - t_i) <= reach:
                cells[(t_j - t_i + reach) // width] += 1
    return f"coincidence {number} reach {reach} width {width}\n{cell_lines(cells)}"


def correlation(number: Any, table: Any, events: Any, groups: Any) -> Any:
    lags, levels = table["lags"], table["levels"]
    lines = f"correlation {number} lags {lags} levels {levels}\n"
    firsts, seconds = members(table, events, groups)
    for level in range(levels):
        bins_i = [time // 2**level for _, time in firsts]
        bins_j = [time // 2**level for _, time in seconds]
        cells = Counter(j - i for i in bins_i for j in bins_j)
        for lag in range(1 if level == 0 else lags // 2 + 1, lags + 1):
            if cells[lag] > 0:
                lines += f"{level} {lag} {cells[lag]}\n"
    return lines


def has(event: Any, bit: Any) -> Any:
    """Whether it is a marker with this bit."""
    return not event.is_photon and bit is not None and event.number // 2 ** (bit - 1) % 2 == 1


def place_of(photon: Any, earlier: Any, table: Any) -> Any:
    """The column and row of a photon by all events before it, or None."""
    bit, frame, stop = table["line"], table.get("frame"), table.get("stop")
    lines = [place for place, e in enumerate(earlier) if has(e, bit)]
    if not lines:
        return None
    line = lines[-1]
    if any(has(e, stop) for e in earlier[line + 1 :]):
        return None
    frames = [place for place in range(line + 1) if has(earlier[place], frame)]
    if frame is not None and not frames:
        return None
    first = frames[-1] if frames else 0
    row = sum(first <= place <= line for place in lines) - 1
    if frame is None:
        row %= table["height"]
    column = (photon.time - earlier[line].time) // table["dwell"]
    if column >= table["width"] or row >= table["height"]:
        return None
    return (table["width"] - 1 - column if table.get("serpentine") and row % 2 == 1 else column, row)


def image(number: Any, table: Any, events: Any, groups: Any) -> Any:
    group = groups[table["group"] - 1]
    cells: Counter[Any] = Counter()
    for place, event in enumerate(events):
        if takes(group, event):
            cells[place_of(event, events[:place], table)] += 1
    outside = cells.pop(None, 0)
    lines = f"image {number} width {table['width']} height {table['height']} dwell {table['dwell']}\n"
    for x, y in sorted(cells, key=lambda cell: (cell[1], cell[0])):
        lines += f"{x} {y} {cells[x, y]}\n"
    return lines + f"outside {outside}\n"


def cube(number: Any, table: Any, events: Any, groups: Any) -> Any:
    group = groups[table["group"] - 1]
    cells: Counter[Any] = Counter()
    for place, event in enumerate(events):
        if takes(group, event):
            pixel = place_of(event, events[:place], table)
            cells[pixel and (*pixel, event.dtime // table["dwidth"])] += 1
    outside = cells.pop(None, 0)
    sizes = f"width {table['width']} height {table['height']} dwell {table['dwell']} dwidth {table['dwidth']} dbins {table['dbins']}"
    lines = f"cube {number} {sizes}\n"
    for x, y, b in sorted(cells, key=lambda cell: (cell[1], cell[0], cell[2])):
        if b < table["dbins"]:
            lines += f"{x} {y} {b} {cells[x, y, b]}\n"
    over = sum(times for (_, _, b), times in cells.items() if b >= table["dbins"])
    return lines + f"outside {outside}\nover {over}\n"


def fold(number: Any, table: Any, events: Any, groups: Any) -> Any:
    members = [groups[n - 1] for n in table["groups"]]
    photons = [event for event in events if any(takes(group, event) for group in members)]
    cells: Counter[Any] = Counter()
    for first in photons:
        window = [other for other in photons if first.time <= other.time <= first.time + table["window"]]
        cells[sum(2**k for k, group in enumerate(members) if any(takes(group, other) for other in window))] += 1
    return f"fold {number} window {table['window']} sets {2 ** len(members)}\n" + cell_lines(cells)


KINDS = {
    "histogram": histogram,
    "trace": trace,
    "startstop": start_stop,
    "coincidence": coincidence,
    "image": image,
    "correlation": correlation,
    "cube": cube,
    "fold": fold,
}


def announced(tags: Any) -> Any:
    return tags.get((b"TTResult_NumberOfRecords", "tyInt8"), "-")


def float_bits(tags: Any, name: Any) -> Any:
    value = tags.get((name, "tyFloat8"))
    return "-" if value is None else f"{value % 2**64:016X}"


def run(plan_text: Any, data: Any, out: Any) -> None:
    plan = read_plan(plan_text)
    report(plan, data, out)


def shifted(event: Any, plan: Any) -> Any:
    """The photon with the dtime that its input's shift gives it."""
    shifts = [shift["shift"] for shift in plan.get("shift", []) if shift["input"] == event.number]
    if not event.is_photon or not shifts:
        return event
    return event._replace(dtime=(event.dtime + shifts[0]) % plan["period"])


def policy_of(plan: Any) -> Any:
    policy = {key: plan.get(key, NO_POLICY[key]) for key in ("order", "reserved", "settle")}
    return policy | {"records": plan.get("limits", {}).get("records", 2**40)}


def in_place(plan: Any, taken: Any, mode: Any) -> Any:
    """The events that aren't late, in the order in which tables are told of them."""
    on_time = [event for event, is_late in taken if not is_late]
    if plan.get("settle", 0):
        # Events that were overtaken are put in their places, and those without an order are left out.
        on_time = sorted((event for event in on_time if event.is_photon or mode == 3), key=lambda event: int(event.time))
    return on_time


def settled_list(plan: Any, taken: Any, mode: Any) -> Any:
    """Those of them whose place no event behind these can change."""
    events = in_place(plan, taken, mode)
    return events[: max(0, len(events) - plan.get("settle", 0))]


def kept_list(plan: Any, taken: Any, mode: Any) -> Any:
    """The events that aren't late, each photon with its shifted dtime."""
    return [shifted(event, plan) for event in in_place(plan, taken, mode)]


def report(plan: Any, data: Any, out: Any) -> None:
    tags, start = read_header(data, [])
    record_type = type_of(tags)
    fits(plan, record_type[2])
    policy = policy_of(plan)
    taken = []
    kinds = read_records(record_type, words_of(data, start), policy, lambda event, is_late: taken.append((event, is_late)))
    left_over(data, start)
    late = sum(is_late for _, is_late in taken)
    kept = kept_list(plan, taken, record_type[2])
    out.append(f"type {record_type[0]}\nannounced {announced(tags)}\n")
    out.append(f"global {float_bits(tags, b'MeasDesc_GlobalResolution')}\nresolution {float_bits(tags, b'MeasDesc_Resolution')}\n")
    out.append(count_of(kinds))
    out.append(f"late {late}\nfirst {kept[0].time if kept else '-'}\nlast {kept[-1].time if kept else '-'}\n")
    for kind, text in KINDS.items():
        for number, table in enumerate(plan.get(kind, []), 1):
            out.append(text(number, table, kept, plan["group"]))


def bins_met(plan: Any, table: Any, kept: Any) -> Any:
    """The counts of the bins that aren't empty by their numbers, and the number before the origin."""
    group, origin, width = plan["group"][table["group"] - 1], table.get("origin", 0), table["width"]
    times = [event.time for event in kept if takes(group, event)]
    return Counter((time - origin) // width for time in times if time >= origin), sum(time < origin for time in times)


def endless(plan: Any, data: Any, out: Any) -> None:
    """The first trace of a plan without end."""
    tags, start = read_header(data, [])
    record_type = type_of(tags)
    fits(plan, record_type[2])
    table = plan["trace"][0]
    out.append(f"trace 1 origin {table.get('origin', 0)} width {table['width']}\n")
    taken = []
    try:
        read_records(record_type, words_of(data, start), policy_of(plan), lambda event, is_late: taken.append((event, is_late)))
        left_over(data, start)
    except Refused:
        cells, _ = bins_met(plan, table, [shifted(event, plan) for event in settled_list(plan, taken, record_type[2])])
        out.extend(f"{cell} {cells[cell]}\n" for cell in sorted(cells)[:-1])
        raise
    cells, before = bins_met(plan, table, kept_list(plan, taken, record_type[2]))
    out.extend(f"{cell} {cells[cell]}\n" for cell in sorted(cells))
    frequencies = Counter(cells.values())
    frequencies[0] = max(cells, default=-1) + 1 - len(cells)
    out.append(f"before {before}\n")
    out.extend(f"frequency {often} {frequencies[often]}\n" for often in range(1024) if frequencies[often])
    out.append(f"above {sum(bins for often, bins in frequencies.items() if often >= 1024)}\n")


def picked_words(photons: Any, mode: Any) -> Any:
    """The records of a file of these photons."""
    unit, words, units = 2**25 if mode == 2 else 1024, [], 0
    for photon in photons:
        more, units = photon.time // unit - units, photon.time // unit
        while more > 0:
            words.append(0xFE000000 + min(more, unit - 1))
            more -= min(more, unit - 1)
        if mode == 3:
            words.append(photon.number * 2**25 + photon.dtime * 1024 + photon.time % unit)
        else:
            words.append((2**31 if photon.number == 0 else (photon.number - 1) * 2**25) + photon.time % unit)
    return words


def pick(plan: Any, group: Any, data: Any, out: Any) -> None:
    """A file of the photons of a group."""
    tags, start = read_header(data, [])
    record_type = type_of(tags)
    mode = record_type[2]
    fits(plan, mode)
    taken = []

    def write(photons: Any) -> None:
        out.append(minimal_file(0x01010204 if mode == 2 else 0x01010304, picked_words(photons, mode)).decode("latin-1"))

    def chosen(events: Any) -> Any:
        """The photons of the group before the first that is too late to be written, and that one, if there is one."""
        photons = [event for event in events if takes(group, shifted(event, plan))]
        late = [at for at, photon in enumerate(photons) if photon.time - photon.time % (2**25 if mode == 2 else 1024) > 2**62]
        return (photons[: late[0]], photons[late[0]]) if late else (photons, None)

    def write_chosen(events: Any) -> None:
        """Writes them, and refuses the one that is too late."""
        photons, late = chosen(events)
        write(photons)
        if late:
            raise Refused(24, f"record {late.place} is too late to write")

    try:
        read_records(record_type, words_of(data, start), policy_of(plan), lambda event, is_late: taken.append((event, is_late)))
        left_over(data, start)
    except Refused:
        write_chosen(settled_list(plan, taken, mode))
        raise
    write_chosen(in_place(plan, taken, mode))


def minimal_file(code: Any, words: Any, more: bytes = b"") -> Any:
    """A file of a record type and these words, with other tags before the last."""
    tag = struct.pack("<32siIq", b"TTResultFormat_TTTRRecType", -1, 0x10000008, code)
    end = struct.pack("<32siIq", b"Header_End", -1, 0xFFFF0008, 0)
    return b"PQTTTR\0\0001.0.00\0\0" + tag + more + end + struct.pack(f"<{len(words)}I", *words)


def demo(seed: int, number: Any, out: Any) -> None:
    state, time, words = seed, 0, []
    for _ in range(number):
        state = (state * 6364136223846793005 + 1442695040888963407) % 2**64
        gap, channel = state // 2**33 % 512, state // 2**33 // 512 % 2
        if (time + gap) // 2**25 > time // 2**25:
            words.append(0xFE000001)
        time += gap
        words.append(channel * 2**25 + time % 2**25)
    run(DEMO_PLAN, minimal_file(0x01010204, words), out)


# The program.


def contents(name: Any, slot: Any) -> Any:
    try:
        file = open(name, "rb")
    except OSError as error:
        if not isinstance(error, IsADirectoryError):
            raise Refused(2, f"cannot open the {slot}") from None
        raise Refused(3, f"cannot read the {slot}") from None
    with file:
        return file.read()


def is_number(word: Any, most: Any) -> Any:
    return re.fullmatch(b"[0-9]{1,20}", word) is not None and int(word) <= most


def answer_words(words: Any, out: Any) -> None:
    what = words[0] if words else b""
    if any(not is_text(word) for word in words):
        raise Refused(1, "bad command line")
    if len(words) == 2 and what in (b"count", b"header", b"events"):
        data = contents(words[1], "data")
        {b"count": count, b"header": read_header, b"events": events}[what](data, out)
    elif len(words) == 3 and what == b"run":
        plan = read_plan(contents(words[1], "plan"))
        report(plan, contents(words[2], "data"), out)
    elif len(words) == 3 and what == b"trace":
        plan = read_plan(contents(words[1], "plan"))
        if not plan.get("trace"):
            raise Refused(22, "plan has no trace")
        endless(plan, contents(words[2], "data"), out)
    elif len(words) == 4 and what == b"pick" and is_number(words[2], 2**64 - 1):
        plan, number = read_plan(contents(words[1], "plan")), int(words[2])
        if not 1 <= number <= len(plan.get("group", [])):
            raise Refused(23, f"plan has no group {number}")
        pick(plan, plan["group"][number - 1], contents(words[3], "data"), out)
    elif len(words) == 3 and what == b"demo" and is_number(words[1], 2**64 - 1) and is_number(words[2], 10_000_000):
        demo(int(words[1]), int(words[2]), out)
    else:
        raise Refused(1, "bad command line")


def is_text(word: Any) -> bool:
    try:
        word.decode("utf-8")
    except UnicodeDecodeError:
        return False
    return True


def answer(words: Any) -> Any:
    """The status, standard output and standard error of some words."""
    out: list[Any] = []
    try:
        answer_words(words, out)
    except Refused as refused:
        text = "".join(out) if words[:1] in ([b"header"], [b"events"], [b"trace"], [b"pick"]) else ""
        return refused.status, text.encode("latin-1"), f"ptu: {refused.line}\n".encode()
    return 0, "".join(out).encode("latin-1"), b""


def main() -> None:
    status, text, error = answer([os.fsencode(word) for word in sys.argv[1:]])
    sys.stdout.buffer.write(text)
    sys.stderr.buffer.write(error)
    sys.exit(status)


if __name__ == "__main__":
    main()
