#!/usr/bin/env python3
"""Random files, plans and words for ptu, and what it says to them beside what bench/brute.py says.

  bench/fuzz.py [-n CASES] [-s SEED] [-j WORKERS] [-f FIRST] [-o FOLDER] PROGRAM

Each case is one run of PROGRAM. Its status, its standard output and its standard error must be those of brute.py,
byte by byte. The cases are CASES from number FIRST on, 1000000 and 0 by default; a case is made by its number and
SEED alone. A case that differs is kept in FOLDER, /tmp/ptu_fuzz by default: its words, its files, and what both
said. At the end it prints how often each status came, and how many cases were not compared. Ends with status 1
where a case differs, or where one of the statuses 0 to 23 never came in 100000 cases or more. (24 takes more than
2^34 records.)

Not compared but for ending with a status of ptu: plans that python's reader of TOML refuses, which reads TOML 1.0,
and that have something that TOML 1.1 allows anew; and documents that nest deeper than 80, which is as deep as ptu
reads. What is refused as no TOML is one line, so which fault of several is found first is not seen. Standard output
is not compared where it can't be written: there the status is 4 wherever anything would have been written.

It needs Linux and python 3.11. No file is written where nothing differs: what ptu reads stands in memory.
"""

import ast
import fcntl
import getopt
import os
import random
import selectors
import signal
import struct
import sys
import time
from collections import Counter
from collections.abc import Callable
from typing import Any, cast

import brute
from brute import TAG_TYPES, TYPES, WITH_BODY

PIPE_ROOM = 1 << 20
KNOWN_NAMES = [b"TTResultFormat_TTTRRecType", b"TTResult_NumberOfRecords", b"MeasDesc_GlobalResolution", b"MeasDesc_Resolution"]
TAG_CODES = list(TAG_TYPES)
CODE_OF = {name: code for code, name in TAG_TYPES.items()}


# Headers.


def a_name(rng: random.Random) -> Any:
    kind = rng.randrange(6)
    if kind == 0:
        return rng.choice(KNOWN_NAMES + [b"Header_End "])
    if kind == 1:
        return rng.randbytes(rng.randrange(33))
    if kind == 2:
        return bytes(rng.choice(b"ab\\ ~!\x7f\x00\x20") for _ in range(rng.randrange(33)))
    return rng.choice([b"", b"A", b"HWInpChan_Enabled", b"x" * 31, b"x" * 32, b"File_Comment\0junk"])


def a_length(rng: random.Random) -> Any:
    kind = rng.randrange(40)
    if kind == 0:
        return rng.choice([-1, -(2**63), -rng.randrange(1, 2**40)])
    if kind == 1:
        return rng.choice([2**63 - 1, 2**24, 2**24 - 64, rng.randrange(2**62)])
    return rng.choice([0, 1, 2, 3, 8, rng.randrange(40), rng.randrange(300)])


def tag_bytes(ident: Any, index: Any, code: Any, value: Any) -> Any:
    return struct.pack("<32siIq", ident, index, code, (value + 2**63) % 2**64 - 2**63)


def a_tag(rng: random.Random) -> Any:
    code = rng.choice(TAG_CODES)
    if rng.randrange(30) == 0:
        code = rng.choice([0, 8, 0x30000008, code ^ 1 << rng.randrange(32), rng.randrange(2**32)])
    index = rng.choice([-1, -1, 0, 1, 2**31 - 1, -(2**31), rng.randrange(-(2**31), 2**31)])
    if TAG_TYPES.get(code) not in WITH_BODY:
        value = rng.choice([0, 1, -1, 2**63 - 1, -(2**63), rng.randrange(-(2**63), 2**63), rng.randrange(100)])
        return tag_bytes(a_name(rng), index, code, value)
    length = a_length(rng)
    body: Callable[[int], bytes] = rng.choice([rng.randbytes, lambda n: bytes(rng.choice(b"ab \\~\x7f\x00\x1f") for _ in range(n)), lambda n: b"z" * n])
    return tag_bytes(a_name(rng), index, code, length) + body(length if 0 <= length < 400 else rng.randrange(200))


def a_known_tag(rng: random.Random) -> Any:
    """A tag that is read, of its own type or of another."""
    name = rng.choice(KNOWN_NAMES[1:])
    code = CODE_OF["tyInt8"] if name == KNOWN_NAMES[1] else CODE_OF["tyFloat8"]
    if rng.randrange(5) == 0:
        code = rng.choice([c for c in TAG_CODES if TAG_TYPES[c] not in WITH_BODY])
    return tag_bytes(name, -1, code, rng.choice([0, -1, 9, rng.randrange(-(2**63), 2**63)]))


def a_type_tag(rng: random.Random, code: Any) -> Any:
    kind = rng.randrange(40)
    if kind == 0:
        return b""
    if kind == 1:
        return tag_bytes(KNOWN_NAMES[0], 0, CODE_OF["tyBool8"], code)
    if kind == 2:
        code = rng.choice([0x00010308, code + 2**32, -code, 0, rng.randrange(-(2**63), 2**63)])
    return tag_bytes(KNOWN_NAMES[0], rng.choice([-1, 0, 7]), CODE_OF["tyInt8"], code)


def an_end_tag(rng: random.Random) -> Any:
    if rng.randrange(10):
        return tag_bytes(b"Header_End", -1, CODE_OF["tyEmpty8"], 0)
    if rng.randrange(10) == 0:
        return b""
    if rng.randrange(2):
        return tag_bytes(b"Header_End\0more", 3, rng.choice(TAG_CODES[:7]), rng.randrange(100))
    length = rng.randrange(60)
    return tag_bytes(b"Header_End", -1, rng.choice(TAG_CODES[7:]), length) + rng.randbytes(length)


def a_header(rng: random.Random, code: Any) -> Any:
    tags = [a_tag(rng) for _ in range(rng.choice([0, 0, 1, 2, 3, rng.randrange(12)]))]
    tags += [a_known_tag(rng) for _ in range(rng.randrange(4))]
    tags += [a_type_tag(rng, code) for _ in range(1 if rng.randrange(10) else 2)]
    rng.shuffle(tags)
    magic = b"PQTTTR\0\0" if rng.randrange(20) else rng.choice([b"PQTTTR" + rng.randbytes(2), b"PQHISTO\0", b"PQTTTS\0\0", rng.randbytes(8)])
    return magic + rng.choice([b"1.0.00\0\0", rng.randbytes(8)]) + b"".join(tags) + an_end_tag(rng)


def a_hostile_file(rng: random.Random) -> Any:
    """A file whose header is looked at: with whatever tags, cut or changed."""
    data = a_header(rng, rng.choice(list(TYPES))) + rng.randbytes(rng.choice([0, 4, 8, rng.randrange(40)]))
    kind = rng.randrange(8)
    if kind == 0:
        return data[: rng.randrange(len(data) + 1)]
    if kind == 1:
        return data[: rng.choice([0, 1, 5, 6, 7, 15, 16, 17, 63, 64, 65])]
    if kind == 2:
        data = bytearray(data)
        for _ in range(rng.randrange(1, 4)):
            data[rng.randrange(len(data))] = rng.choice([0, 255, rng.randrange(256)])
    return bytes(data)


# Records.


def hydra_word(rng: random.Random, is_t2: Any, time: Any, kind: Any) -> Any:
    mask, low = (2**25 - 1, 0) if is_t2 else (1023, rng.choice([0, 1, 100, 4096, 32767, rng.randrange(32768)]) << 10)
    field = time & mask
    if kind == "photon":
        return rng.choice([0, 0, 1, 2, 63, rng.randrange(64)]) << 25 | low | field
    if kind == "sync":
        return 1 << 31 | low | field
    if kind == "marker":
        return 1 << 31 | rng.choice([1, 2, 3, 4, 8, 15, rng.randrange(1, 16)]) << 25 | low | field
    if kind == "reserved":
        return 1 << 31 | rng.choice([16, 62, rng.randrange(16, 63)]) << 25 | low | field
    return 1 << 31 | 63 << 25 | low | rng.choice([0, 1, 1, 1, 2, 3, rng.randrange(mask + 1) if rng.randrange(20) == 0 else 1])


def pico_word(rng: random.Random, is_t2: Any, time: Any, kind: Any) -> Any:
    if kind == "reserved":
        return rng.randrange(5, 15) << 28 | rng.randrange(2**28)
    if is_t2:
        if kind in ("photon", "sync"):
            return rng.choice([0, 0, 1, rng.randrange(5)]) << 28 | time & 0xFFFFFFF
        bits = rng.randrange(1, 16) if kind == "marker" else 0
        return 15 << 28 | time & 0xFFFFFF0 | bits
    dtime = rng.choice([0, 1, 100, 4095, rng.randrange(4096)])
    if kind in ("photon", "sync"):
        return rng.choice([0, 0, 1, rng.randrange(5)]) << 28 | dtime << 16 | time & 0xFFFF
    bits = rng.randrange(1, 16) if kind == "marker" else 0
    return 15 << 28 | (dtime & 0xFF0 | bits) << 16 | time & 0xFFFF


def some_words(rng: random.Random, code: Any) -> Any:
    """Words of a record type, with times that mostly rise."""
    _, family, mode, _ = TYPES[code]
    make = hydra_word if family == "hydra" else pico_word
    number = rng.choice([0, 1, 2, 5, rng.randrange(20), rng.randrange(60)])
    if rng.randrange(4) == 0:
        return [rng.choice([rng.randrange(2**32), 0, 2**32 - 1, 0xFE000000, 0xF0000000, 1 << rng.randrange(32)]) for _ in range(number)]
    most = rng.choice([1, 3, 20, 300])
    weights = rng.choice([(12, 1, 3, 1, 0), (4, 1, 4, 1, 1), (20, 0, 0, 1, 0), (1, 1, 1, 1, 1)])
    kinds = rng.choices(["photon", "sync", "marker", "wrap", "reserved"], weights, k=number)
    # Where several inputs are merged, an event comes up to so much too late.
    delay = rng.choice([0, 0, 0, most, 4 * most])
    time, words = 0, []
    for kind in kinds:
        time += rng.randrange(most)
        if rng.randrange(15) == 0:
            time = max(0, time - rng.randrange(2 * most))
        words.append(make(rng, mode == 2, time + rng.randrange(delay + 1), kind))
    return words


def a_file(rng: random.Random, code: Any) -> Any:
    """A good file of the type, at times with other tags and with bytes left over."""
    words = some_words(rng, code)
    more = b"".join(a_known_tag(rng) for _ in range(rng.randrange(3))) if rng.randrange(3) == 0 else b""
    left = rng.randbytes(rng.randrange(4)) if rng.randrange(12) == 0 else b""
    return brute.minimal_file(code, words, more) + left


def a_long_file(rng: random.Random, code: Any) -> Any:
    """Thousands of words: so many of the greatest wrap that they pass the greatest time, or end just before."""
    if rng.randrange(2):
        words = [0xFFFFFFFF] * rng.randrange(4094, 4099) + [rng.randrange(2**32) for _ in range(rng.randrange(3))]
        return brute.minimal_file(rng.choice([0x01010204, 0x00010205, 0x00010207]), words)
    return brute.minimal_file(code, [word for _ in range(40) for word in some_words(rng, code)])


# Plans. A value of a plan is an integer, a text, a truth value, a list, a dict, or raw TOML.


class Raw(str):
    """A value as it stands in the text."""


ODD_VALUES = [
    Raw("1.0"), Raw("1e0"), Raw("-0.0"), Raw("inf"), Raw("-nan"), Raw("1e400"), Raw("true"), Raw("false"), Raw("1979-05-27"),
    Raw("07:32:00"), Raw("1979-05-27T07:32:00Z"), Raw("1979-05-27 00:32:00.999999-07:00"), Raw("2023-02-30"), Raw("''"),
    Raw('"1"'), Raw("[]"), Raw("{}"), Raw("[[]]"), Raw("[1]"), Raw("[{}]"), Raw("{ a = 1 }"), Raw("-1"), Raw("0"), Raw("+0"),
    Raw("9223372036854775807"), Raw("9223372036854775808"), Raw("-9223372036854775808"), Raw("0x7fff_ffff_ffff_ffff"),
    Raw("0xFFFFFFFFFFFFFFFF"), Raw("0o17"), Raw("0b1"), Raw("01"), Raw("1_000"), Raw("1__0"), Raw("_1"), Raw("'''drop'''"),
    Raw('"""\ndrop"""'), Raw('"\\u0064rop"'), Raw('"dr\\qop"'), Raw("4611686018427387904"), Raw("4611686018427387905"),
    Raw("1048576"), Raw("1048577"), Raw("32768"), Raw("32769"), Raw("2048"), Raw("2049"), Raw("64"), Raw("65"), Raw("3"),
]


def a_group(rng: random.Random, mode: Any, version: Any) -> Any:
    inputs = sorted(rng.sample(range(65), rng.randrange(1, 6))) if rng.randrange(3) else rng.choice([[0], [1], [0, 1], [0, 1, 2, 3], list(range(65))])
    group: dict[str, Any] = {"inputs": inputs}
    if rng.randrange(4) == 0 and (mode == 3 or rng.randrange(8) == 0):
        ends = sorted(rng.sample(range(32769), 2 * rng.randrange(1, 4)))
        gates = [list(pair) for pair in zip(ends[::2], ends[1::2])]
        if version == 2:
            group["gates"] = gates
        else:
            group["gate"] = rng.choice(gates + [[0, 4096], [100, 101]])
    return group


def number_to(rng: random.Random, most: Any, usual: Any) -> Any:
    return rng.randrange(1, usual + 1) if rng.randrange(12) else rng.choice([1, most, rng.randrange(1, most + 1)])


def a_part(rng: random.Random, kind: Any, groups: Any, version: Any) -> Any:
    one: Callable[[], int] = lambda: rng.randrange(1, groups + 1)
    width: Callable[[], int] = lambda: rng.choice([1, 2, 7, 64, 2**62, rng.randrange(1, 1000)])
    if kind == "histogram":
        return {"group": one(), "width": number_to(rng, 32768, 500), "bins": number_to(rng, 32768, 100)}
    if kind == "trace":
        part = {"group": one(), "width": width(), "bins": number_to(rng, 2**20 if rng.randrange(40) == 0 else 1000, 60)}
        return part | ({"origin": rng.choice([0, 5, 100, 2**62, rng.randrange(2000)])} if rng.randrange(2) else {})
    if kind == "startstop":
        return {"start": one(), "stop": one(), "width": width(), "bins": number_to(rng, 32768, 60)}
    if kind == "coincidence":
        reach = number_to(rng, 2**20 if rng.randrange(40) == 0 else 3000, 200)
        return {"first": one(), "second": one(), "reach": reach, "width": number_to(rng, 2**21, 30)}
    if kind == "correlation":
        return {"first": one(), "second": one(), "lags": 2 * number_to(rng, 64, 6), "levels": number_to(rng, 40, 8)}
    if kind == "cube":
        return a_cube(rng, groups)
    if kind == "fold":
        numbers = sorted(rng.sample(range(1, groups + 1), rng.randrange(1, min(groups, 6) + 1)))
        return {"groups": numbers, "window": number_to(rng, 2**20 if rng.randrange(40) == 0 else 3000, 60)}
    side = 2048 if rng.randrange(100) == 0 else 60
    part = {"group": one(), "width": number_to(rng, side, 9), "height": number_to(rng, side, 9), "dwell": number_to(rng, 2**62, 60), "line": rng.randrange(1, 5)}
    part |= {key: rng.randrange(1, 5) for key in ("frame", "stop") if rng.randrange(2)}
    return part | ({"serpentine": rng.randrange(3) > 0} if version == 2 and rng.randrange(2) else {})


def a_cube(rng: random.Random, groups: Any) -> Any:
    """A cube whose cells are mostly few, and now and then as many as may be."""
    part = a_part(rng, "image", groups, 2)
    part["dwidth"] = number_to(rng, 32768, 500)
    part["dbins"] = min(number_to(rng, 32768, 60), 2**26 // (part["width"] * part["height"]))
    if part["width"] * part["height"] * part["dbins"] > 2**18 and rng.randrange(50):
        part["dbins"] = 1
    return part


def a_plan(rng: random.Random, mode: Any) -> Any:
    """A plan that is good and mostly suits the mode."""
    version = 2 if brute.GREATEST_VERSION == 2 and rng.randrange(3) == 0 else 1
    plan: dict[str, Any] = {"version": version} if version == 2 or rng.randrange(3) == 0 else {}
    if rng.randrange(5) == 0:
        plan["order"] = rng.choice(["drop", "stop"])
    if rng.randrange(5) == 0:
        plan["reserved"] = rng.choice(["skip", "stop"])
    if rng.randrange(6) == 0:
        plan["limits"] = {"records": rng.choice([1, 2, 5, 2**40, rng.randrange(1, 60)])} if rng.randrange(8) else {}
    groups = rng.choice([0, 1, 1, 2, 2, 3, rng.randrange(65) if rng.randrange(10) == 0 else 2])
    if groups or rng.randrange(4) == 0:
        plan["group"] = [a_group(rng, mode, version) for _ in range(groups)]
    suits = ["histogram", "trace", "image", "correlation"] if mode == 3 else ["trace", "startstop", "coincidence", "correlation"]
    if version == 2:
        suits.append("cube" if mode == 3 else "fold")
    most = brute.MOST | (brute.NEW_MOST if version == 2 else {})
    for kind in suits if rng.randrange(12) else [kind for kind in brute.KINDS if kind in most]:
        parts = rng.choice([0, 0, 1, 1, 2, rng.randrange(12) if rng.randrange(10) == 0 else 1]) if groups else 0
        if parts or rng.randrange(10) == 0:
            plan[kind] = [a_part(rng, kind, groups, version) for _ in range(min(parts, most[kind]))]
    if version == 2 and (rng.randrange(3) == 0 and mode == 3 or rng.randrange(20) == 0):
        plan["period"] = rng.choice([1, 100, 4096, 32768, rng.randrange(1, 32769)])
        inputs = sorted(rng.sample(range(65), rng.randrange(4)) if rng.randrange(3) else range(rng.randrange(4)))
        if rng.randrange(4):
            plan["shift"] = [{"input": n, "shift": rng.randrange(plan["period"])} for n in inputs]
    if version == 2 and rng.randrange(2):
        plan["settle"] = rng.choice([0, 1, 1, 2, 3, 4, 64, rng.randrange(65)])
    return plan


def an_odd_value(rng: random.Random) -> Any:
    return rng.choice(ODD_VALUES) if rng.randrange(3) else rng.choice([rng.randrange(-5, 70), rng.randrange(2**63)])


def change_table(rng: random.Random, table: Any) -> None:
    """Changes one thing of a table, at any depth."""
    keys = list(table)
    kind = rng.randrange(6)
    if not keys or kind == 0:
        table[rng.choice(["gate", "gates", "origin", "frame", "stop", "serpentine", "settle", "dwidth", "dbins", "groups", "window", "records", "a", "", "width", "Group"])] = an_odd_value(rng)
        return
    key = rng.choice(keys)
    if kind == 1:
        del table[key]
    elif kind == 2 and type(table[key]) is not list:
        table[key] = an_odd_value(rng)
    elif type(table[key]) is dict:
        change_table(rng, table[key])
    elif type(table[key]) is list and table[key]:
        change_list(rng, table[key])
    else:
        table[key] = an_odd_value(rng)


def change_list(rng: random.Random, values: Any) -> None:
    kind, at = rng.randrange(6), rng.randrange(len(values))
    if kind == 0:
        values[at] = an_odd_value(rng)
    elif kind == 1:
        values.insert(at, values[-1])
    elif kind == 2:
        del values[at]
    elif kind == 3:
        values[:] = (values * 70)[: rng.choice([8, 9, 16, 17, 32, 33, 64, 65, 66])]
    elif type(values[at]) is dict:
        change_table(rng, values[at])
    elif type(values[at]) is list and values[at]:
        change_list(rng, values[at])
    else:
        values[at] = an_odd_value(rng)


def change_plan(rng: random.Random, plan: Any) -> None:
    kind = rng.randrange(8)
    if kind == 0:
        key = rng.choice(["version", "order", "reserved", "limits", "period", "settle", "settles", "groups", "Version", *brute.MOST, *brute.NEW_MOST])
        plan[key] = an_odd_value(rng)
    elif kind == 1:
        plan["version"] = rng.choice([0, 1, 2, 3, -1, Raw("1.0"), Raw("true"), Raw("'1'")])
    else:
        change_table(rng, plan)


# Writing plans as TOML.


def space(rng: random.Random) -> Any:
    return rng.choice(["", "", " ", " ", "\t", "  "])


def int_text(rng: random.Random, value: Any) -> Any:
    kind = rng.randrange(12)
    if value < 0 or kind > 4:
        return str(value)
    text = {0: f"0x{value:x}", 1: f"0o{value:o}", 2: f"0b{value:b}", 3: f"+{value}", 4: f"{value:_}"}[kind]
    return text.upper().replace("0X", "0x") if kind == 0 and rng.randrange(2) else text


def str_text(rng: random.Random, value: Any) -> Any:
    kind = rng.randrange(6)
    if kind == 0:
        return f"'{value}'"
    if kind == 1:
        return f"'''{value}'''"
    if kind == 2:
        return f'"""\n{value}"""'
    if kind == 3:
        return '"' + "".join(rng.choice([c, f"\\u{ord(c):04x}", f"\\U{ord(c):08X}"]) for c in value) + '"'
    return f'"{value}"'


def key_text(rng: random.Random, key: Any) -> Any:
    if key == "" or rng.randrange(15) == 0:
        return rng.choice([f'"{key}"', f"'{key}'", str_text(rng, key).replace('"""\n', '"').replace('"""', '"').replace("'''", "'")])
    return key


def blank(rng: random.Random) -> Any:
    return rng.choice(["", "", "", " ", "\n", "\r\n", " # c\n", "\n\t"])


def value_text(rng: random.Random, value: Any) -> Any:
    if isinstance(value, Raw):
        return str(value)
    if type(value) is bool:
        return "true" if value else "false"
    if type(value) is int:
        return int_text(rng, value)
    if type(value) is str:
        return str_text(rng, value)
    if type(value) is list:
        texts = [blank(rng) + value_text(rng, inner) + blank(rng) for inner in value]
        return "[" + ",".join(texts) + rng.choice(["", "," if texts else ""]) + blank(rng) + "]"
    pairs = [f"{space(rng)}{key_text(rng, key)}{space(rng)}={space(rng)}{value_text(rng, inner)}{space(rng)}" for key, inner in value.items()]
    return "{" + ",".join(pairs) + "}"


def pair_line(rng: random.Random, key: Any, value: Any) -> Any:
    return f"{space(rng)}{key}{space(rng)}={space(rng)}{value_text(rng, value)}{space(rng)}" + rng.choice(["", "", "", "# comment"]) + end_of_line(rng)


def end_of_line(rng: random.Random) -> Any:
    return "\n" if rng.randrange(10) else rng.choice(["\r\n", "\n\n", "\n # comment \t\n"])


def tables_text(rng: random.Random, key: Any, tables: Any) -> Any:
    """An array of tables under headers, each of which may say its keys by dots."""
    text = ""
    for table in tables:
        text += f"{space(rng)}[[{space(rng)}{key_text(rng, key)}{space(rng)}]]" + end_of_line(rng)
        text += "".join(pair_line(rng, key_text(rng, name), value) for name, value in shuffled(rng, table.items()))
    return text


def shuffled(rng: random.Random, things: Any) -> Any:
    things = list(things)
    if rng.randrange(3) == 0:
        rng.shuffle(things)
    return things


def plan_text(rng: random.Random, plan: Any) -> Any:
    front, back = [], []
    for key, value in shuffled(rng, plan.items()):
        if type(value) is list and value and all(type(table) is dict for table in value) and rng.randrange(4):
            back.append(tables_text(rng, key, value))
        elif type(value) is dict and value and rng.randrange(2):
            if rng.randrange(2):
                front += [pair_line(rng, f"{key_text(rng, key)}{space(rng)}.{space(rng)}{key_text(rng, name)}", inner) for name, inner in value.items()]
            else:
                back.append(f"[{key_text(rng, key)}]\n" + "".join(pair_line(rng, key_text(rng, name), inner) for name, inner in value.items()))
        else:
            front.append(pair_line(rng, key_text(rng, key), value))
    text = "".join(front + back)
    return text.removesuffix("\n") if rng.randrange(4) == 0 else text


TOML_PIECES = list("[]{}=,.\"'\n\r\t #+-_:019eEZTxob\\\0\x7f") + [
    "[[", "]]", '"""', "'''", "true", "inf", "nan", "\r\n", "1979-05-27", "07:32:00", ".999", "\\u00e9", "\\", "é", "\ufeff", "a", "\nversion = 1\n", "0x", "{}",
]


def change_text(rng: random.Random, text: Any) -> Any:
    """The text with some places changed."""
    data = bytearray(text)
    for _ in range(rng.choice([1, 1, 1, 2, 3])):
        at = rng.randrange(len(data) + 1)
        kind = rng.randrange(5)
        if kind == 0:
            data[at : at + rng.choice([1, 1, 2, 9])] = b""
        elif kind == 1:
            data[at:at] = bytes([rng.randrange(256)])
        elif kind == 2 and len(data) > 0:
            other = rng.randrange(len(data))
            data[at:at] = data[other : other + rng.randrange(1, 30)]
        else:
            data[at : at + rng.randrange(2)] = rng.choice(TOML_PIECES).encode()
    return bytes(data)


def some_toml(rng: random.Random) -> Any:
    """Lines over a few keys, most of which define something anew or go through what is there."""
    keys = ["group", "limits", "a", "records", '"a"', "'limits'", "order", "inputs"]
    path: Callable[[], str] = lambda: ".".join(rng.choice(keys) for _ in range(rng.choice([1, 1, 2, 3])))
    values = ["1", "{}", "[]", "[{}]", "{ a = 1 }", "{ a.records = 1 }", "'drop'", "[[{ a = 2 }], 3]", "{ a = 1, a = 2 }", "{ records = 5 }", "[0]"]
    lines = []
    for _ in range(rng.randrange(1, 7)):
        kind = rng.randrange(5)
        value = rng.choice(values) if rng.randrange(3) else str(rng.choice(ODD_VALUES))
        lines.append(f"[{path()}]" if kind == 0 else f"[[{path()}]]" if kind == 1 else f"{path()} = {value}")
    return "\n".join(lines).encode()


def deep_toml(rng: random.Random) -> Any:
    deep = rng.choice([1, 40, 78, 79, 80, 81, 100, 500, 5000])
    kind = rng.randrange(4)
    if kind == 0:
        return b"a = " + b"[" * deep + b"]" * deep
    if kind == 1:
        return b"a = " + b"{a=" * deep + b"1" + b"}" * deep
    text = ".".join(["a"] * deep)
    return (f"{text} = 1\n" if kind == 2 else f"[{text}]\n").encode()


def a_plan_text(rng: random.Random, mode: Any) -> Any:
    kind = rng.randrange(100)
    if kind < 4:
        return some_toml(rng)
    if kind == 4:
        return deep_toml(rng)
    if kind == 5 and rng.randrange(20) == 0:
        fill = rng.choice([b"#", b" ", b"\n", b"a=1\n", b"[["])
        return (fill * 70000)[: rng.choice([65535, 65536, 65537, 70000])]
    plan = a_plan(rng, mode)
    if kind < 50:
        for _ in range(rng.choice([1, 1, 1, 2])):
            change_plan(rng, plan)
    text = plan_text(rng, plan).encode()
    return change_text(rng, text) if kind % 8 == 0 else text


# Cases.


class Case:
    """What a run is given: its words, in which PLAN and FILE stand for its files, and how these come."""

    def __init__(self, words: Any, plan: Any = None, data: Any = None) -> None:
        self.words, self.plan, self.data = words, plan, data
        self.pieces = None  # None: FILE is a file; else a pipe that gives it in pieces
        self.plan_pieces = None
        self.room = "pipe"  # where standard output goes: a pipe, or /dev/full
        self.memory: int | None = None


def pieces_of(rng: random.Random, data: Any) -> Any:
    """The data in pieces of at most 4096 bytes, few enough for a pipe."""
    most = rng.choice([1, 3, 7, 47, 100, 1000, 4096])
    most = max(most, len(data) // 100 + 1)
    pieces, at = [], 0
    while at < len(data):
        length = min(4096, most if rng.randrange(2) else rng.randrange(1, most + 1))
        pieces.append(data[at : at + length])
        at += length
    return pieces


def word_case(rng: random.Random) -> Any:
    number: Callable[[], bytes] = lambda: rng.choice([b"0", b"1", b"18446744073709551615", b"18446744073709551616", b"10000000", b"10000001", b"-5", b"+1", b"1 ",
                                 b"00000000000000000007", b"000000000000000000007", b"", b"0x1", "\u0661".encode(), b"9" * 20])
    word: Callable[[], bytes] = lambda: rng.choice([b"count", b"header", b"events", b"run", b"trace", b"pick", b"demo", b"Count", b"", b"--help", b"/none", b"\xff", b"-", "\u00e9".encode(), number()])
    words = [word() for _ in range(rng.randrange(6))]
    if rng.randrange(2):
        words = [b"demo", number(), number()] if rng.randrange(2) else [rng.choice([b"count", b"run", b"events", b"trace"]), *words[:2]]
    if rng.randrange(8) == 0:
        words = [b"pick", b"/none", number(), b"/none"] + [word()] * (rng.randrange(4) == 0)
    if words[:1] == [b"demo"] and len(words) == 3 and words[2] == b"10000000":
        words[2] = b"10000001"
    return Case(words)


def name_case(rng: random.Random) -> Any:
    """Names that can't be opened, or not read."""
    name: Callable[[], bytes] = lambda: rng.choice([b"/none", b"", b"/dev", b"/", b"/dev/null", b"FILE", b"/dev/null/a", b"n" * 300])
    by_a_plan = [rng.choice([b"run", b"trace", b"pick"]), name().replace(b"FILE", b"PLAN"), name()]
    if by_a_plan[0] == b"pick":
        by_a_plan.insert(2, b"1")
    case = Case(by_a_plan if rng.randrange(2) else [rng.choice([b"count", b"header", b"events"]), name()])
    case.plan, case.data = b"version = 1\n", brute.minimal_file(0x01010304, [1, 2])
    return case


def large_case(rng: random.Random) -> Any:
    """Headers at their limit, which take 2^24 bytes."""
    code = rng.choice(list(TYPES))
    front = b"PQTTTR\0\0001.0.00\0\0" + tag_bytes(KNOWN_NAMES[0], -1, CODE_OF["tyInt8"], code)
    length = 2**24 - len(front) - 48 - rng.choice([47, 48, 48, 49])
    data = front + tag_bytes(b"Blob", -1, 0xFFFFFFFF, length) + bytes(length) + tag_bytes(b"Header_End", -1, CODE_OF["tyEmpty8"], 0) + rng.randbytes(rng.randrange(9))
    return Case([rng.choice([b"count", b"events"]), b"FILE"], data=data)


def by_plan(rng: random.Random, mode: Any, data: Any) -> Any:
    """One of the commands that have a plan."""
    what = rng.choice([b"run", b"run", b"run", b"trace", b"pick"])
    group = [rng.choice([b"1", b"1", b"1", b"2", b"01", str(rng.randrange(70)).encode()])] if what == b"pick" else []
    return Case([what, b"PLAN", *group, b"FILE"], a_plan_text(rng, mode), data)


def case_of(rng: random.Random) -> Any:
    kind = rng.randrange(2000)
    code = rng.choice(list(TYPES))
    mode = TYPES[code][2]
    if kind == 0 and rng.randrange(4) == 0:
        return large_case(rng)
    if kind < 3:
        case = Case([b"run", b"PLAN", b"FILE"], plan_text(rng, {"group": [{"inputs": [0]}], "trace": [{"group": 1, "width": 1, "bins": 2**20}] * 20}).encode(), a_file(rng, code))
        case.memory = 60000
        return case
    if kind < 12 and rng.randrange(3) == 0:
        case = by_plan(rng, mode, a_long_file(rng, code))
        case.plan = plan_text(rng, a_plan(rng, mode)).encode()
        return case
    if kind < 12:
        return Case([rng.choice([b"count", b"events", b"run"]), b"FILE"], data=a_long_file(rng, code)) if rng.randrange(2) else Case([b"demo", str(rng.randrange(2**64)).encode(), str(rng.randrange(150)).encode()])
    if kind < 60:
        return word_case(rng)
    if kind < 80:
        return name_case(rng)
    what = rng.choice([b"count", b"header", b"header", b"events", b"events", b"run", b"run", b"run", b"run", b"run", b"run"])
    if what == b"run":
        return by_plan(rng, mode, a_file(rng, code) if rng.randrange(30) else a_hostile_file(rng))
    return Case([what, b"FILE"], data=a_hostile_file(rng) if rng.randrange(2) else a_file(rng, code))


def make_case(seed: int, number: Any) -> Any:
    rng = random.Random(seed << 40 | number)
    case = case_of(rng)
    if case.data is not None and rng.randrange(3) == 0 and len(case.data) < 400_000:
        case.pieces = pieces_of(rng, case.data)
    if case.plan is not None and rng.randrange(8) == 0 and len(case.plan) < 400_000:
        case.plan_pieces = pieces_of(rng, case.plan)
    if rng.randrange(200) == 0 and case.memory is None:
        case.room = "full"
    return case


# What is said to a case.


def expected(case: Any) -> Any:
    """The status, standard output and standard error that brute.py gives."""
    read = brute.contents
    brute.contents = lambda name, slot: case.data if name == b"FILE" else case.plan if name == b"PLAN" else read(name, slot)
    try:
        status, out, err = brute.answer(case.words)
    finally:
        brute.contents = read
    if case.memory is not None and (status == 0 or status >= 17):
        return 5, b"", b"ptu: out of memory\n"
    if case.room == "full" and out:
        return 4, b"", b"ptu: cannot write\n"
    return status, out, err


class Runner:
    """Runs the program on cases. Files stand in memory, and pipes give one piece a read."""

    def __init__(self, program: str) -> None:
        self.program = program
        self.files = {name: os.memfd_create(name) for name in ("PLAN", "FILE")}
        self.outputs = [self.output(), self.output()]
        self.null, self.full = os.open("/dev/null", os.O_RDWR), os.open("/dev/full", os.O_RDWR)
        for fd in (*self.files.values(), self.null, self.full):
            os.set_inheritable(fd, True)

    def output(self) -> Any:
        reads, writes = os.pipe()
        os.set_blocking(reads, False)
        fcntl.fcntl(writes, fcntl.F_SETPIPE_SZ, PIPE_ROOM)
        return reads, writes

    def place(self, name: Any, data: Any, pieces: Any) -> Any:
        """Puts data where the program can open it: the name, and the end of a pipe that is to be closed."""
        if pieces is None:
            fd = self.files[name]
            os.ftruncate(fd, 0)
            os.pwrite(fd, data, 0)
            return f"/dev/fd/{fd}".encode(), None
        reads, writes = os.pipe2(os.O_DIRECT)
        os.set_inheritable(reads, True)
        fcntl.fcntl(writes, fcntl.F_SETPIPE_SZ, PIPE_ROOM)
        for piece in pieces:
            os.write(writes, piece)
        os.close(writes)
        return f"/dev/fd/{reads}".encode(), reads

    def run(self, case: Any) -> Any:
        names, ends = {}, []
        for name, data, pieces in (("PLAN", case.plan, case.plan_pieces), ("FILE", case.data, case.pieces)):
            if data is not None and name.encode() in case.words:
                names[name.encode()], end = self.place(name, data, pieces)
                ends += [end] if end is not None else []
        words = [self.program.encode()] + [names.get(word, word) for word in case.words]
        if case.memory is not None:
            words = [b"/bin/sh", b"-c", b'ulimit -v "$0"; exec "$@"', str(case.memory).encode(), *words]
        out = self.full if case.room == "full" else self.outputs[0][1]
        actions = [(os.POSIX_SPAWN_DUP2, self.null, 0), (os.POSIX_SPAWN_DUP2, out, 1), (os.POSIX_SPAWN_DUP2, self.outputs[1][1], 2)]
        signal.alarm(600)
        child = os.posix_spawn(words[0], words, cast(dict[bytes, bytes], {}), file_actions=actions)
        status = os.waitstatus_to_exitcode(os.waitpid(child, 0)[1])
        signal.alarm(0)
        for end in ends:
            os.close(end)
        return status, self.said(0), self.said(1)

    def said(self, which: Any) -> Any:
        try:
            return os.read(self.outputs[which][0], PIPE_ROOM)
        except BlockingIOError:
            return b""


def keep(folder: Any, seed: int, number: Any, case: Any, want: Any, got: Any) -> None:
    path = os.path.join(folder, f"{seed}-{number}")
    os.makedirs(path, exist_ok=True)
    parts = {"words": b"\n".join(case.words), "PLAN": case.plan, "FILE": case.data, "brute.out": want[1], "brute.err": want[2], "ptu.out": got[1], "ptu.err": got[2]}
    for name, data in parts.items():
        if data is not None:
            with open(os.path.join(path, name), "wb") as file:
                file.write(data)
    print(f"case {number} of seed {seed}: ptu says {got[0]} {got[2]!r}, brute.py {want[0]} {want[2]!r}; see {path}", flush=True)


def work(program: str, seed: int, numbers: Any, folder: Any, told: Any) -> None:
    """Runs the cases. It tells each thousand of them: how often each status came, how many differ, how many were not compared."""
    came: Counter[Any] = Counter()
    runner, differ, skipped = Runner(program), 0, 0
    for at, number in enumerate(numbers, 1):
        case = make_case(seed, number)
        try:
            want = expected(case)
        except brute.NotCompared:
            want = None
        got = runner.run(case)
        came[got[0]] += 1
        if want is None:
            skipped += 1
            want = (got[0] if 0 <= got[0] <= 24 else "a status", got[1], got[2])
        if got != want:
            differ += 1
            keep(folder, seed, number, case, want, got)
        if at % 1000 == 0 or at == len(numbers):
            os.write(told, f"{dict(came)!r} {differ} {skipped}\n".encode())
            came, differ, skipped = Counter(), 0, 0


def start(program: str, seed: int, numbers: Any, folder: Any) -> Any:
    """Starts a worker, and gives the end of the pipe on which it tells what it found."""
    reads, writes = os.pipe()
    if os.fork() == 0:
        os.close(reads)
        signal.signal(signal.SIGINT, signal.SIG_DFL)
        work(program, seed, numbers, folder, writes)
        os._exit(0)
    os.close(writes)
    return os.fdopen(reads)


def gather(ends: Any, totals: Any) -> None:
    """Adds up what the workers tell, until all have ended."""
    with selectors.DefaultSelector() as selector:
        for end in ends:
            selector.register(end, selectors.EVENT_READ)
        while selector.get_map():
            for key, _ in selector.select():
                line = cast(Any, key.fileobj).readline()
                if not line:
                    selector.unregister(key.fileobj)
                    continue
                came, differ, skipped = line.rsplit(" ", 2)
                totals["came"].update(ast.literal_eval(came))
                totals["differ"] += int(differ)
                totals["skipped"] += int(skipped)


def main() -> None:
    options, rest = getopt.getopt(sys.argv[1:], "n:s:j:f:o:")
    given = dict(options)
    cases, seed, workers, first = (int(given.get(option, usual)) for option, usual in (("-n", 1_000_000), ("-s", 1), ("-j", os.cpu_count() or 1), ("-f", 0)))
    if len(rest) != 1:
        sys.exit(__doc__)
    folder, began = given.get("-o", "/tmp/ptu_fuzz"), time.time()
    ends = [start(os.path.abspath(rest[0]), seed, range(first + at, first + cases, workers), folder) for at in range(min(workers, cases))]
    totals: dict[str, Any] = {"came": Counter(), "differ": 0, "skipped": 0}
    try:
        gather(ends, totals)
    except KeyboardInterrupt:
        print("it was cut off; the last hundreds of cases of each worker are not told")
    came, run = totals["came"], sum(totals["came"].values())
    print(f"seed {seed}, from case {first} on: {run} run, {totals['differ']} differ, {totals['skipped']} not compared, {time.time() - began:.0f} s")
    print("by status: " + ", ".join(f"{status}: {came[status]}" for status in sorted(came)))
    missing = [status for status in range(24) if came[status] == 0]
    if missing:
        print(f"never came: {missing}")
    sys.exit(1 if totals["differ"] or run < cases or (missing and cases >= 100_000) else 0)


if __name__ == "__main__":
    main()
