"""Plans that are put together in Python, whose times are in seconds, for files of any tick."""

from __future__ import annotations

import difflib
import logging
import math
import os
import re
import tomllib
from collections.abc import Callable, Iterable, Mapping, Sequence
from dataclasses import dataclass, replace
from numbers import Integral, Real
from typing import Any, Literal, NamedTuple, Protocol

from ._plan_rules import LONG, broken_rules
from ._refusals import rule_of
from ._whole import written_whole
from .errors import BadPlanError, NotKnownError
from .headers import read_header

__all__ = ["Duration", "Plan", "Ticked"]

Duration = float | str  # seconds, or a text with its unit: "12.5 ns", "300 ticks"
PathLike = str | os.PathLike[str]
LOG = logging.getLogger("ptulab.plans")
SECONDS = {"s": 1.0, "ms": 1e-3, "us": 1e-6, "µs": 1e-6, "μs": 1e-6, "ns": 1e-9, "ps": 1e-12, "fs": 1e-15}
COUNTED = ("tick", "ticks", "period", "periods")
DURATION = re.compile(r"\s*([-+]?[0-9][0-9_]*\.?[0-9]*(?:[eE][-+]?[0-9]+)?)\s*(\S+)\s*")
OF_ALL = ("histogram", "trace", "image", "cube")  # tables that tell how many photons a group has
FAR = 0.1  # a part of a time by which it may be rounded without a word


class Ticked(Protocol):
    """What tells how long the ticks of a file are: a header, or the head of a report."""

    @property
    def global_seconds(self) -> float | None:
        """Seconds of a tick of T2, or of a sync period of T3."""

    @property
    def resolution_seconds(self) -> float | None:
        """Seconds of a tick of a T3 dtime."""


@dataclass(frozen=True)
class _Time:
    """A time as it was said: seconds, or a number of ticks."""

    said: str
    seconds: float | None
    ticks: int | None


class _Part(NamedTuple):
    """A table of a plan with its settings as they were given, a group with its name, or a remark."""

    kind: str
    settings: tuple[tuple[str, Any], ...]
    name: str = ""


@dataclass(frozen=True, kw_only=True)
class Plan:
    """A plan for the program: groups of photons by their names, and the tables that are filled.

    Each call gives a new plan with one part more, so calls follow one another. Times are in seconds, or texts with a unit:
    ``"12.5 ns"`` (s, ms, us, ns, ps, fs), ``"300 ticks"``; ``"300 periods"`` are sync periods, the ticks of T3 times. They
    become ticks by the header of the file that the plan is run over, so one plan does for files of any tick.

    ``order="stop"`` refuses a file with late events, ``reserved="stop"`` one with reserved records, ``records`` is how many
    records a file may have. An event that at most ``settle`` later ones precede in the file is put back in order (docs/plan.md).
    ``str(plan)`` is its text as it stands, ``text(file)`` that for a file. Where a plan is wanted, one of these does.
    """

    order: Literal["drop", "stop"] | None = None
    reserved: Literal["skip", "stop"] | None = None
    records: int | None = None
    settle: int | None = None
    parts: tuple[_Part, ...] = ()

    @property
    def groups(self) -> dict[str, int]:
        """The numbers of the groups by their names, in the order of the plan."""
        return {part.name: number for number, part in enumerate(self._of("group"), 1)}

    def group(self, name: str, inputs: int | Iterable[int], gates: Iterable[tuple[Duration, Duration]] = ()) -> Plan:
        """A group of photons: those of these inputs, and with a delay after the sync in one of the gates (T3 alone)."""
        if name in self.groups or not name.isprintable() or not name.strip():
            raise BadPlanError(f"a second group {name!r}" if name in self.groups else f"{name!r} can't be the name of a group")
        numbers = [_whole_number(inputs)] if isinstance(inputs, int | Integral) else sorted(set(map(_whole_number, inputs)))
        pairs = tuple((_length(start), _length(stop)) for start, stop in gates)
        for start, stop in pairs:
            if _is_not_before(start, stop):
                raise BadPlanError(f"a gate from {start.said} to {stop.said}: it must end after its beginning")
        return self._with("group", name, inputs=tuple(numbers), **({"gates": pairs} if pairs else {}))

    def histogram(
        self, group: str | int, *, width: Duration = "1 tick", until: Duration | None = None, bins: int | None = None
    ) -> Plan:
        """The delays of a group's photons after the sync (T3), in bins of a width up to a delay, by default the sync period."""
        return self._with("histogram", group=self.number_of(group), width=_length(width), **_end(until, bins))

    def trace(
        self, group: str | int, *, width: Duration, until: Duration | None = None, bins: int | None = None, origin: Duration | None = None
    ) -> Plan:
        """The photons of a group by time, in bins of a width, up to a time or for a number of bins, from ``origin`` on."""
        _one_of(until, bins)
        first = _kept(origin=None if origin is None else _length(origin))
        return self._with("trace", group=self.number_of(group), width=_length(width), **_end(until, bins), **first)

    def total(self, group: str | int) -> Plan:
        """How many photons a group has: a trace of one bin over everything."""
        return self._with("trace", group=self.number_of(group), width=LONG, bins=1)

    def startstop(
        self, start: str | int, stop: str | int, *, width: Duration = "1 tick", until: Duration | None = None, bins: int | None = None
    ) -> Plan:
        """The times from a photon of a group to the next one of another group (T2), in bins of a width."""
        _one_of(until, bins)
        return self._with("startstop", start=self.number_of(start), stop=self.number_of(stop), width=_length(width), **_end(until, bins))

    def coincidence(self, first: str | int, second: str | int, *, reach: Duration, width: Duration = "1 tick") -> Plan:
        """All pairs of photons of two groups by their delay (T2), up to ``reach`` to either side, and the totals of both groups
        where they are needed for g2. Of a width in seconds a cell has an odd number of ticks, so that one is centred on 0."""
        pair = {"first": self.number_of(first), "second": self.number_of(second)}
        return self._with("coincidence", **pair, reach=_length(reach), width=_length(width))._with_totals(pair)

    def correlation(
        self, first: str | int, second: str | int | None = None, *, until: Duration | None = None, lags: int = 16, levels: int | None = None
    ) -> Plan:
        """The correlation of two groups, or of one with itself, up to a delay, and the totals of both groups where they are
        needed to normalise it. In T3 files delays are whole sync periods."""
        _one_of(until, levels)
        pair = {"first": self.number_of(first), "second": self.number_of(first if second is None else second)}
        end = _kept(until=None if until is None else _length(until), levels=levels)
        return self._with("correlation", **pair, lags=lags, **end)._with_totals(pair)

    def image(
        self,
        group: str | int,
        *,
        width: int,
        height: int,
        dwell: Duration,
        line: int,
        frame: int | None = None,
        stop: int | None = None,
        serpentine: bool = False,
    ) -> Plan:
        """The photons of a group by pixel (T3): ``width`` columns and ``height`` rows, ``dwell`` the time of a pixel, and the
        marker bits (1 to 4) that begin a line, begin a frame and end a line; ``serpentine`` of lines that go both ways."""
        bits = _kept(line=line, frame=frame, stop=stop, serpentine=serpentine or None)
        return self._with("image", group=self.number_of(group), width=width, height=height, dwell=_length(dwell), **bits)

    def cube(
        self,
        group: str | int,
        *,
        width: int,
        height: int,
        dwell: Duration,
        line: int,
        frame: int | None = None,
        stop: int | None = None,
        serpentine: bool = False,
        dwidth: Duration = "1 tick",
        dbins: int | None = None,
    ) -> Plan:
        """An image with the delays of each pixel, in bins of ``dwidth``, by default up to the sync period."""
        bits = _kept(line=line, frame=frame, stop=stop, serpentine=serpentine or None)
        pixels = {"group": self.number_of(group), "width": width, "height": height, "dwell": _length(dwell), **bits}
        return self._with("cube", **pixels, dwidth=_length(dwidth), **_kept(dbins=dbins))

    def fold(self, *groups: str | int, window: Duration) -> Plan:
        """n-fold coincidences of up to six groups within a window (T2)."""
        return self._with("fold", groups=tuple(sorted(map(self.number_of, groups))), window=_length(window))

    def shift(self, number: int, by: Duration, *, period: Duration | None = None) -> Plan:
        """Adds a time, which may be negative, to the delays of an input (T3), modulo the period, by default the sync period."""
        end = _kept(period=None if period is None else _length(period))
        return self._with("shift", input=number, shift=_time(by), **end)

    def remark(self, text: str) -> Plan:
        """A remark in the text, before the part that comes next."""
        return self._with("#", text)

    def text(self, file: PathLike | Ticked | None = None) -> str:
        """The text of the plan as the program reads it, with ticks by the header of a file, or by the head of a report.

        Raises ``NotKnownError`` where nothing tells how long a tick is, and ``BadPlanError`` with the rule that is broken, ``BadFileError``
        for a file that isn't a PTU file, and ``OSError``.
        """
        ticks = file if file is None or not isinstance(file, str | os.PathLike) else read_header(file)
        text = self._written(lambda part: _settings(part, ticks), ticks)
        if found := broken_rules(tomllib.loads(text)):
            names = dict(zip(self.groups.values(), self.groups))
            name = names.get(found[0].index, "") if found[0].part.startswith("group ") else ""
            raise BadPlanError(f"{f'{name}: ' if name else ''}{found[0]}: {rule_of(found[0].rule)}")
        return text

    def write(self, path: PathLike, file: PathLike | Ticked | None = None) -> None:
        """Writes the text of the plan to a path, where it appears when it is whole."""
        content = self.text(file).encode("utf-8")
        with written_whole(path) as out:
            out.write(content)

    def __str__(self) -> str:
        """The text as it stands: times that no file has made ticks of stand as they were said."""

        def told(part: _Part) -> dict[str, Any]:
            try:
                return _settings(part, None)
            except NotKnownError:
                return dict(part.settings)

        return self._written(told, None)

    def _of(self, kind: str) -> list[_Part]:
        return [part for part in self.parts if part.kind == kind]

    def _with(self, kind: str, name: str = "", /, **settings: Any) -> Plan:
        return replace(self, parts=(*self.parts, _Part(kind, tuple(settings.items()), name)))

    def number_of(self, group: str | int) -> int:
        """The number of a group by its name, or the number that it is. Raises ``BadPlanError`` for a name that no group has."""
        groups = self.groups
        if isinstance(group, int | Integral):
            return int(_whole_number(group))
        if group not in groups:
            near = difflib.get_close_matches(group, groups, 1)
            there = ", ".join(groups) or "none yet"
            raise BadPlanError(f"no group {group!r}: the plan has {there}" + (f"; is {near[0]!r} meant?" if near else ""))
        return groups[group]

    def _with_totals(self, pair: Mapping[str, int]) -> Plan:
        """The plan with the totals of two groups, where no table tells their photons."""
        plan = self
        for number in sorted(set(pair.values())):
            if not any(part.kind in OF_ALL and dict(part.settings)["group"] == number for part in plan.parts):
                plan = plan.total(number)
        return plan

    def _written(self, settings: Callable[[_Part], dict[str, Any]], ticks: Ticked | None) -> str:
        """The text, with the settings of each part as they are given: remarks, the keys of the document, and the parts."""
        blocks: list[str] = []
        remarks = ""
        shifts = iter(sorted(self._of("shift"), key=lambda part: int(part.settings[0][1])))
        for part in self.parts:
            if part.kind == "#":
                remarks += "".join(f"# {line}\n" for line in part.name.splitlines())
                continue
            if not blocks:
                blocks = [remarks, self._top(ticks)]
                remarks = ""
            one = next(shifts) if part.kind == "shift" else part
            lines = [f"[[{one.kind}]]" + (f" # {one.name}" if one.name else "")]
            lines += [f"{key} = {_value(value)}" for key, value in settings(one).items()]
            blocks.append(remarks + "\n".join(lines) + "\n")
            remarks = ""
        if not blocks and self != Plan(parts=self.parts):
            blocks = [self._top(ticks)]
        return "\n".join(filter(None, [*blocks, remarks]))

    def _top(self, ticks: Ticked | None) -> str:
        """The keys of the document."""
        keys = {"version": 2, "order": self.order, "reserved": self.reserved, "settle": self.settle, "period": _period(self._of("shift"), ticks)}
        lines = [f"{key} = {_value(value)}\n" for key, value in keys.items() if value is not None]
        return "".join(lines) + (f"limits = {{ records = {self.records} }}\n" if self.records is not None else "")


def _whole_number(number: Any) -> Any:
    """A whole number of NumPy as Python's own; anything else as it is."""
    return int(number) if isinstance(number, Integral) and not isinstance(number, bool) else number


# ## Times


def _time(said: Duration) -> _Time:
    """A time of seconds, or of a text with a unit."""
    if isinstance(said, Real) and not isinstance(said, bool) and math.isfinite(said):
        return _Time(f"{float(said):g} s", float(said), None)
    found = DURATION.fullmatch(said) if isinstance(said, str) else None
    if found is None or found[2] not in (*SECONDS, *COUNTED) or not math.isfinite(float(found[1].replace("_", ""))):
        units = ", ".join([*(unit for unit in SECONDS if unit.isascii()), "ticks", "periods"])
        raise BadPlanError(f"{said!r} is no time: write seconds, or a number with a unit ({units}), as '12.5 ns' or '300 ticks'")
    number = found[1].replace("_", "")
    if found[2] in SECONDS:
        return _Time(found[0], float(number) * SECONDS[found[2]], None)
    if not number.lstrip("+-").isdigit():
        raise BadPlanError(f"{said!r}: a number of ticks is whole")
    return _Time(found[0], None, int(number))


def _length(said: Duration) -> _Time:
    """A time that isn't negative."""
    time = _time(said)
    if (time.seconds or time.ticks or 0) < 0:
        raise BadPlanError(f"a time of {time.said}: only the shift of an input may be negative")
    return time


def _is_not_before(start: _Time, stop: _Time) -> bool:
    """Whether a time isn't before another one, as far as that is known without a tick; 0 is known."""
    if not stop.seconds and not stop.ticks:
        return True
    same = [(start.seconds, stop.seconds), (start.ticks, stop.ticks)]
    return any(one is not None and other is not None and one >= other for one, other in same)


def _one_of(until: Duration | None, count: int | None) -> None:
    if (until is None) == (count is None):
        raise BadPlanError("say either where it ends, by until=, or how many there are")


def _end(until: Duration | None, bins: int | None) -> dict[str, Any]:
    """Where the bins end, or how many there are."""
    if until is not None and bins is not None:
        raise BadPlanError("say either where it ends, by until=, or how many there are")
    return _kept(until=None if until is None else _length(until), bins=bins)


def _kept(**settings: Any) -> dict[str, Any]:
    """The settings that are given."""
    return {key: value for key, value in settings.items() if value is not None}


def _exact(time: _Time, tick: float | None) -> float | int:
    """A time in ticks, of which there may be a part."""
    if not time.seconds:
        return time.ticks or 0
    if tick is None or not 0 < tick < math.inf:
        raise NotKnownError(f"{time.said}: nothing tells how long a tick is; name a file whose header does, or write ticks")
    if not math.isfinite(time.seconds / tick):
        raise BadPlanError(f"{time.said} are more ticks of {tick:.6g} s than numbers tell")
    return time.seconds / tick


def _whole(time: _Time, tick: float | None, least: int = 1) -> int:
    """A time in whole ticks, with a word on what was rounded."""
    exact = _exact(time, tick)
    ticks = max(least, round(exact)) if time.ticks is None else time.ticks
    if tick is not None and abs(ticks - exact) > FAR * abs(exact):
        LOG.warning("%s are %.4g ticks of %.6g s: %d are taken", time.said, exact, tick, ticks)
    return ticks


def _bins(settings: Mapping[str, Any], width: int, tick: float | None, end: float | None = None) -> int:
    """How many bins of a width there are: as many as were said, or up to a time, or up to the end in ticks."""
    if "bins" in settings:
        return int(settings["bins"])
    if "until" not in settings and end is None:
        raise NotKnownError("nothing tells how long the sync period is: say until= or bins=, or name a file whose header does")
    ticks = _exact(settings["until"], tick) if "until" in settings else end or 0.0
    return max(1, math.ceil(round(ticks / width, 6)))


def _sync(ticks: Ticked | None) -> float | None:
    """The ticks of the dtime in a sync period."""
    sync, tick = (ticks.global_seconds, ticks.resolution_seconds) if ticks is not None else (None, None)
    return sync / tick if sync is not None and tick is not None and 0 < sync < math.inf and 0 < tick < math.inf else None


def _period(shifts: Sequence[_Part], ticks: Ticked | None) -> int | str | None:
    """The period of shifts in ticks, None without any, and as it was said where nothing tells a tick."""
    given = {said: None for part in shifts if (said := dict(part.settings).get("period")) is not None}
    if not shifts or len(given) > 1:
        if given:
            raise BadPlanError(f"shifts with other periods: {', '.join(said.said for said in given)}")
        return None
    return _period_of(next(iter(given), None), ticks)


def _period_of(said: _Time | None, ticks: Ticked | None) -> int | str:
    if said is None:
        whole = _sync(ticks)
        return "the sync period" if whole is None else round(whole)
    tick = ticks.resolution_seconds if ticks is not None else None
    return said.said if said.ticks is None and tick is None else _whole(said, tick)


# ## What becomes of the settings of a part


def _settings(part: _Part, ticks: Ticked | None) -> dict[str, Any]:
    """The settings of a part as the program reads them. Raises ``NotKnownError`` where nothing tells how long a tick is."""
    by_time, by_delay = (None, None) if ticks is None else (ticks.global_seconds, ticks.resolution_seconds)
    given = dict(part.settings)
    kept = {key: value for key, value in given.items() if not isinstance(value, _Time)}
    if part.kind == "group":
        gates = [[_whole(start, by_delay, 0), _whole(stop, by_delay)] for start, stop in given.get("gates", ())]
        return kept | ({"gates": gates} if gates else {})
    if part.kind == "shift":
        return _shifted(given, ticks)
    if part.kind == "correlation":
        return _correlated(kept, given.get("until"), by_time)
    if part.kind == "coincidence":
        return kept | _coincident(given["reach"], given["width"], by_time)
    if part.kind in ("histogram", "trace", "startstop"):
        tick, end = (by_delay, _sync(ticks)) if part.kind == "histogram" else (by_time, None)
        width = given["width"] if isinstance(given["width"], int) else _whole(given["width"], tick)
        first = {"origin": _whole(given["origin"], tick, 0)} if "origin" in given else {}
        ends = {"bins": _bins(given, width, tick, end)}
        return {key: value for key, value in kept.items() if key != "bins"} | {"width": width} | ends | first
    found: dict[str, Any] = {}
    for key, value in given.items():
        found[key] = _whole(value, by_delay if key == "dwidth" else by_time) if isinstance(value, _Time) else value
    if part.kind == "cube" and "dbins" not in found:
        found["dbins"] = _bins({}, found["dwidth"], by_delay, _sync(ticks))
    return found


def _shifted(given: Mapping[str, Any], ticks: Ticked | None) -> dict[str, Any]:
    period = _period_of(given.get("period"), ticks)
    if isinstance(period, str):
        raise NotKnownError(f"nothing tells how many ticks {period} has: say period=, or name a file whose header does")
    tick = ticks.resolution_seconds if ticks is not None else None
    return {"input": given["input"], "shift": round(_exact(given["shift"], tick)) % max(1, period)}


def _correlated(kept: Mapping[str, Any], until: _Time | None, tick: float | None) -> dict[str, Any]:
    """Levels up to a delay: the greatest of level n is lags * 2^n."""
    if until is None:
        return dict(kept)
    longest = _exact(until, tick) / max(1, kept["lags"])
    return dict(kept) | {"levels": 1 + math.ceil(round(math.log2(max(1.0, longest)), 9))}


def _coincident(reach: _Time, width: _Time, tick: float | None) -> dict[str, int]:
    """Cells of an odd number of ticks, of which all are whole, where they are told in seconds."""
    if width.ticks is not None and reach.ticks is not None:
        return {"reach": reach.ticks, "width": width.ticks}
    cell = width.ticks if width.ticks is not None else 2 * math.floor(_exact(width, tick) / 2 + 1e-6) + 1
    sides = max(1, round(_exact(reach, tick) / max(1, cell)))
    return {"reach": sides * cell + cell // 2, "width": cell}


def _value(value: Any) -> str:
    """A value as TOML has it; a time that no file has made ticks of as a text."""
    if isinstance(value, bool):
        return str(value).lower()
    if isinstance(value, _Time):
        return f'"{value.said}"'
    if isinstance(value, list | tuple):
        return f"[{', '.join(map(_value, value))}]"
    return f'"{value}"' if isinstance(value, str) else str(value)
