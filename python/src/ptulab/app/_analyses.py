"""What can be asked of a file: each question with a plan, a few settings, a script that answers it, and what is drawn.

The window runs the script that it hands out, so its printed lines are the numbers that the window shows.
"""

from __future__ import annotations

import math
import re
from collections.abc import Callable, Mapping, Sequence
from dataclasses import asdict, dataclass
from typing import Any

import numpy as np

from .._looks import Look
from .._versions import __version__
from ..events import UNKNOWN
from ..page import _header as header_of
from ..page._figures import Picture
from ..plans import SIDE, _of_all, bins_of_pixel, plan_of
from ._figures import Drawn, curve, drawn, figure, of_report, phasor_plane, units_of_second, with_curve

Names = Mapping[str, Any]  # of a script that ran
Settings = dict[str, Any]


PARAMETER = re.compile(r"[a-z][a-z_0-9]{0,39}")
MOST_PARAMETERS = 20


@dataclass(frozen=True)
class Setting:
    """A number that can be set, from ``least`` to ``most``."""

    key: str
    label: str
    value: float
    least: float
    most: float
    whole: bool = True
    unit: str = ""  # "sync periods" of a number of them, beside which the page says how long they last


WINDOW = [
    Setting("from_seconds", "Only from so many seconds of the file on", 0.0, 0, 1e9, whole=False),
    Setting("to_seconds", "and up to so many (0: to its end)", 0.0, 0, 1e9, whole=False),
]


@dataclass(frozen=True)
class Analysis:
    """A question. ``wanting`` says why a file can't answer it, ``kinds`` are the tables of its plan, ``body`` makes its script."""

    name: str
    title: str
    means: str  # what comes of it, in a sentence
    wanting: Callable[[Look], str]
    kinds: tuple[str, ...]
    settings: Callable[[Look], list[Setting]]
    body: Callable[[Names, Settings, str | None], str]
    draw: Callable[[Names], list[Drawn]]
    imports: str
    by_python: bool = False
    second: tuple[str, str] | None = None  # what another file can be, and what is done without one
    fits: bool = False  # whether its parameters can be held, and told where to begin

    def script(self, path: str, document: Names, settings: Settings, second: str | None) -> str:
        """The script that answers the question of the file at ``path``, by the document of its plan."""
        start, stop = settings["from_seconds"], settings["to_seconds"] or math.inf
        called = "measured" if start == 0 and stop == math.inf else "measured, part_of"
        body = self.body(document, settings, second)
        imports = self.imports + ("\nfrom ptulab.app.scripts import decay_like" if "decay_like(" in body else "")
        head = HEAD.format(title=self.title, version=__version__, imports=f"{imports}\nfrom ptulab.app.scripts import {called}", path=path)
        window = "" if called == "measured" else f"file = part_of(file, {start!r}{'' if stop == math.inf else f', {stop!r}'})  # seconds\n"
        return head + window + body

    def all_settings(self, seen: Look) -> list[Setting]:
        """Those of the question, and the window of time."""
        return [*self.settings(seen), *WINDOW]


HEAD = """\
# {title}, as the window of ptulab {version} showed it; plan.toml stands beside this: python3 analysis.py [FILE]
import sys
from pathlib import Path

{imports}

here = Path(__file__).parent
file = sys.argv[1] if len(sys.argv) > 1 else {path!r}
"""
FIT = """\
for name, value in fit.values.items():
    factor, unit = (1e9, " ns") if name.startswith(("lifetime", "shift")) else (1, "")
    print(f"{name}: {measured(value * factor, fit.errors[name] * factor if fit.lmfit.params[name].vary else None, unit)}")
print(f"deviance over what is expected: {measured(fit.reduced)}")
"""
POINTS = """\
photons, decay = cube.counts.sum(axis=2), cube.counts.sum(axis=(0, 1))
begin = int(np.flatnonzero(2 * decay >= decay.max())[0])
threshold = {threshold}
{of_pulse}points = phasors.phasor(cube.counts, cube.seconds, 1 / report.head.global_seconds, {pulse}, threshold={of_points})
"""
BY_RISE = {"of_pulse": "", "pulse": "offset=cube.seconds[begin]"}  # of the decay of all pixels
BY_REFERENCE = {"of_pulse": 'reference = complex(*np.loadtxt(here / "reference.csv", delimiter=",", skiprows=1))\n', "pulse": "reference=reference"}
REPORT = 'report = ptulab.run(here / "plan.toml", file)\n'
FIT_CURVE = '"fit": {"seconds": fit.axis, "photons": fit.data, "fit": fit.curve, "residuals": fit.residuals}'


def settings_of(analysis: Analysis, given: Mapping[str, Any]) -> Settings:
    """The settings that were given, within their bounds. Raises ``ValueError`` for others."""
    settings: Settings = {}
    for one in analysis.all_settings(Look(UNKNOWN)):
        value = given.get(one.key, one.value)
        if isinstance(value, bool) or not isinstance(value, int | float) or not one.least <= value <= one.most:
            raise ValueError(f"{one.label}: a number from {one.least:g} to {one.most:g} is wanted")
        settings[one.key] = int(value) if one.whole else float(value)
    return settings | {"fit": _steering(given.get("fit") or {}) if analysis.fits else {}}


def _steering(given: Any) -> dict[str, tuple[float, bool]]:
    """Where parameters of a fit begin, and whether they are held there. Raises ``ValueError`` for what is none."""
    if not isinstance(given, dict) or len(given) > MOST_PARAMETERS:
        raise ValueError(f"a fit has at most {MOST_PARAMETERS} parameters that are held or begun")
    steering = {}
    for name, told in given.items():
        good = isinstance(told, list) and len(told) == 2 and isinstance(told[0], int | float) and not isinstance(told[0], bool) and isinstance(told[1], bool)
        if not good or not PARAMETER.fullmatch(name) or not math.isfinite(told[0]):
            raise ValueError("a parameter of a fit has a name, a number, and whether it is held")
        steering[name] = (float(told[0]), told[1])
    return steering


def _steered(settings: Settings) -> str:
    """The words by which a script tells a fit what is held, and where it begins."""
    words = ""
    for key, is_held in (("fixed", True), ("start", False)):
        values = {name: value for name, (value, held) in settings["fit"].items() if held is is_held}
        words += f", {key}={values}" if values else ""
    return words


def parameters_of(names: Names) -> list[dict[str, Any]]:
    """The parameters of a fit that a script made, in the units that are printed."""
    fit = names.get("fit")
    return [] if fit is None else [_parameter(name, fit) for name in fit.values]


def _parameter(name: str, fit: Any) -> dict[str, Any]:
    held, (factor, unit) = not fit.lmfit.params[name].vary, _unit_of(name)
    return {"name": name, "value": float(f"{fit.values[name] * factor:.6g}"), "factor": factor, "unit": unit, "held": held}


def _unit_of(name: str) -> tuple[float, str]:
    if name.startswith(("lifetime", "shift")):
        return 1e9, "ns"
    return (1e3, "ms") if name in ("diffusion", "triplet_time") else (1.0, "")


def proposals(seen: Look) -> list[dict[str, Any]]:
    """Of a file each question, with the reason where it can't be asked, and the plan and the settings that suit."""
    text = str(plan_of(seen))
    return [_proposal(one, seen, text) for one in ANALYSES.values()]


def analysis_of(name: str) -> Analysis:
    """A question by its name. Raises ``ValueError`` where there is none."""
    if name not in ANALYSES:
        raise ValueError(f"there is no question {name!r}")
    return ANALYSES[name]


def _proposal(one: Analysis, seen: Look, text: str) -> dict[str, Any]:
    reason = "it ends within a record, and what is counted for a question has whole records" if seen.header.left_over_bytes else ""
    reason = reason or (one.wanting(seen) if seen.inputs else "there are no photons in the file")
    told = {"name": one.name, "title": one.title, "means": one.means, "reason": reason, "python": one.by_python, "second": one.second and dict(zip(("label", "none"), one.second))}
    if reason:
        return told | {"plan": "", "settings": []}
    plan = _of_kinds(text, one.kinds) + (_fold(seen) if one.name == "patterns" else "")
    if one.kinds in (("image",), ("cube",)) and f"[[{one.kinds[0]}]]" not in plan:
        plan += _scan_of_marks(seen, one.kinds[0])
    if re.search(r"^\[\[(cube|fold)\]\]", plan, re.M) and "version" not in plan:
        plan = f"version = 2\n\n{plan}"
    return told | {"plan": plan, "settings": [asdict(setting) for setting in one.all_settings(seen)]}


def _of_kinds(text: str, kinds: Sequence[str]) -> str:
    """The parts of a proposed plan that are tables of these kinds, or none at all; what is said of an image holds for a cube."""
    kept = []
    for part in re.split(r"\n\n+", text):
        kind = re.search(r"^\[\[(\w+)\]\]", part, re.M)
        if kind is None or kind[1] in ("group", *kinds):
            kept.append(part.strip("\n").replace("# the same with the dtimes of each pixel\n", ""))
        elif kind[1] == "image" and "cube" in kinds:
            kept += [line for line in part.splitlines() if line.startswith("#")]
    return "\n\n".join(filter(None, kept)) + "\n"


def _fold(seen: Look) -> str:
    tick = seen.header.global_seconds or 1e-12
    window = min(1 << 20, max(1, round(1e-8 / tick))) if 0 < tick < 1 else 1
    return f"\n# within 10 ns, where the header tells its tick\n[[fold]]\ngroups = {list(range(1, min(6, len(seen.inputs)) + 1))}\nwindow = {window}\n"


def _group(document: Names, number: int) -> str:
    """The words by which a script names a group of the plan."""
    groups = document.get("group", [])
    if document.get("shift"):
        raise ValueError("a plan with shifts is not for what Python counts here: leave them out")
    if not 1 <= number <= len(groups):
        raise ValueError(f"the plan has no group {number}: it has {len(groups)}")
    table = groups[number - 1]
    gates = [tuple(gate) for gate in table.get("gates", [table["gate"]] if "gate" in table else [])]
    return f"Group({table['inputs']}, {gates})" if gates else f"Group({table['inputs']})"


def _known(value: float | None) -> bool:
    return value is not None and math.isfinite(value) and value > 0


def _only(mode: str, what: str, delays: bool = True) -> Callable[[Look], str]:
    """Why a file doesn't suit an analysis of one mode, which in T3 takes the ticks of delays, or sync periods alone."""

    def wanting(seen: Look) -> str:
        if seen.header.mode != mode:
            return f"{what}: this is a {seen.header.mode} file, and it takes {mode}"
        known = _known(seen.header.global_seconds) and (mode == "T2" or not delays or _known(seen.header.resolution_seconds))
        return "" if known else "the header doesn't tell how long a tick is"

    return wanting


def _two_detectors(mode: str, what: str) -> Callable[[Look], str]:
    first = _only(mode, what, delays=False)
    return lambda seen: first(seen) or ("" if len(seen.inputs) > 1 else "it takes two detectors, and the file has one input")


# ## Decays and images of lifetimes

DECAY_SETTINGS = [
    Setting("number", "Histogram of the plan", 1, 1, 32),
    Setting("terms", "Lifetimes", 1, 1, 3),
    Setting("after", "The tail begins so many ns after the peak", 0.5, 0, 1000, whole=False),
]


def _decay(document: Names, settings: Settings, second: str | None) -> str:
    body = f'{REPORT}decay = report.table("histogram", {settings["number"]})\n'
    if second is None:
        body += f"start = decay.seconds[decay.counts.argmax()] + {settings['after']!r} * 1e-9\n"
        body += f"fit = fits.fit_tail(decay.counts, decay.seconds, start, terms={settings['terms']}{_steered(settings)})\n"
    else:
        body += f'pulse = ptulab.run(here / "plan.toml", {second!r}).table("histogram", {settings["number"]})\n'
        body += 'width = report.head.resolution_seconds * decay.settings["width"]\n'
        body += f"fit = fits.fit_reconvolution(decay.counts, pulse.counts, width, period=report.head.global_seconds, terms={settings['terms']}{_steered(settings)})\n"
    return f'{body}{FIT}curves = {{"decay": {{"seconds": decay.seconds, "photons": decay.counts}}, {FIT_CURVE}}}\n'


def _draw_fit(one: Drawn, fit: Any) -> list[Drawn]:
    """A decay with its fit, and the residuals."""
    xs = fit.axis * units_of_second(one)
    rest = figure(one["name"] + "-rest", "Residuals of the fit", "What the fit leaves, in standard deviations: a right model scatters around 0.",
                  (one["xlabel"], one["xunit"]), ("residual (standard deviations)", ""), [curve("residuals", xs, fit.residuals)], level=0.0)
    return [with_curve(one, "fit", xs, fit.curve), rest]


def _draw_decay(names: Names) -> list[Drawn]:
    return _draw_fit(drawn(of_report(names["report"], "histogram", names["decay"].number)[0]), names["fit"])


def threshold_of(settings: Settings) -> str:
    """The words by which a script tells how many photons a pixel must have."""
    return str(settings["threshold"]) if settings["threshold"] else "max(1, round(0.1 * np.percentile(photons, 99)))"


def _image(document: Names, settings: Settings, second: str | None) -> str:
    told, pulse, columns = "", BY_RISE, ""
    if second is not None:
        told = f'dye = decay_like(report, here / "plan.toml", {second!r})\n'
        told += f"reference = phasors.phasor_reference(dye, cube.seconds, 1 / report.head.global_seconds, {settings['reference']!r} * 1e-9)\n"
        pulse, columns = BY_REFERENCE | {"of_pulse": ""}, '"reference": {"g": [reference.real], "s": [reference.imag]}, '
    return f"""{REPORT}cube = report.table("cube", 1)
{told}{POINTS.format(threshold=threshold_of(settings), of_points="threshold", **pulse)}delays = phasors.mean_delays(cube.counts[..., begin:], cube.seconds[begin:], offset=cube.seconds[begin], threshold=threshold)
start = cube.seconds[decay.argmax()] + {settings['after']!r} * 1e-9
fit = fits.fit_tail(decay, cube.seconds, start, terms={settings['terms']}{_steered(settings)})
print(f"photons in the picture: {{photons.sum():,}}")
print(f"pixels with {{threshold:,}} photons or more: {{np.count_nonzero(~np.isnan(delays)):,}}")
print(f"median of their mean delays: {{measured(np.nanmedian(delays) * 1e9, unit=' ns')}}")
known = points[np.isfinite(points)]
print(f"median of their phasors: g {{measured(np.median(known.real))}}, s {{measured(np.median(known.imag))}}")
{FIT}curves = {{{columns}"decay": {{"seconds": cube.seconds, "photons": decay}}, {FIT_CURVE}}}
"""


def _draw_image(names: Names) -> list[Drawn]:
    photons, delays = of_report(names["report"], "cube", 1, header_of(_file_of(names)))[:2]
    whole = of_report(names["report"], "cube", 1)[2]
    assert isinstance(delays, Picture)
    values = names["delays"] * 1e9
    if delays.values.shape == values.shape:
        told = f"The mean delay of each pixel with {names['threshold']:,} photons or more, after the rise of the decay of all pixels."
        told += " It is the lifetime only of a single exponential without background."
        delays = Picture(delays.name, delays.title, told, names["photons"], values, "mean delay (ns)", "ns", 1, names["threshold"], delays.colours, delays.micrometres)
    plane = phasor_plane(names["points"], names["report"].head.global_seconds, names["cube"].seconds)
    plane["summary"] += " They are calibrated by the reference." if "reference" in names else " The pulse is taken to come where the decay of all pixels rises."
    return [drawn(photons), drawn(delays), plane, *_draw_fit(drawn(whole), names["fit"])]


def _light(document: Names, settings: Settings, second: str | None) -> str:
    return f"""{REPORT}image = report.table("image", 1)
often, edges = np.histogram(image.counts, bins=min(64, int(np.ptp(image.counts)) + 1))
row, column = np.unravel_index(image.counts.argmax(), image.counts.shape)
print(f"photons in the picture: {{image.counts.sum():,}}")
print(f"mean: {{image.counts.mean():.5g}} photons in a pixel")
print(f"the most: {{image.counts.max():,}} photons at column {{column}}, row {{row}}")
curves = {{"pixels": {{"photons": edges[:-1], "pixels": often}}}}
"""


def _draw_light(names: Names) -> list[Drawn]:
    often = figure("pixels", "How many pixels have how many photons", "The histogram of the picture.",
                   ("photons in a pixel", "photons"), ("pixels", "pixels"), [curve("pixels", names["edges"][:-1], names["often"])])
    return [*map(drawn, of_report(names["report"], "image", 1, header_of(_file_of(names)))), often]


def _file_of(names: Names) -> str:
    """The file that a script was of, or the first of many."""
    return str(names["file"] if "file" in names else names["files"][0])


# ## Light over the time, and correlations


def _trace(document: Names, settings: Settings, second: str | None) -> str:
    is_part = settings["from_seconds"] or settings["to_seconds"]
    begin = "np.argmax(trace.counts > 0)  # the times of a window begin before its first photon" if is_part else "0"
    return f"""{REPORT}trace = report.table("trace", {settings['number']})
last = report.head.last  # None in a sum, of which the last photon tells the end
end = np.flatnonzero(trace.counts).max(initial=0) if last is None else (last - trace.settings["origin"]) // trace.settings["width"]
begin = {begin}
counts = trace.counts[begin : max(begin + 1, end)]  # without the bins that are longer than the file
frequencies, edges = np.histogram(counts, bins=min(64, int(np.ptp(counts)) + 1))
print(f"bins: {{len(counts):,}}")
print(f"mean: {{counts.mean():.5g}} photons in a bin")
print(f"variance over mean: {{counts.var() / max(counts.mean(), 1e-300):.4g}} (1 is light that doesn't fluctuate)")
curves = {{"trace": {{"ticks": trace.ticks, "photons": trace.counts}}, "frequencies": {{"photons": edges[:-1], "bins": frequencies}}}}
"""


def _draw_trace(names: Names) -> list[Drawn]:
    often = figure("frequencies", "How many bins have how many photons", "The histogram of the trace.",
                   ("photons in a bin", "photons"), ("bins", "bins"), [curve("bins", names["edges"][:-1], names["frequencies"])])
    return [*map(drawn, of_report(names["report"], "trace", names["trace"].number)), often]


def _correlation(document: Names, settings: Settings, second: str | None) -> str:
    first, other = (_group(document, settings[key]) for key in ("first", "second"))
    until = f"{settings['until']!r}" if settings["until"] else "np.inf"
    return f"""curve = segments.correlation_by_segments(file, {first}, {other}, segments={settings['segments']})
span = ({settings['begin']!r} * 1e-6, {until})
fit = fits.fit_fcs(curve.seconds, curve.values, segments=curve.segments, dimensions={settings['dimensions']}, triplet={bool(settings['triplet'])}, span=span{_steered(settings)})
for name, value in fit.values.items():
    factor, unit = (1e3, " ms") if name in ("diffusion", "triplet_time") else (1, "")
    print(f"{{name}}: {{measured(value * factor, fit.errors[name] * factor if fit.lmfit.params[name].vary else None, unit)}}")
print(f"reduced chi-square: {{measured(fit.reduced)}}")
curves = {{"correlation": {{"seconds": curve.seconds, "G": curve.values, "error": curve.errors}}, "fit": {{"seconds": fit.axis, "G": fit.data, "fit": fit.curve}}}}
"""


def _correlation_settings(seen: Look) -> list[Setting]:
    groups = [group for group, number in enumerate(seen.inputs, 1) if number != 0 or seen.header.mode == "T3"] or [1]
    return [
        Setting("first", "First group", groups[0], 1, 64),
        Setting("second", "Second group (the same again for one detector)", groups[min(1, len(groups) - 1)], 1, 64),
        Setting("segments", "Segments, whose scatter tells the errors", 10, 3, 100),
        Setting("dimensions", "Dimensions of the diffusion, 2 or 3", 3, 2, 3),
        Setting("triplet", "A triplet state in the fit: 1, none: 0", 0, 0, 1),
        Setting("begin", "The fit begins at so many µs", 1.0, 0, 1e9, whole=False),
        Setting("until", "and ends at so many seconds (0: at the end)", 0.0, 0, 1e9, whole=False),
    ]


def _draw_correlation(names: Names) -> list[Drawn]:
    found, fit = names["curve"], names["fit"]
    there = np.isfinite(found.values)
    told = "Normalised: 1 is light without correlation. Bars are the standard errors of the segments; the fit is of molecules that diffuse."
    one = curve("correlation", found.seconds[there], found.values[there], found.errors[there], "linear")
    begin = float(fit.axis[0]) if len(fit.axis) else None
    axes = ("delay (s)", "s"), ("G (1 is no correlation)", "")
    return [with_curve(figure("correlation", "Correlation", told, *axes, [one], xlog=True, level=1.0, start=begin), "fit", fit.axis, fit.curve)]


# ## Antibunching


def _g2(document: Names, settings: Settings, second: str | None) -> str:
    return f"""{REPORT}pairs = report.table("coincidence", 1)
values, errors = antibunching.g2(pairs)
middle, lowest = np.abs(pairs.ticks).argmin(), (values + errors).argmin()
print(f"g2 at 0: {{measured(values[middle], errors[middle])}}")
print(f"lowest g2: {{measured(values[lowest], errors[lowest])}}, at {{pairs.seconds[lowest] * 1e9:.4g}} ns")
curves = {{"g2": {{"seconds": pairs.seconds, "pairs": pairs.counts, "g2": values, "error": errors}}}}
"""


def _pulsed(document: Names, settings: Settings, second: str | None) -> str:
    first, other = (_group(document, settings[key]) for key in ("first", "second"))
    return f"""pairs = antibunching.coincidences(file, {first}, {other}, {settings['reach']})
ratio, error = pairs.central_ratio(neighbours={settings['neighbours'] or None})
print(f"g2(0), the pairs of one pulse over those of two: {{measured(ratio, error)}}")
curves = {{"pairs": {{"periods": pairs.ticks, "pairs": pairs.counts}}}}
"""


def _pulsed_settings(seen: Look) -> list[Setting]:
    return [
        Setting("first", "First group", 1, 1, 64),
        Setting("second", "Second group", 2, 1, 64),
        Setting("reach", "Sync periods to either side", 10, 2, 1000, unit="sync periods"),
        Setting("neighbours", "Peaks beside it that are compared (0: all)", 0, 0, 1000),
    ]


def _draw_pulsed(names: Names) -> list[Drawn]:
    pairs = names["pairs"]
    told = f"{int(pairs.counts.sum()):,} pairs by how many sync periods the second photon is later. A single emitter has few at 0."
    bars = curve("pairs", pairs.ticks, pairs.counts, np.sqrt(pairs.variances()), "linear")
    return [figure("pairs", "Pairs of photons by pulses", told, ("sync periods", "sync periods"), ("pairs", "pairs"), [bars])]


# ## Single molecules, and patterns


def _bursts(document: Names, settings: Settings, second: str | None) -> str:
    numbers = [settings["donor"], settings["acceptor"], *([settings["own"]] if settings["own"] else [])]
    groups = ", ".join(_group(document, number) for number in numbers)
    return f"""groups = {groups}
rate = {settings['rate']!r} * 1e3


def found_in(file):
    photons = photons_of(file)
    bursts = fused(find_bursts(photons["time"], rate, minimum={settings['minimum']}, m={settings['m']}, unit_seconds=photons.header.global_seconds))
    return bursts, *(photons_in(bursts, photons, group) for group in groups)


bursts, *counted = found_in(file)
result = fret(*counted, gamma={settings['gamma']!r})
known = ~np.isnan(result.E)
print(f"bursts: {{len(bursts):,}}")
if len(bursts):
    print(f"median of their photons: {{np.median(bursts['last'] - bursts['first'] + 1):.4g}}")
    print(f"mean of E: {{result.E[known].mean():.4g}}, standard deviation {{result.E[known].std():.3g}}")
counts, edges = result.histogram(bins=48)
curves = {{"efficiency": {{"E": edges[:-1], "bursts": counts}}, "bursts": {{"start": bursts["start"], "stop": bursts["stop"], "E": result.E}}}}
if result.S is not None:
    curves["bursts"]["S"] = result.S
    known = ~np.isnan(result.S)
    print(f"mean of S: {{result.S[known].mean():.4g}}, standard deviation {{result.S[known].std():.3g}}" if known.any() else "no S is known")
"""


def _bursts_settings(seen: Look) -> list[Setting]:
    tick, photons = seen.header.global_seconds, sum(seen.inputs.values())
    mean = photons / (seen.length * tick) if tick is not None and _known(tick) and seen.length else 1e4
    return [
        Setting("donor", "Group of the donor", 1, 1, 64),
        Setting("acceptor", "Group of the acceptor", 2, 1, 64),
        Setting("own", "Group of the acceptor by its own laser (0: none)", 0, 0, 64),
        Setting("rate", "Threshold: so many thousand photons a second begin a burst", float(f"{5 * mean / 1e3:.2g}"), 1e-6, 1e9, whole=False),
        Setting("minimum", "Least photons of a burst", 30, 2, 100_000),
        Setting("m", "Photons in a row that are looked at", 10, 2, 1000),
        Setting("gamma", "gamma: how much better the acceptor is seen than the donor", 1.0, 1e-3, 1e3, whole=False),
    ]


def _draw_bursts(names: Names) -> list[Drawn]:
    result = names["result"]
    told = "How many bursts have each E: the part of a molecule's photons that went on to the acceptor."
    figures = [figure("efficiency", "Bursts by E", told, ("E", ""), ("bursts", "bursts"), [curve("bursts", names["edges"][:-1], names["counts"])])]
    if result.S is not None:
        there = ~(np.isnan(result.E) | np.isnan(result.S))
        points = curve("bursts", result.E[there], result.S[there], shape="points")
        said = f"Each of {np.count_nonzero(there):,} bursts by E and S: molecules with both dyes lie at middling S."
        figures.append(figure("e-s", "E and S", said, ("E", ""), ("S", ""), [points]))
    return figures


def _patterns(document: Names, settings: Settings, second: str | None) -> str:
    return f"""{REPORT}fold = report.table("fold", 1)
for groups, count in list(zip(fold.patterns(), fold.counts))[1:]:
    print(f"{{' and '.join(map(str, groups))}}: {{count:,}}")
curves = {{"patterns": {{"groups": [' and '.join(map(str, groups)) for groups in fold.patterns()], "photons": fold.counts}}}}
"""


def _scanned(seen: Look) -> str:
    return _only("T3", "pixels have delays after the sync")(seen) or _has_lines(seen)


def _has_lines(seen: Look) -> str:
    if seen.header.mode != "T3":
        return f"pixels are counted by sync periods: this is a {seen.header.mode} file, and it takes T3"
    there = re.search(r"\[\[(image|cube)\]\]", str(plan_of(seen))) or _scan_of_marks(seen, "image")
    return "" if there else "neither its header nor its markers tell of the lines of a scan"


def _scan_of_marks(seen: Look, kind: str) -> str:
    """An image or a cube by the markers alone, where the header tells of no scan: as many columns as there are lines in a frame."""
    counts = seen.bits
    lines = [bit for bit, count in counts.items() if 2 * count > max(counts.values())]
    begins = {bit: int(times[0]) for bit in lines if len(times := seen.marks.times(bit))}
    line = min(begins, key=lambda bit: begins[bit], default=0)
    frame = min(set(counts) - set(lines), key=lambda bit: counts[bit], default=0)
    stop = next((bit for bit in lines if bit != line), 0)
    length = seen.periods_of_line(line, stop or line) if line else None
    height = round(counts[line] / counts[frame]) if frame else counts.get(line, 0)
    if length is None or not 2 <= height <= SIDE or length < height:
        return ""
    keys = {"group": _of_all(seen), "width": height, "height": height, "dwell": round(length / height), "line": line, "frame": frame, "stop": stop}
    keys |= bins_of_pixel(seen, height * height) if kind == "cube" else {}
    said = f"\n# a guess by the markers, {height} lines in a frame: the header tells of no pixels; put the scan's own width here\n[[{kind}]]\n"
    return said + "".join(f"{key} = {value}\n" for key, value in keys.items() if value)


def _ticks_known(seen: Look) -> str:
    return "" if _known(seen.header.global_seconds) else "the header doesn't tell how long a tick is"


def _fits(*more: Setting) -> Callable[[Look], list[Setting]]:
    return lambda seen: [*more, *DECAY_SETTINGS[1:]]


NUMPY, FITS = "import numpy as np\n\nimport ptulab", "from ptulab import fits"
ANALYSES = {
    one.name: one
    for one in (
        Analysis("decay", "Decay and lifetime", "How long the dye stays excited: exponentials are fitted to the delays of the photons after the pulse.",
                 _only("T3", "photons have delays after a pulse"), ("histogram",), lambda seen: DECAY_SETTINGS, _decay, _draw_decay,
                 f"import ptulab\n{FITS}", second=("The measured pulse, for a fit of the whole decay", "none: the tail is fitted"), fits=True),
        Analysis("image", "Lifetime image", "An image of the scan that shows the mean delay of the photons in each pixel.",
                 _scanned, ("cube",), _fits(Setting("threshold", "Photons that a pixel must have (0: a tenth of the brightest)", 0, 0, 1e9),
                                         Setting("reference", "Lifetime in ns of the dye that is the reference (0: it is the pulse)", 0.0, 0, 1e6, whole=False)),
                 _image, _draw_image, f"{NUMPY}\nfrom ptulab import fits, phasors",
                 second=("A reference for the phasors: a dye of one known lifetime, or the pulse", "none: the pulse comes where the decay rises"), fits=True),
        Analysis("light", "Intensity image", "An image of the scan: how many photons each pixel has.", _has_lines, ("image",),
                 lambda seen: [], _light, _draw_light, NUMPY),
        Analysis("trace", "Intensity trace", "How many photons come in each bin of time, and how often each number of them comes (the photon counting histogram).",
                 _ticks_known, ("trace",), lambda seen: [Setting("number", "Trace of the plan", 1, 1, 32)], _trace, _draw_trace, NUMPY),
        Analysis("correlation", "Correlation (FCS)", "How many molecules are in the focus and how long each stays there: the curve falls at that delay.",
                 _ticks_known, (), _correlation_settings, _correlation, _draw_correlation, f"{NUMPY}\nfrom ptulab import fits, segments\nfrom ptulab.groups import Group",
                 by_python=True, fits=True),
        Analysis("antibunching", "Antibunching (g2)", "Does the light come from a single emitter? It does if g2 at delay 0 is below one half of the plateau, without background.",
                 _two_detectors("T2", "all pairs are counted by their times"), ("trace", "coincidence"), lambda seen: [], _g2,
                 lambda names: [*map(drawn, of_report(names["report"], "coincidence"))], f"{NUMPY}\nfrom ptulab import antibunching"),
        Analysis("pulsed", "Antibunching of a pulsed source", "Does the light come from a single emitter? Then one pulse hardly ever gives two photons.",
                 _two_detectors("T3", "pairs are counted by pulses"), (), _pulsed_settings, _pulsed, _draw_pulsed,
                 "from ptulab import antibunching\nfrom ptulab.groups import Group", by_python=True),
        Analysis("bursts", "Single molecules (FRET)", "Each molecule that crosses the focus gives a burst of photons; E tells how close its two dyes are.",
                 lambda seen: _ticks_known(seen) or ("" if len(seen.inputs) > 1 else "it takes the donor's and the acceptor's input, and the file has one"),
                 (), _bursts_settings, _bursts, _draw_bursts,
                 "import numpy as np\n\nfrom ptulab.bursts import find_bursts, fret, fused, photons_in\nfrom ptulab.groups import Group, photons_of",
                 by_python=True),
        Analysis("patterns", "Which detectors click together", "How often photons of several groups come within one short window of time.",
                 _two_detectors("T2", "photons are compared by their times"), (), lambda seen: [], _patterns,
                 lambda names: [*map(drawn, of_report(names["report"], "fold"))], "import ptulab"),
    )
}  # fmt: skip
