#!/usr/bin/env python3
"""Draws ten worked plots: plots.py FOLDER [PROGRAM]

It makes the samples of two detectors and of single molecules, runs ptu over them and over the sample of a scan, and
puts decay.png, trace.png, image.png, startstop.png, coincidence.png, correlation.png and bursts.png into FOLDER, and
overview.png, the picture of the README: what the three recipes of docs/start.md count, and fret.png and variance.png, those of
the recipes of single molecules in docs/recipes.md. Each plot is a function of a few lines, meant to be
copied. PROGRAM is the ptu that counts, by default ./ptu of this folder's tree. It needs NumPy and
Matplotlib.
"""

import math
import os
import subprocess
import sys
import tempfile
from typing import Any

import matplotlib

matplotlib.use("Agg")
import matplotlib.pyplot as plt  # noqa: E402
import numpy as np  # noqa: E402

sys.path.append(os.path.join(os.path.dirname(os.path.dirname(os.path.abspath(__file__))), "python", "src"))  # where ptulab isn't installed

import make_bursts  # noqa: E402
import make_fret  # noqa: E402
import make_samples  # noqa: E402
from make_pairs import photons  # noqa: E402
from make_pairs import TICK  # noqa: E402
from made_file import t2_words, write  # noqa: E402
from ptulab import plots as pictures  # noqa: E402
from ptulab import read_report, read_trace, smfret  # noqa: E402
from ptulab.antibunching import g2  # noqa: E402
from ptulab.bursts import and_gate, background, counted, find_bursts, fret, fused  # noqa: E402
from ptulab.groups import Group, photons_of  # noqa: E402

HERE = os.path.dirname(os.path.abspath(__file__))


def decay(report: Any, axes: Any) -> None:
    table = report.table("histogram")
    axes.semilogy(table.seconds * 1e9, np.maximum(table.counts, 0.5), drawstyle="steps-post")
    axes.set(xlabel="delay after the sync (ns)", ylabel="photons")


def trace(report: Any, axes: Any) -> None:
    table = report.table("trace")
    width = table.settings["width"] * report.head["global"]
    axes.plot(table.seconds * 1e3, table.counts / width / 1e3, drawstyle="steps-post")
    axes.set(xlabel="time (ms)", ylabel="rate (1000/s)")


def image(report: Any, axes: Any) -> None:
    axes.imshow(report.table("image").counts, cmap="gray", interpolation="nearest")
    axes.set(xlabel="column", ylabel="row")


def startstop(report: Any, axes: Any) -> None:
    table = report.table("startstop")
    axes.plot(table.seconds * 1e9, table.counts, drawstyle="steps-post")
    axes.set(xlabel="from a photon of input 1 to the next photon,\nif that is of input 2 (ns)", ylabel="pairs")


def coincidence(report: Any, axes: Any) -> None:
    table = report.table("coincidence")
    axes.plot(table.seconds * 1e9, g2(table)[0], drawstyle="steps-mid")
    axes.set(xlabel="difference (ns)", ylabel="g2", ylim=(0, None))


def correlation(report: Any, axes: Any) -> None:
    table = report.table("correlation")
    photons_of = [int(report.table("trace", number).counts[0]) for number in (1, 2)]
    axes.semilogx(table.seconds, table.normalised(*photons_of), ".-")
    axes.axhline(1, color="0.7")
    axes.set(xlabel="lag (s)", ylabel="G", ylim=(0, 3))


def lifetimes(report: Any, axes: Any, pulse: float = 2e-9, late: float = 30e-9, least: int = 25) -> None:
    """The mean delay of each pixel after the pulse, without the background, of those with enough photons.

    The background is even over the picture and the sync period: that of the late bins, in which no decay is left. The last
    bin is left out, since the period cuts it.
    """
    table = report.table("cube")
    counts, begins = table.counts[:, :, :-1], table.seconds[:-1]
    signal = counts - counts[:, :, begins > late].mean()
    middles = begins + table.settings["dwidth"] * report.head["resolution"] / 2 - pulse
    photons_of = signal.sum(axis=2)
    delays = np.where(photons_of < least, np.nan, (signal * middles).sum(axis=2) / photons_of * 1e9)
    low, high = np.nanpercentile(delays, (4, 96))  # a few pixels at the edge have few photons
    shown = axes.imshow(delays, cmap="viridis", interpolation="nearest", vmin=low, vmax=high)
    axes.figure.colorbar(shown, ax=axes, label="mean delay less background (ns)")
    axes.set(xlabel="column", ylabel="row", facecolor="0.9")


def antibunching(report: Any, axes: Any) -> None:
    table = report.table("coincidence")
    values, bars = g2(table)
    axes.errorbar(table.seconds * 1e9, values, bars, fmt=".", markersize=3, linewidth=0.7)
    axes.axhline(1, color="0.7")
    axes.set(xlabel="delay (ns)", ylabel="g2", ylim=(0, None))


def diffusion(report: Any, axes: Any) -> None:
    """A correlation with its bars, from where these are small."""
    table = report.table("correlation")
    values, bars = g2(table)
    shown = slice(int(np.argmax(bars < 0.05)), None)
    axes.errorbar(table.seconds[shown], values[shown], bars[shown], fmt=".", markersize=3, linewidth=0.7)
    axes.axhline(1, color="0.7")
    axes.set(xlabel="delay (s)", ylabel="G", xscale="log")


def overview(folder: str, program: str) -> None:
    """What the three recipes of docs/start.md count."""
    with tempfile.TemporaryDirectory() as made:
        molecules, pairs = os.path.join(made, "diffusion.ptu"), os.path.join(made, "steady.ptu")
        make_samples.diffusion(molecules)
        write(pairs, "HydraHarp2T2", t2_words(*photons(blinks=False)), TICK)
        files = {"flim.toml": os.path.join(HERE, "scan.ptu"), "fcs.toml": molecules, "g2.toml": pairs}
        reports = [report_of(program, plan, data) for plan, data in files.items()]
    figure, axes = plt.subplots(1, 3, figsize=(12, 3.4), layout="constrained")
    titles = "average arrival times of a scan", "correlation of diffusing molecules", "antibunching of one emitter"
    pictures: tuple[Any, ...] = (lifetimes, diffusion, antibunching)
    for draw_one, report, title, place in zip(pictures, reports, titles, axes, strict=True):
        draw_one(report, place)
        place.set_title(title)
    figure.savefig(os.path.join(folder, "overview.png"), dpi=90, metadata={"Software": None})


def bursts(folder: str, program: str) -> None:
    """Two seconds of single molecules by milliseconds, and how many bins have how many photons, beside what the
    background alone would give."""
    with tempfile.NamedTemporaryFile(suffix=".ptu") as data, tempfile.NamedTemporaryFile() as lines:
        write(data.name, "HydraHarp2T2", t2_words(make_bursts.photons()), make_bursts.TICK)
        subprocess.run([program, "trace", os.path.join(HERE, "bursts.toml"), data.name], check=True, stdout=lines)
        table = read_trace(lines.name)
    figure, (left, right) = plt.subplots(1, 2, figsize=(10, 3.2), layout="constrained")
    counts = np.zeros(2000)
    seen = table.bins < len(counts)
    counts[table.bins[seen]] = table.counts[seen]
    left.plot(np.arange(len(counts)) / 1000, counts, linewidth=0.6)
    left.set(xlabel="time (s)", ylabel="photons in a millisecond")
    often = np.trim_zeros(np.asarray(table.frequencies), "b")
    right.semilogy(often, ".", label="counted")
    mean = make_bursts.BACKGROUND / 1000
    few = np.arange(12)
    even = often.sum() * np.exp(-mean) * mean**few / np.array([float(math.factorial(n)) for n in few])
    right.semilogy(few[even > 0.5], even[even > 0.5], color="0.7", label="background alone")
    right.set(xlabel="photons in a millisecond", ylabel="milliseconds")
    right.legend()
    figure.savefig(os.path.join(folder, "bursts.png"), dpi=90, metadata={"Software": None})


def molecules(folder: str) -> None:
    """E and S of single molecules, corrected, and how far E varies within those that both of two searches find."""
    either, donor, acceptor, direct = (Group(inputs, [gate]) for inputs, gate in (([0, 1], (0, 1000)), ([0], (0, 1000)), ([1], (0, 1000)), ([1], (1000, 2000))))
    with tempfile.NamedTemporaryFile(suffix=".ptu") as data:
        make_fret.bursts(data.name)
        seen = photons_of(data.name)
    found = fused(find_bursts(seen, background(seen, seconds=10), F=6, minimum=30))
    counts = counted(found, seen, (donor, acceptor, direct), seconds=10)
    raw, steady = fret(**counts), smfret.alex_2cde(found, seen, either, direct) < 15
    kinds = [steady & raw.select(span, S=(0.25, 0.85)) for span in ((0, 0.29), (0.29, 0.49), (0.49, 0.73), (0.73, 1))]
    result = smfret.calibrate(**counts, donor_only=raw.select(S=(0.9, 2)), acceptor_only=raw.select(S=(-1, 0.15)), populations=kinds)
    first, second = (find_bursts(seen, background(seen, group, seconds=10), F=30, group=group) for group in (either, direct))
    both = and_gate(first, second, seen, minimum=50)
    variance = smfret.burst_variance(both, seen, donor, acceptor)
    drawings: tuple[Any, ...] = (("fret", pictures.plot_fret, result), ("variance", pictures.plot_burst_variance, variance))
    for name, draw_one, what in drawings:
        figure, axes = plt.subplots(figsize=(5, 3.6), layout="constrained")
        draw_one(what, axes)
        figure.savefig(os.path.join(folder, f"{name}.png"), dpi=90, metadata={"Software": None})


def report_of(program: str, plan: Any, data: Any) -> Any:
    run = subprocess.run([program, "run", os.path.join(HERE, plan), data], check=True, capture_output=True, text=True)
    return read_report(run.stdout, os.path.join(HERE, plan))


def draw(folder: str, report: Any, plots: Any) -> None:
    for plot in plots:
        figure, axes = plt.subplots(figsize=(5, 3.2), layout="constrained")
        plot(report, axes)
        figure.savefig(os.path.join(folder, f"{plot.__name__}.png"), dpi=90, metadata={"Software": None})


def main() -> None:
    folder = sys.argv[1]
    program = sys.argv[2] if len(sys.argv) > 2 else os.path.join(os.path.dirname(HERE), "ptu")
    draw(folder, report_of(program, "scan.toml", os.path.join(HERE, "scan.ptu")), (decay, trace, image))
    with tempfile.NamedTemporaryFile(suffix=".ptu") as data:
        write(data.name, "HydraHarp2T2", t2_words(*photons()), TICK)
        pairs = report_of(program, "pairs.toml", data.name)
    draw(folder, pairs, (startstop, coincidence, correlation))
    overview(folder, program)
    bursts(folder, program)
    molecules(folder)


if __name__ == "__main__":
    main()
