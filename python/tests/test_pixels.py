"""Lifetimes of pixels against pictures that were made: 64 bins over 25 ns, a pulse of 0.12 ns in bins eight times finer."""

from typing import Any

import numpy as np
import pytest

from ptulab import fits, phasors, pixels

BINS, WIDTH, PERIOD = 64, 25 / 64, 25.0
PULSE = np.histogram(np.random.default_rng(1).normal(2.0, 0.12, 1_000_000), BINS * 8, (0, PERIOD))[0]
SHAPE = fits.Convolved(PULSE.astype(float), 8, WIDTH, PERIOD)


def picture(seed: int, rows: int, parts: Any, background: float = 0.0) -> Any:
    """Counts of square pictures, of amplitudes by lifetime: numbers, or shape (rows, rows)."""
    exact = sum(np.multiply.outer(np.broadcast_to(photons, (rows, rows)), SHAPE.decay(lifetime, 0.03)) for lifetime, photons in parts.items())
    return np.random.default_rng(seed).poisson(exact + background)


SETTINGS: dict[str, Any] = {"period": PERIOD, "shift": 0.03}


@pytest.mark.parametrize(("lifetime", "photons", "background"), [(2.5, 100, 0.0), (2.5, 300, 0.5), (0.4, 300, 0.2), (8.0, 1000, 1.0)])
def test_lifetimes_of_pixels_and_their_errors(lifetime: float, photons: int, background: float) -> None:
    """Of 4900 pixels the mean is right to 2 %, and told errors are as the scatter, within a tenth."""
    counts = picture(3, 70, {lifetime: photons}, background)
    found = pixels.fit_pixels(counts, PULSE, WIDTH, [1.0], background=background, **SETTINGS)
    times, errors = found.lifetimes[..., 0], found.errors[..., 0]
    assert times.shape == (70, 70) and np.median(times) == pytest.approx(lifetime, rel=0.02)
    assert np.sqrt((errors**2).mean()) == pytest.approx(times.std(), rel=0.1)
    assert found.amplitudes.mean() == pytest.approx(photons, rel=0.02) and found.mean == pytest.approx(times)
    one = fits.fit_reconvolution(counts[3, 4], PULSE, WIDTH, period=PERIOD, fixed={"shift": 0.03, "background": background})
    assert times[3, 4] == pytest.approx(one.values["lifetime_1"], rel=2e-3) and errors[3, 4] == pytest.approx(one.errors["lifetime_1"], rel=0.03)


def test_two_lifetimes_that_are_held_or_shared() -> None:
    """A picture in which the part of the slower decay goes from 0 to 1: shared lifetimes are found to 2 %."""
    part = np.broadcast_to(np.linspace(0, 1, 40), (40, 40))
    counts = picture(4, 40, {0.8: 300 * (1 - part), 3.2: 300 * part}, 0.2)
    held = pixels.fit_pixels(counts, PULSE, WIDTH, [0.8, 3.2], kind="fixed", background=0.2, **SETTINGS)
    shared = pixels.fit_pixels(counts, PULSE, WIDTH, [0.4, 5.0], kind="shared", background=np.full(BINS, 0.2), **SETTINGS)
    for found in (held, shared):
        slow = found.amplitudes[..., 1] / found.amplitudes.sum(axis=-1)
        assert slow[:, 5:-5].mean(axis=0) == pytest.approx(part[0, 5:-5], abs=0.03) and slow[:, :2].max() < 0.4
    assert shared.lifetimes[7, 9] == pytest.approx([0.8, 3.2], rel=0.02) and np.isnan(held.errors).all()
    assert (np.abs(shared.lifetimes[0, 0] - [0.8, 3.2]) < 4 * shared.errors[0, 0]).all() and (shared.errors[0, 0] < 0.05).all()
    assert shared.mean[20, 20] == pytest.approx(2.0, abs=0.5)


def test_shared_lifetimes_of_pixels_that_have_one_alone() -> None:
    """Where no amplitude is below 0 the likelihood would pull 1.5 and 3.5 ns apart to 1.45 and 3.64."""
    counts = np.concatenate([picture(5, 40, {1.5: 250}), picture(6, 40, {3.5: 250})])
    found = pixels.fit_pixels(counts, PULSE, WIDTH, [1.0, 5.0], kind="shared", **SETTINGS)
    assert found.lifetimes[0, 0] == pytest.approx([1.5, 3.5], rel=0.02)


def test_shared_lifetimes_have_the_errors_of_their_scatter(monkeypatch: pytest.MonkeyPatch) -> None:
    curves = pixels._Curves(SHAPE, SETTINGS["shift"], BINS, True)
    monkeypatch.setattr(pixels, "_Curves", lambda *_: curves)  # the same for all, made once
    found = [pixels.fit_pixels(picture(seed, 8, {0.8: 200, 3.2: 200}), PULSE, WIDTH, [0.5, 4.0], kind="shared", **SETTINGS) for seed in range(200)]
    values, errors = np.array([one.lifetimes[0, 0] for one in found]), np.array([one.errors[0, 0] for one in found])
    assert np.sqrt((errors**2).mean(axis=0)) == pytest.approx(values.std(axis=0), rel=0.1)
    assert values.mean(axis=0) == pytest.approx([0.8, 3.2], rel=0.02)


def test_two_lifetimes_of_each_pixel() -> None:
    found = pixels.fit_pixels(picture(6, 40, {0.6: 20_000, 4.0: 20_000}), PULSE, WIDTH, [0.5, 3.0], **SETTINGS)
    assert found.lifetimes.mean(axis=(0, 1)) == pytest.approx([0.6, 4.0], rel=0.02)
    assert found.errors.mean(axis=(0, 1)) == pytest.approx(found.lifetimes.std(axis=(0, 1)), rel=0.1)


@pytest.mark.parametrize("part", [0.0, 0.05, 0.5])
def test_no_pixel_is_less_likely_than_the_truth(part: float) -> None:
    """Of two free lifetimes and 300 photons a pixel, also where one of the decays is all or next to all there is."""
    truth = {0.8: 300 * part, 3.2: 300 * (1 - part)}
    counts = picture(3, 40, truth, 0.2)
    found = pixels.fit_pixels(counts, PULSE, WIDTH, [0.5, 4.0], background=0.2, **SETTINGS)
    curves = np.moveaxis(pixels._Curves(SHAPE, SETTINGS["shift"], BINS, False).of(np.log(np.moveaxis(found.lifetimes, -1, 0)))[:2], 0, -2)
    exact = sum(photons * SHAPE.decay(lifetime, SETTINGS["shift"]) for lifetime, photons in truth.items())
    fitted, known = (np.sum(counts * np.log(one + 0.2) - one, axis=-1) for one in (np.einsum("xyt,xytb->xyb", found.amplitudes, curves), exact))
    assert (fitted > known).mean() > 0.98 and 1 < (fitted - known).mean() < 2.2  # 2 in the mean of four parameters


def test_a_lone_photon_before_the_pulse_moves_no_pixel_to_and_fro() -> None:
    """Of few photons without background some come where one decay has next to nothing: the likelihood is as great as by 1000
    steps that raise it each (expectation and maximisation), with lifetimes that are held; shared ones settle in some turns."""
    part = np.random.default_rng(0).random((40, 40))
    counts = picture(2, 40, {0.8: 150 * (1 - part), 3.2: 150 * part})
    found = pixels.fit_pixels(counts, PULSE, WIDTH, [0.8, 3.2], kind="fixed", **SETTINGS).amplitudes
    parts, best = np.stack([SHAPE.decay(lifetime, SETTINGS["shift"]) for lifetime in (0.8, 3.2)]), np.full(found.shape, 75.0)
    for _ in range(1000):
        best *= counts / np.maximum(best @ parts, 1e-300) @ parts.T / parts.sum(axis=1)
    likely = [(counts * np.log(np.maximum(one @ parts, 1e-12)) - one @ parts).sum(axis=-1) for one in (found, best)]
    assert (likely[1] - likely[0]).max() < 0.01


def test_shared_lifetimes_settle(monkeypatch: pytest.MonkeyPatch) -> None:
    """Of a picture of 150 photons a pixel, in at most six turns over it."""
    turns: list[int] = []
    efficient = pixels._efficient

    def noted(*words: Any) -> Any:
        turns.append(len(words[0]))
        return efficient(*words)

    monkeypatch.setattr(pixels, "_efficient", noted)
    part = np.random.default_rng(0).random((128, 128))
    counts = picture(1, 128, {0.8: 150 * (1 - part), 3.2: 150 * part})
    found = pixels.fit_pixels(counts, PULSE, WIDTH, [0.5, 4.0], kind="shared", **SETTINGS)
    assert sum(turns) <= 6 * 128 * 128 and (np.abs(found.lifetimes[0, 0] - [0.8, 3.2]) < 4 * found.errors[0, 0]).all()


def test_pixels_with_few_photons_and_shapes_that_do_not_fit() -> None:
    counts = picture(8, 4, {2.0: 200})
    counts[1, 2] = 0
    found = pixels.fit_pixels(counts, PULSE, WIDTH, [1.0], **SETTINGS)
    assert np.isnan(found.lifetimes[1, 2]).all() and np.isnan(found.lifetimes).sum() == 1
    kinds: list[Any] = ["free", "shared"]
    for kind in kinds:
        none = pixels.fit_pixels(counts * 0, PULSE, WIDTH, [1.0], kind=kind, **SETTINGS)
        assert np.isnan(none.amplitudes).all()
    for pulse, lifetimes in ((PULSE[1:], [1.0]), (PULSE * 0, [1.0]), (PULSE, [1.0, 2.0, 3.0])):
        with pytest.raises(ValueError):
            pixels.fit_pixels(counts, pulse, WIDTH, lifetimes)
    with pytest.raises(ValueError, match="for 0"):
        pixels.fit_pixels(counts[..., :0], PULSE, WIDTH, [1.0])


@pytest.mark.parametrize(
    ("more", "said"),
    [
        ({"kind": "Free"}, "lifetimes are free, shared, fixed, not 'Free'"),
        ({"lifetimes": [0.0]}, "lifetimes of 0.0 in bins"),
        ({"lifetimes": [1.0, np.nan]}, "lifetimes of 1.0, nan in bins"),
        ({"width": 0.0}, "in bins of 0.0, which must be more than 0"),
        ({"counts": np.full((2, BINS), -1)}, "counts or a background less than 0"),
        ({"background": np.full(BINS, -0.1)}, "counts or a background less than 0"),
        ({"background": np.nan}, "counts or a background less than 0"),
        ({"period": 63 * WIDTH}, "64 bins of 0.390625 are longer than a period"),
    ],
)
def test_pixels_that_no_fit_is_of(more: Any, said: str) -> None:
    """A word that was misspelt, counts without their background, and bins behind the period would give lifetimes that are wrong."""
    given: dict[str, Any] = {"counts": np.ones((2, BINS)), "pulse": PULSE, "width": WIDTH, "lifetimes": [1.0], **SETTINGS}
    assert np.isfinite(pixels.fit_pixels(**given).lifetimes).all()
    with pytest.raises(ValueError, match=said):
        pixels.fit_pixels(**(given | more))


def test_mean_delays_without_background() -> None:
    """A background of a count in each bin pulls the mean to the middle of the period; taken off, it is the lifetime again."""
    counts = picture(9, 30, {2.5: 400}, 1.0)
    axis, offset = np.arange(BINS) * WIDTH, 2.03
    raw = phasors.mean_delays(counts, axis, offset=offset)
    levels: tuple[Any, Any] = (1.0, np.ones(BINS))
    clean = [phasors.mean_delays(counts, axis, offset=offset, background=dark) for dark in levels]
    assert raw.mean() > 3.2
    for one in clean:
        assert one.mean() == pytest.approx(2.5, rel=0.02) and one.shape == (30, 30)


def test_neighbours_bins_and_regions() -> None:
    counts = np.random.default_rng(3).integers(0, 9, (7, 9, 3))
    near = pixels.with_neighbours(counts, 1)
    assert near.shape == counts.shape and (near[3, 4] == counts[2:5, 3:6].sum(axis=(0, 1))).all()
    assert (near[0, 0] == counts[:2, :2].sum(axis=(0, 1))).all() and (near[6, 8] == counts[5:, 7:].sum(axis=(0, 1))).all()
    assert (pixels.with_neighbours(counts[..., 0], 2)[3, 4] == counts[1:6, 2:7, 0].sum()).all()
    coarse = pixels.binned(counts, 3)
    assert coarse.shape == (2, 3, 3) and (coarse[1, 2] == counts[3:6, 6:9].sum(axis=(0, 1))).all()
    places = np.add.outer(1j * np.arange(7), np.arange(9))
    mask = pixels.inside(places, [1.5 + 0.5j, 5.5 + 0.5j, 5.5 + 3.5j, 1.5 + 3.5j])
    assert (np.argwhere(mask).min(axis=0) == [1, 2]).all() and (np.argwhere(mask).max(axis=0) == [3, 5]).all() and mask.sum() == 12
    assert not pixels.inside(np.array([np.nan + 1j]), [0j, 9 + 0j, 9j])[0]


def test_regions_that_share_an_edge_share_no_pixel_and_lose_none() -> None:
    """A rectangle in four, with corners and edges on pixels, and a triangle in two."""
    places = np.add.outer(1j * np.arange(9), np.arange(9))
    parts = [[a + b * 1j, c + b * 1j, c + d * 1j, a + d * 1j] for a, c in ((1, 4), (4, 7)) for b, d in ((2, 3), (3, 8))]
    whole = pixels.inside(places, [1 + 2j, 7 + 2j, 7 + 8j, 1 + 8j])
    assert (np.sum([pixels.inside(places, one) for one in parts], axis=0) == whole).all() and whole.sum() == 36
    halves = [pixels.inside(places, corners) for corners in ([0j, 8 + 0j, 4 + 4j], [0j, 4 + 4j, 8j], [8 + 0j, 8 + 8j, 4 + 4j], [4 + 4j, 8 + 8j, 8j])]
    assert (np.sum(halves, axis=0) == pixels.inside(places, [0j, 8 + 0j, 8 + 8j, 8j])).all()


def test_numbers_of_32_bits_tell_what_those_of_64_do(monkeypatch: pytest.MonkeyPatch) -> None:
    counts = picture(5, 12, {0.8: 150, 3.2: 150}, 0.2)
    short = pixels.fit_pixels(counts, PULSE, WIDTH, [0.5, 4.0], background=0.2, **SETTINGS)
    monkeypatch.setattr(pixels, "MANY", 0)
    long = pixels.fit_pixels(counts, PULSE, WIDTH, [0.5, 4.0], background=0.2, **SETTINGS)
    off = np.abs(short.lifetimes - long.lifetimes) / long.errors
    assert np.nanmedian(off) < 0.002 and np.nanquantile(off, 0.97) < 0.02
