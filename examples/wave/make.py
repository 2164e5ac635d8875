#!/usr/bin/python3
"""Writes the files beside this script: an earthquake that passes over twelve stations.

Python 3 with numpy, scipy and matplotlib.

The synthetic earthquake (`examples/jma/records.py`) spreads from one point, weaker with distance. Its P wave goes 6 km
in a second, its S wave 3.5 km. Every station sends a packet a second, and a mark follows each second. One packet comes
twice, one is lost, and one comes from a station that is not listed. The capture is replayed with
`examples/jma/setup.toml`, and the journal, the output and a picture of both are written too.
"""

import pathlib
import sys

HERE = pathlib.Path(__file__).resolve().parent
JMA = HERE.parent / "jma"
sys.path.insert(0, str(JMA))

import matplotlib
import numpy

import measure
import records
from official import RATE

matplotlib.use("agg")
import matplotlib.pyplot
import matplotlib.ticker

SECONDS = 82

# The earthquake: second, magnitude, epicentre and depth in km.
ORIGIN = 1
MAGNITUDE = 6.8
EPICENTRE = (12, 40)
DEPTH = 8
SEED = 300  # of the noise that its waves are made of, with a station's code

# Behind everything, at every station: noise of so many gal.
NOISE = 0.02

# code, x and y in metres, factor in tenths: how much more its ground shakes than rock does.
STATIONS = (
    (101, 15_000, 43_000, 0),
    (102, 8_000, 30_000, 1),
    (103, 22_000, 33_000, -1),
    (104, 25_000, 50_000, 2),
    (105, 33_000, 40_000, 0),
    (106, 41_000, 50_000, 3),
    (107, 42_000, 29_000, -2),
    (108, 50_000, 41_000, 0),
    (109, 59_000, 33_000, 1),
    (110, 62_000, 50_000, 2),
    (111, 72_000, 44_000, 0),
    (112, 84_000, 40_000, -1),
)

# name, area, x and y in metres, factor in tenths
TARGETS = (
    ("harbour", "coast", 24_000, 45_000, 3),
    ("line_1", "coast", 28_000, 35_000, 0),
    ("plant", "coast", 19_000, 37_000, -1),
    ("bridge", "inland", 55_000, 44_000, 0),
    ("town", "inland", 62_300, 50_200, 2),
    ("dam", "inland", 78_000, 42_000, -2),
)

# The target of the picture, and the station beside it, on the same ground.
TARGET, AREA, BESIDE = "town", "inland", 110

TWICE = (105, 20)
LOST = (112, 40)
UNLISTED, UNLISTED_AT = 9, 30


def distance(x, y):
    """From the earthquake, in km."""
    east, north = x / 1000 - EPICENTRE[0], y / 1000 - EPICENTRE[1]
    return numpy.sqrt(east**2 + north**2 + DEPTH**2)


def shaking(code, x, y, factor):
    """The record of a station, in counts."""
    quake = records.earthquake(SEED + code, SECONDS, ORIGIN, MAGNITUDE, distance(x, y))
    noise = numpy.random.RandomState(code).standard_normal(quake.shape) * NOISE
    return records.counts_of((quake + noise) * 10 ** (factor / 20), measure.COUNTS_PER_GAL)


def capture():
    each = {code: records.packets(code, shaking(code, *site)) for code, *site in STATIONS}
    for second in range(SECONDS):
        for code, packets in each.items():
            times = 1 + ((code, second) == TWICE) - ((code, second) == LOST)
            yield from [packets[second]] * times
        if second == UNLISTED_AT:
            yield records.packet(UNLISTED, second, numpy.zeros((3, RATE), int))
        if second < SECONDS - 1:
            yield records.MARK


def csv(header, rows):
    return "".join(",".join(map(str, row)) + "\n" for row in [header.split(","), *rows])


def fields_of(name, letter):
    lines = (line.split(" ") for line in (HERE / name).read_text().splitlines())
    return [fields for fields in lines if fields[0] == letter]


def steps(pairs):
    """Seconds and intensities, without those that are none."""
    return zip(*((int(second), float(value)) for second, value in pairs if value != "-"))


def draw():
    """The picture: what was predicted at a target, and what the station beside it observed, at each mark."""
    predicted = [(f[1], f[3]) for f in fields_of("output", "P") if f[2] == TARGET]
    observed = [(f[2], f[7]) for f in fields_of("journal", "E") if f[3] == str(BESIDE)]
    alerts = [(int(f[1]), " ".join(f[3:])) for f in fields_of("output", "A") if f[2] == AREA]
    km = next(distance(x, y) for code, x, y, _ in STATIONS if code == BESIDE)
    arrivals = [(ORIGIN + km / records.P_SPEED, "P"), (ORIGIN + km / records.S_SPEED, "S")]
    figure, parts = matplotlib.pyplot.subplots(
        1, 2, figsize=(9, 4.5), sharey=True, gridspec_kw={"width_ratios": (2, 1)}
    )
    for axes, ends in zip(parts, ((0, 26), (69, SECONDS))):
        axes.step(*steps(predicted), where="post", color="tab:red", label=f"predicted at {TARGET}")
        axes.step(*steps(observed), where="post", color="tab:blue", label=f"observed at station {BESIDE}, beside it")
        for second, what in alerts:
            axes.axvline(second, color="tab:red", linestyle=":", linewidth=1)
            axes.text(second + 0.15, 5.9, what, color="tab:red", rotation=90, va="top", clip_on=True)
        for second, what in arrivals:
            axes.axvline(second, color="0.6", linewidth=0.8)
            axes.text(second - 0.15, 5.9, what, color="0.4", ha="right", va="top", clip_on=True)
        axes.set(xlabel="mark, one a second", xlim=ends, ylim=(-3, 6))
        axes.xaxis.set_major_locator(matplotlib.ticker.MultipleLocator(5))
    parts[0].set(ylabel="intensity")
    parts[0].legend(loc="lower right")
    figure.tight_layout()
    figure.savefig(HERE / "wave.png", dpi=90, metadata={"Software": None})


def main():
    (HERE / "stations.csv").write_text(csv("code,x,y,factor", STATIONS))
    (HERE / "targets.csv").write_text(csv("name,area,x,y,factor", TARGETS))
    (HERE / "capture").write_bytes(b"".join(capture()))
    measure.replay(JMA / "setup.toml", HERE)
    draw()


if __name__ == "__main__":
    main()
