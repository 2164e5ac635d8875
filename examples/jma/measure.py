"""Measures what the setup is worth: `design.py measure`. Python 3 with numpy, scipy and matplotlib.

Synthetic records are replayed by plum, and the greatest value of each is compared with the official intensity of the
whole record, which `official.py` works out from the same counts.
"""

import csv
import dataclasses
import pathlib
import subprocess
import tempfile

import matplotlib
import numpy
import scipy.signal

import cascade
import official
import records
import setups
from official import RATE

matplotlib.use("agg")
import matplotlib.pyplot

HERE = pathlib.Path(__file__).resolve().parent
PLUM = HERE.parent.parent / "plum"

# The sensor of the records, and of `setup.toml` beside this script.
COUNTS_PER_GAL = 1000

WINDOW = 60 * RATE  # samples, as plum has it

# What is made weaker and stronger, in steps of half an intensity, with a sensor whose count is a filtered unit.
SCALED = ("M5 at 10 km", "M6 at 30 km", "M7 at 100 km", "M8 at 100 km", "1 Hz for 8 s")
WEAKEST, STRONGEST = -4.95, 7.55
FINE = cascade.UNITS

# The records that are kept, for the gate to replay.
KEPT = ("M5 at 10 km", "M7 at 30 km", "1 Hz for 8 s")


# What makes a value differ from the official intensity, step by step.
PARTS = ("response", "phase", "whole numbers", "window")


@dataclasses.dataclass(frozen=True)
class Compared:
    """What became of a record.

    `steps` are its intensities: the official one; by the cascade's amplitude response without its phase; by the cascade
    before it is put in whole numbers; by the cascade in plum's arithmetic; and that of the loudest minute.
    """

    name: str
    gal: float
    steps: tuple
    value: int
    cut: bool

    @property
    def told(self):
        """The official intensity as the JMA tells it, in tenths."""
        return int(official.tenths(self.steps[0]))

    @property
    def difference(self):
        """Of plum's value, in tenths."""
        return self.value - self.told

    @property
    def parts(self):
        """What each of `PARTS` adds."""
        return numpy.diff(self.steps)

    def row(self):
        parts = [f"{round(part, 3) + 0.0:.3f}" for part in self.parts]
        ends = [f"{self.steps[0]:.2f}", self.told / 10, self.value / 10, self.difference / 10]
        return [self.name, f"{self.gal:.3g}", *ends, *parts]


def made():
    """The records, in gal: a name and three rows of samples each. All but the last three take a minute."""
    several, seed = {}, 0
    for magnitude in (3, 4, 5, 6, 7, 8):
        for distance in (10, 30, 100):
            for which in ("", ", again"):
                seed += 1
                gal = records.earthquake(seed, 60, 1, magnitude, distance)
                several[f"M{magnitude} at {distance} km{which}"] = records.tapered(gal)
    for frequency, gal in ((0.2, 30), (0.5, 300), (1, 100), (2, 10), (5, 1000), (10, 100)):
        for duration in (2, 8, 30):
            swing = records.swing(60, 10, duration, frequency, gal)
            several[f"{frequency} Hz for {duration} s"] = swing
    for seed, distance in ((101, 100), (102, 200)):
        gal = records.earthquake(seed, 150, 1, 8, distance)
        several[f"M8 at {distance} km, 150 s"] = records.tapered(gal)
    twice = records.swing(150, 10, 1, 2, 100) + records.swing(150, 100, 1, 2, 100)
    several["2 Hz for 1 s, and again after 90 s"] = twice
    return several


def replay(setup, folder):
    """Replays the files of a folder, and leaves what plum writes beside them."""
    inputs = (folder / name for name in ("stations.csv", "targets.csv", "capture", "journal"))
    with open(folder / "output", "wb") as output:
        subprocess.run([PLUM, "replay", setup, *inputs], check=True, stdout=output)


def greatest_values(several, counts_per_gal):
    """Replays records in counts, each as a station's, and gives the greatest value of each, in tenths."""
    values = [[] for _ in several]
    with tempfile.TemporaryDirectory() as folder:
        folder = pathlib.Path(folder)
        (folder / "setup.toml").write_text(setups.setup(counts_per_gal))
        stations = [f"{code},0,0,0\n" for code in range(len(several))]
        (folder / "stations.csv").write_text("code,x,y,factor\n" + "".join(stations))
        (folder / "targets.csv").write_text("name,area,x,y,factor\n")
        with open(folder / "capture", "wb") as capture:
            for code, counts in enumerate(several):
                capture.writelines(records.packets(code, counts))
        replay(folder / "setup.toml", folder)
        for line in (folder / "journal").read_text().splitlines():
            _, _, _, code, _, _, _, value = line.split(" ")
            if value != "-":
                values[int(code)].append(round(float(value) * 10))
    return [max(some) for some in values]


def amplitudes_of(filtered):
    return numpy.sqrt((filtered.astype(float) ** 2).sum(axis=-2))


def whole(amplitudes):
    """The intensity of all amplitudes of a record."""
    return official.of_amplitude(official.reached_long_enough(amplitudes))


def in_windows(amplitudes):
    """The greatest intensity that a minute's window has, at the end of some packet."""
    ends = range(RATE, len(amplitudes) + 1, RATE)
    windows = (amplitudes[max(0, end - WINDOW) : end] for end in ends)
    return official.of_amplitude(max(map(official.reached_long_enough, windows)))


def same_phase(gal):
    """The intensity by a filter with the cascade's amplitude response and no phase."""
    length = gal.shape[1]
    frequencies = numpy.fft.rfftfreq(length, 1 / RATE)
    size = cascade.response_of(cascade.designed(), frequencies)
    return whole(amplitudes_of(numpy.fft.irfft(numpy.fft.rfft(gal) * size, length)))


def fixed(several, counts_per_gal):
    """For each record in counts: its amplitudes in gal by plum's arithmetic, and whether it was cut on the way."""
    gain, stages = cascade.gain_for(counts_per_gal), cascade.designed()
    found = {}
    for length in {counts.shape[1] for counts in several}:
        which = [k for k, counts in enumerate(several) if counts.shape[1] == length]
        signals = cascade.signals_of(numpy.array([several[k] for k in which]), gain)
        filtered, cut = cascade.passed(stages, signals)
        amplitudes = amplitudes_of(filtered) / cascade.UNITS
        found |= {k: (amplitudes[at], bool(cut[at].any())) for at, k in enumerate(which)}
    return [found[k] for k in range(len(several))]


def compared(several, counts_per_gal):
    """Replays records in gal, as a sensor tells them, and compares each."""
    counts = [records.counts_of(gal, counts_per_gal) for gal in several.values()]
    values = greatest_values(counts, counts_per_gal)
    rows = []
    for name, some, value, (amplitudes, cut) in zip(several, counts, values, fixed(counts, counts_per_gal)):
        gal = some / counts_per_gal
        floating = whole(amplitudes_of(scipy.signal.sosfilt(cascade.unrounded(), gal)))
        steps = (official.intensity(gal), same_phase(gal), floating, whole(amplitudes), in_windows(amplitudes))
        rows.append(Compared(name, abs(gal).max(), steps, value, cut))
    return rows


def scaled(several):
    """Some records in every strength that is asked for: each strength with its records."""
    strengths = {}
    for strength in numpy.arange(WEAKEST, STRONGEST + 0.1, 0.5):
        strengths[strength] = {
            name: several[name] * 10 ** ((strength - official.intensity(several[name])) / 2) for name in SCALED
        }
    return strengths


def told(differences):
    """The greatest of some differences, the mean of their sizes, and their mean."""
    size = numpy.abs(differences)
    return f"greatest {size.max():.3f}, mean size {size.mean():.3f}, mean {numpy.mean(differences):+.3f}"


def tell_differences(rows):
    differences = numpy.array([row.difference for row in rows])
    print(f"{len(rows)} records: plum's value less the official intensity")
    print("  as told:", told(differences / 10))
    print("  " + ", ".join(f"{k / 10} in {numpy.count_nonzero(abs(differences) == k)}" for k in range(3)))
    print("  before tenths:", told([row.steps[-1] - row.steps[0] for row in rows]))
    for name, part in zip(PARTS, numpy.array([row.parts for row in rows]).T):
        print(f"  of that, {name}:", told(part))
    same = [row.value == min(official.tenths(row.steps[-1]), setups.GREATEST) for row in rows]
    print(f"  the value is that of the arithmetic in cascade.py: {sum(same)} of {len(same)}")


def tell_strengths(several):
    print(f"{', '.join(SCALED)}, weaker and stronger: what whole numbers change, and how many were cut")
    for strength, some in scaled(several).items():
        rows = compared(some, FINE)
        greatest = max(abs(row.parts[2]) for row in rows)
        gal = [row.gal for row in rows]
        cut = sum(row.cut for row in rows)
        print(f"  {strength:5.2f} ({min(gal):.3g} to {max(gal):.3g} gal): {greatest:.3f}, {cut} of {len(rows)}")


def tell_cascade():
    frequencies = cascade.COMPARED
    size = cascade.response_of(cascade.designed(), frequencies)
    deviation = abs(official.of_amplitude(size) - official.of_amplitude(official.response(frequencies))).max()
    print(f"response from 0.1 to 20 Hz: greatest deviation {deviation * 10:.4f} tenths of intensity")
    uncut = cascade.BOUND / cascade.UNITS / max(1, *cascade.greatest_sums(cascade.designed()))
    print(f"no motion of at most {uncut:.0f} gal on each component is cut")
    step = numpy.ones((1, WINDOW))
    filtered = amplitudes_of(scipy.signal.sosfilt(cascade.unrounded(), step))
    print(f"a run that begins 1 gal off: {whole(filtered):.2f}")


def draw(rows):
    """The picture: the two responses, the deviation of the one, and the differences of all records."""
    figure, (above, middle, below) = matplotlib.pyplot.subplots(3, 1, figsize=(7, 9))
    frequencies = numpy.geomspace(0.05, 50, 500)
    wanted = official.response(frequencies)
    size = cascade.response_of(cascade.designed(), frequencies)
    above.loglog(frequencies, wanted, color="0.7", linewidth=5, label="official filter")
    above.loglog(frequencies, size, color="tab:blue", linewidth=1.2, label="six stages, in whole numbers")
    above.set(ylabel="amplitude response", ylim=(0.002, 2))
    above.legend()
    middle.semilogx(frequencies, 2 * numpy.log10(size / wanted) * 1000, color="tab:blue")
    middle.set(ylabel="deviation\n(0.001 of intensity)", xlabel="frequency (Hz)", ylim=(-1.5, 1.5))
    for edge in (0.1, 20):
        middle.axvline(edge, color="0.6", linestyle=":")
    exact = [row.steps[0] for row in rows]
    below.axhline(0, color="0.6", linewidth=0.8)
    below.plot(exact, [row.difference / 10 for row in rows], "o", color="tab:orange", markersize=4, label="as told")
    below.plot(exact, [row.steps[-1] - row.steps[0] for row in rows], "x", color="tab:blue", markersize=4,
               label="before tenths")
    below.set(xlabel="official intensity of a record", ylabel="difference of plum's value", ylim=(-0.3, 0.3))
    below.legend()
    figure.tight_layout()
    figure.savefig(HERE / "measured.png", dpi=90, metadata={"Software": None})


HEADER = ("record", "greatest gal", "official", "as told", "plum", "difference", *PARTS)


def write_kept(several):
    """The records that the gate replays, each of a station with a target, and what plum writes."""
    folder = HERE / "records"
    folder.mkdir(exist_ok=True)
    sites = [(code, f"record_{code}", 100_000 * code) for code in range(1, len(KEPT) + 1)]
    stations = [f"{code},{x},0,0\n" for code, _, x in sites]
    targets = [f"{name},records,{x},0,0\n" for _, name, x in sites]
    (folder / "stations.csv").write_text("code,x,y,factor\n" + "".join(stations))
    (folder / "targets.csv").write_text("name,area,x,y,factor\n" + "".join(targets))
    each = [
        records.packets(code, records.counts_of(several[name], COUNTS_PER_GAL))
        for (code, _, _), name in zip(sites, KEPT)
    ]
    (folder / "capture").write_bytes(b"".join(part for second in zip(*each) for part in second))
    replay(HERE / "setup.toml", folder)


def main():
    (HERE / "setup.toml").write_text(setups.setup(COUNTS_PER_GAL))
    several = made()
    tell_cascade()
    rows = compared(several, COUNTS_PER_GAL)
    tell_differences(rows)
    tell_strengths(several)
    with open(HERE / "measured.csv", "w", newline="") as file:
        csv.writer(file, lineterminator="\n").writerows([HEADER, *(row.row() for row in rows)])
    draw(rows)
    write_kept(several)
