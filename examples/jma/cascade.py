"""The cascade: poles and zeros, plum's coefficients, and plum's arithmetic. Python 3 with numpy and scipy.

After Kunugi and others (Zisin 2013) the official filter is replaced by recursive filters, so that an intensity is
known at each sample. The stages here are this project's own: six of second order, whose poles and zeros `fit.py`
found by least squares, with their order and the zeros that go with each pair of poles.
"""

import dataclasses

import numpy
import scipy.signal

from official import RATE, response

# Filtered units to a gal, in a setup, and the bound of every signal between two stages.
UNITS = 1 << 16
BOUND = 1 << 30

MOST_SHIFT = 29  # coefficients below 2 in size stay within 2^30

# The greatest amplification of a swing of any frequency, behind any stage. So one of 2^30 / 2.9 units, which is 5650
# gal, passes uncut.
GREATEST_GAIN = 2.9

# Frequencies at which responses are compared, in hertz.
COMPARED = numpy.geomspace(0.1, 20, 400)


@dataclasses.dataclass(frozen=True)
class Pair:
    """Two conjugate poles or zeros: their frequency in hertz, and their damping, below 1."""

    frequency: float
    damping: float

    def quadratic(self):
        """The coefficients 1, c1, c2 of the quadratic that has these roots."""
        turn = 2 * numpy.pi * self.frequency / RATE
        size = numpy.exp(-turn * self.damping)
        return numpy.array([1, -2 * size * numpy.cos(turn * numpy.sqrt(1 - self.damping**2)), size**2])

    def __str__(self):
        return f"a pair of {self.frequency} Hz, damping {self.damping}"


@dataclasses.dataclass(frozen=True)
class Two:
    """Two real poles or zeros, in hertz. One of 0 hertz takes away what does not change."""

    one: float
    other: float

    def quadratic(self):
        one, other = numpy.exp(-2 * numpy.pi * numpy.array([self.one, self.other]) / RATE)
        return numpy.array([1, -(one + other), one * other])

    def __str__(self):
        return f"{self.one} Hz and {self.other} Hz"


# The poles and the zeros of each stage, in their order. `fit.py` prints this table.
STAGES = (
    (Pair(0.8241, 0.5647), Pair(0.8661, 0.5325)),
    (Pair(0.3692, 0.9711), Two(0.4442, 0.3595)),
    (Pair(0.6504, 0.7443), Two(1.1907, 2.6993)),
    (Two(1.9461, 3.9434), Pair(41.0596, 0.4426)),
    (Pair(12.7987, 0.9997), Two(0.0, 6.2476)),
    (Pair(21.1236, 0.6627), Pair(50.0363, 0.1960)),
)


@dataclasses.dataclass(frozen=True)
class Stage:
    """A stage as the setup has it: y = nearest((b0 x + b1 x' + b2 x'' - a1 y' - a2 y'') / 2^q)."""

    b: tuple
    a: tuple
    q: int


def delays(frequencies):
    return numpy.exp(-2j * numpy.pi * frequencies / RATE)


def quadratic_at(coefficients, frequencies):
    z = delays(frequencies)
    return coefficients[0] + z * (coefficients[1] + z * coefficients[2])


def size_of(stages, frequencies):
    """The amplitude response of stages, each its poles and zeros."""
    size = numpy.ones_like(frequencies)
    for poles, zeros in stages:
        above, below = (quadratic_at(it.quadratic(), frequencies) for it in (zeros, poles))
        size = size * abs(above / below)
    return size


def gains_of(stages):
    """What each stage multiplies by: so the greatest gain is the same behind each, and the last makes it official."""
    frequencies = numpy.concatenate([[0], numpy.geomspace(0.01, 50, 2000)])
    behind = [GREATEST_GAIN / size_of(stages[:k], frequencies).max() for k in range(1, len(stages))]
    behind.append(numpy.exp(numpy.log(response(COMPARED) / size_of(stages, COMPARED)).mean()))
    return [now / before for before, now in zip([1, *behind], behind)]


def quantized(poles, zeros, gain):
    """The nearest stage in whole numbers. A zero of 0 hertz stays one exactly."""
    below, above = poles.quadratic(), zeros.quadratic() * gain
    q = MOST_SHIFT - max(0, int(numpy.ceil(numpy.log2(abs(above).max() / 2))))
    b = [round(c * 2**q) for c in above]
    if isinstance(zeros, Two) and 0 in (zeros.one, zeros.other):
        b[1] = -b[0] - b[2]
    return Stage(tuple(b), tuple(round(c * 2**q) for c in below[1:]), q)


def designed():
    """The cascade in whole numbers."""
    return [quantized(*stage, gain) for stage, gain in zip(STAGES, gains_of(STAGES))]


def unrounded():
    """The cascade as it is before it is put in whole numbers, as scipy has it."""
    return numpy.array(
        [
            numpy.concatenate([zeros.quadratic() * gain, poles.quadratic()])
            for (poles, zeros), gain in zip(STAGES, gains_of(STAGES))
        ]
    )


def response_of(cascade, frequencies):
    """The amplitude response of a cascade in whole numbers."""
    size = numpy.ones_like(frequencies)
    for stage in cascade:
        whole = (1 << stage.q, *stage.a)
        size = size * abs(quadratic_at(stage.b, frequencies) / quadratic_at(whole, frequencies))
    return size


def gain_for(counts_per_gal):
    """The gain g / 2^h that makes units of a sensor's counts."""
    factor = UNITS / counts_per_gal
    h = next(h for h in range(31, -1, -1) if factor * 2**h < 2**31)
    g = round(factor * 2**h)
    if g < 1:
        raise ValueError("so many counts to a gal need a gain below 2^-31")
    return g, h


def signals_of(counts, gain):
    """Counts through the gain, in units."""
    g, h = gain
    return numpy.clip((counts * g) >> h, -BOUND, BOUND)


def passed(cascade, signals):
    """Signals through the cascade in plum's arithmetic, along the last axis; and which rows were cut on the way."""
    now = numpy.moveaxis(signals, -1, 0)
    cut = abs(now).max(axis=0) >= BOUND
    for stage in cascade:
        (b0, b1, b2), (a1, a2), half = stage.b, stage.a, 1 << (stage.q - 1)
        before, now = now, numpy.empty_like(now)
        x1 = x2 = y1 = y2 = numpy.zeros_like(before[0])
        for n, x in enumerate(before):
            exact = (b0 * x + b1 * x1 + b2 * x2 - a1 * y1 - a2 * y2 + half) >> stage.q
            now[n] = numpy.clip(exact, -BOUND, BOUND)
            x1, x2, y1, y2 = x, x1, now[n], y1
        cut |= abs(now).max(axis=0) >= BOUND
    return numpy.moveaxis(now, 0, -1), cut


def greatest_sums(cascade):
    """For each stage, how many times the greatest size of any motion its terms may grow."""
    impulse = numpy.zeros(60 * RATE)
    impulse[0] = 1
    sums = []
    for stage in cascade:
        below = numpy.array([1 << stage.q, *stage.a]) / 2**stage.q
        impulse = scipy.signal.lfilter(numpy.array(stage.b) / 2**stage.q, below, impulse)
        sums.append(abs(impulse).sum())
    return sums
