"""Synthetic records of strong motion, in gal, 100 samples a second, and captures of them. Python 3 with numpy.

An earthquake is noise of a limited duration, whose spectrum is that of a source of one corner frequency, falling with
distance (the stochastic method; Boore, BSSA 1983). A weaker P wave comes before the S wave. A swing is of one
frequency. Everything follows from the seeds.
"""

import struct

import numpy

from official import RATE

S_SPEED = 3.5  # km/s
P_SPEED = 6.0

# Of the S wave on the two horizontal components and the vertical one, and of the P wave beside it.
S_SHARES = (1.0, 0.9, 0.6)
P_SHARES = (0.15, 0.15, 0.25)


def corner_frequency(magnitude):
    """Of the source, in hertz, with a stress drop of 100 bar."""
    moment = 10 ** (1.5 * magnitude + 16.05)
    return 4.9e6 * S_SPEED * (100 / moment) ** (1 / 3)


def spectrum(frequencies, magnitude, distance):
    """The Fourier amplitudes of acceleration, in gal s, at a distance in km."""
    moment = 10 ** (1.5 * magnitude + 16.05)
    source = (2 * numpy.pi * frequencies) ** 2 / (1 + (frequencies / corner_frequency(magnitude)) ** 2)
    radiated = 0.55 * 2 * 0.707 * moment / (4 * numpy.pi * 2.8 * S_SPEED**3) * 1e-20
    quality = 180 * numpy.maximum(frequencies, 0.1) ** 0.45
    path = numpy.exp(-numpy.pi * frequencies * distance / (quality * S_SPEED)) / distance
    return radiated * source * path * numpy.exp(-numpy.pi * 0.04 * frequencies)


def wave(random, seconds, begins, magnitude, distance):
    """One component of one wave: it begins at a second, rises soon, and fades."""
    length = seconds * RATE
    duration = min(1 / corner_frequency(magnitude) + 0.05 * distance, 25)
    since = numpy.maximum(numpy.arange(length) / RATE - begins, 0)
    share = since / duration
    envelope = (5 * share) ** 1.25 * numpy.exp(-1.25 * (5 * share - 1))
    noise = numpy.fft.rfft(random.standard_normal(length) * envelope)
    noise /= numpy.sqrt((abs(noise) ** 2).mean())
    frequencies = numpy.fft.rfftfreq(length, 1 / RATE)
    shaped = numpy.fft.irfft(noise * spectrum(frequencies, magnitude, distance) * RATE, length)
    return shaped * numpy.minimum(since / 0.5, 1)


def tapered(gal):
    """A record that begins and ends at rest, within a second."""
    sides = numpy.minimum(numpy.arange(gal.shape[1]), numpy.arange(gal.shape[1])[::-1])
    return gal * numpy.minimum(sides / RATE, 1)


def earthquake(seed, seconds, origin, magnitude, distance):
    """The three components of an earthquake at a distance in km, that begins at a second."""
    random = numpy.random.RandomState(seed)
    s, p = origin + distance / S_SPEED, origin + distance / P_SPEED
    return numpy.array(
        [
            s_share * wave(random, seconds, s, magnitude, distance)
            + p_share * wave(random, seconds, p, magnitude, distance)
            for s_share, p_share in zip(S_SHARES, P_SHARES)
        ]
    )


def swing(seconds, begins, duration, frequency, gal):
    """Three components of one frequency that swell and fade, out of step, from a second on and so long."""
    time = numpy.arange(seconds * RATE) / RATE - begins
    rise = min(duration / 2, 2)
    share = numpy.clip(numpy.minimum(time, duration - time) / rise, 0, 1)
    envelope = gal * (0.5 - 0.5 * numpy.cos(numpy.pi * share))
    return numpy.array(
        [
            size * envelope * numpy.sin(2 * numpy.pi * frequency * time + phase)
            for size, phase in ((1, 0), (0.7, 1), (0.4, 2))
        ]
    )


def counts_of(gal, counts_per_gal):
    """What a sensor tells: whole counts."""
    return numpy.round(gal * counts_per_gal).astype(numpy.int64)


def record(body):
    return struct.pack(">H", len(body)) + body


MARK = record(b"MK")


def packet(code, number, counts):
    """The record of a packet, version 1: three rows of at most 200 samples."""
    header = struct.pack(">BBHHIH", 1, 0, code, 0, number, counts.shape[1])
    return record(b"PL" + header + counts.T.astype(">i4").tobytes())


def packets(code, counts):
    """The records of the packets of a station, one a second."""
    return [
        packet(code, second, counts[:, second * RATE : (second + 1) * RATE])
        for second in range(counts.shape[1] // RATE)
    ]
