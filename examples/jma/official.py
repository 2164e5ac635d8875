"""The instrumental intensity of a whole record, after the definition of the JMA. Python 3 with numpy.

The three components of the ground's acceleration, in gal, pass the official filter in the frequency domain. The
instrumental intensity is `I = 2 log10(a) + 0.94`, where `a` is the value that their vector amplitude reaches for 0.3
seconds in total. The JMA rounds it to the second decimal, and then cuts it to the first: that is the intensity told.
"""

import decimal

import numpy

RATE = 100
LONG_ENOUGH = 30  # samples, 0.3 seconds

HIGH_CUT = (1, 0.694, 0.241, 0.0557, 0.009664, 0.00134, 0.000155)


def response(frequencies):
    """The amplitude response of the official filter at some frequencies, in hertz, of which none is 0."""
    period_effect = numpy.sqrt(1 / frequencies)
    high_cut = numpy.polynomial.polynomial.polyval((frequencies / 10) ** 2, HIGH_CUT) ** -0.5
    low_cut = numpy.sqrt(-numpy.expm1(-((frequencies / 0.5) ** 3)))
    return period_effect * high_cut * low_cut


def of_amplitude(gal):
    """The instrumental intensity of an amplitude."""
    return 2 * numpy.log10(gal) + 0.94


def reached_long_enough(amplitudes):
    """The value that amplitudes reach for 0.3 seconds in total, one after the other or not."""
    return numpy.sort(amplitudes)[-LONG_ENOUGH]


def intensity(gal):
    """The instrumental intensity of a record: three rows of samples, in gal."""
    length = gal.shape[1]
    frequencies = numpy.fft.rfftfreq(length, 1 / RATE)
    gains = numpy.concatenate([[0], response(frequencies[1:])])
    filtered = numpy.fft.irfft(numpy.fft.rfft(gal) * gains, length)
    return of_amplitude(reached_long_enough(numpy.sqrt((filtered**2).sum(axis=0))))


def tenths(intensities):
    """Intensities as the JMA tells them, in tenths: rounded to the second decimal, then cut to the first."""
    return numpy.floor((numpy.floor(numpy.asarray(intensities) * 100 + 0.5) + 1e-6) / 10).astype(int)


def least_square(tenth, units):
    """The least whole square of an amplitude, in so many units to a gal, whose intensity is told as this tenth."""
    with decimal.localcontext() as context:
        context.prec = 60
        least = decimal.Decimal(tenth) / 10 - decimal.Decimal("0.005")
        exact = decimal.Decimal(units) ** 2 * decimal.Decimal(10) ** (least - decimal.Decimal("0.94"))
        return int(exact.to_integral_value(decimal.ROUND_CEILING))
