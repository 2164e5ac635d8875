#!/usr/bin/python3
"""Finds the stages of the cascade and prints them, as they stand in `cascade.py`. Python 3 with numpy and scipy.

First six pairs of poles and six of zeros are fitted to the logarithm of the official response. All lie within the
unit circle: so the cascade is stable, and as prompt as its response allows. Then the zeros are given to the poles,
and the stages put into that order, by which the least noise of rounding is left behind the last.
"""

import itertools
import os

os.environ["OPENBLAS_NUM_THREADS"] = "1"

import numpy
import scipy.optimize

from cascade import COMPARED, GREATEST_GAIN, Pair, Two, quadratic_at
from official import response

# Frequencies that are fitted, in hertz, and how much each weighs: what is compared most, and a little around it.
FITTED = numpy.geomspace(0.03, 45, 400)
WEIGHTS = numpy.select(
    [(FITTED >= 0.1) & (FITTED <= 20), (FITTED >= 0.05) & (FITTED <= 30)], [1, 0.3], 0.05
)

# Where the fit begins: frequency and damping of poles, and of zeros. The zeros of the first row are two real ones: that
# frequency, and 0 hertz.
BEGINNING = (
    (0.45, 0.7, 0.4, 1.0),
    (0.6, 0.6, 0.5, 1.2),
    (0.8, 0.6, 0.9, 0.6),
    (4.5, 1.2, 2.5, 1.2),
    (20, 0.8, 40, 0.4),
    (25, 0.7, 50, 0.5),
)

# Holds the fit near its beginning where the response does not tell: so it ends at one place.
PULL = 0.01


def made(frequency, damping):
    """The poles or zeros of that frequency and damping: two real ones where it is 1 or more."""
    if damping < 1:
        return Pair(frequency, damping)
    spread = numpy.sqrt(damping**2 - 1)
    return Two(frequency * (damping - spread), frequency * (damping + spread))


def log_size(parameters):
    """The logarithm of the response that parameters give: the level's, and the logarithms of each stage's four."""
    size = numpy.full(len(FITTED), parameters[0])
    for poles, zeros in made_of(numpy.exp(parameters[1:]).reshape(-1, 4)):
        above, below = (quadratic_at(it.quadratic(), FITTED) for it in (zeros, poles))
        size += numpy.log(abs(above / below))
    return size


def made_of(rows):
    """The poles and zeros of rows as in `BEGINNING`."""
    return [
        (made(*row[:2]), made(*row[2:]) if k else Two(0.0, row[2])) for k, row in enumerate(rows)
    ]


def fitted():
    """The poles and zeros that fit best, stage by stage."""
    wanted = numpy.log(response(FITTED))
    beginning = numpy.concatenate([[0], numpy.log(BEGINNING).ravel()])
    beginning[0] = numpy.average(wanted - log_size(beginning), weights=WEIGHTS)

    def misfit(parameters):
        pull = PULL * (parameters - beginning)[1:]
        return numpy.concatenate([(log_size(parameters) - wanted) * WEIGHTS, pull])

    found = scipy.optimize.least_squares(misfit, beginning, ftol=1e-15, xtol=1e-12, gtol=1e-15)
    return made_of(numpy.exp(found.x[1:]).reshape(-1, 4))


def pairings(items):
    """All ways to make pairs of an even number of items."""
    if not items:
        yield []
        return
    for k in range(1, len(items)):
        for rest in pairings(items[1:k] + items[k + 1 :]):
            yield [(items[0], items[k]), *rest]


FREQUENCIES = numpy.concatenate([[0], numpy.geomspace(0.001, 50, 400)])
WIDTHS = numpy.gradient(FREQUENCIES) / 50


def level_of(size):
    """What a response is multiplied by to be the official one."""
    size = numpy.interp(COMPARED, FREQUENCIES, size)
    return numpy.exp(numpy.mean(numpy.log(response(COMPARED) / size)))


def least_noise(poles, zeros):
    """The least square of the noise that an order of these stages leaves, in units, and that order.

    The noise is that of rounding each term, as if at random, and what stays for ever, since a term that is rounded by
    half a unit may stand. Some stages that come first are a set, kept as bits.
    """
    sizes = [zero / pole for zero, pole in zip(zeros, poles)]
    everything = (1 << len(sizes)) - 1
    size_of = [numpy.ones(len(FREQUENCIES))]
    for done in range(1, everything + 1):
        k = (done & -done).bit_length() - 1
        size_of.append(size_of[done & (done - 1)] * sizes[k])
    level = level_of(size_of[everything])
    least = {0: (0, ())}
    for done in range(1, everything + 1):
        behind = GREATEST_GAIN / size_of[done].max() if done < everything else level
        to_come = size_of[everything & ~done] * level / behind
        choices = []
        for k in (k for k in range(len(sizes)) if done >> k & 1):
            passed = to_come / poles[k]
            square = (passed**2 * WIDTHS).sum() / 12 + (passed[0] / 2) ** 2
            before, order = least[done & ~(1 << k)]
            choices.append((before + square, (*order, k)))
        least[done] = min(choices)
    return least[everything]


def sizes_of(several):
    return [abs(quadratic_at(it.quadratic(), FREQUENCIES)) for it in several]


def put_in_order(found):
    """The stages with the least noise that a pairing and an order leave, and the square of that noise."""
    poles = [poles for poles, _ in found]
    pairs = [zeros for _, zeros in found if isinstance(zeros, Pair)]
    singles = [root for _, it in found if isinstance(it, Two) for root in (it.one, it.other)]
    best = (numpy.inf, None)
    for couples in pairings(singles):
        for zeros in itertools.permutations(pairs + [Two(*couple) for couple in couples]):
            square, order = least_noise(sizes_of(poles), sizes_of(zeros))
            if square < best[0]:
                best = (square, [(poles[k], zeros[k]) for k in order])
    return best


def spelled(it):
    """Poles or zeros, as `cascade.py` spells them."""
    first, second = (round(float(field), 4) for field in vars(it).values())
    return f"{type(it).__name__}({first}, {second})"


def main():
    square, stages = put_in_order(fitted())
    print(f"# the noise of rounding: {numpy.sqrt(square):.1f} units a component")
    lines = [f"    ({spelled(poles)}, {spelled(zeros)})," for poles, zeros in stages]
    print("STAGES = (", *lines, ")", sep="\n")


if __name__ == "__main__":
    main()
