"""Spells a setup, with the origin of each of its numbers. Python 3 with numpy and scipy."""

import cascade
import official

# The table tells each tenth above the base, which is the lowest that whole numbers still tell, to one well within
# class 7, which begins at 65.
BASE = -41
GREATEST = 75


def text_of(tenths):
    """Tenths as a value is written."""
    return f"{'-' if tenths < 0 else ''}{abs(tenths) // 10}.{abs(tenths) % 10}"


def gain_lines(counts_per_gal):
    g, h = cascade.gain_for(counts_per_gal)
    return f"""\
# A sensor of {counts_per_gal:g} counts to a gal: a count is {cascade.UNITS / counts_per_gal:.6g} units of 2^-16 gal,
# which is g / 2^h.
[gain]
g = {g}
h = {h}
"""


def stage_lines(k, designed, poles, zeros):
    (b0, b1, b2), (a1, a2) = designed.b, designed.a
    return f"""\
# Stage {k + 1}. Poles: {poles}.
# Zeros: {zeros}.
# Each number is the quadratic's coefficient times 2^{designed.q}; b holds the stage's share of the level too.
[[stage]]
b0 = {b0}
b1 = {b1}
b2 = {b2}
a1 = {a1}
a2 = {a2}
q = {designed.q}
round = "nearest"
"""


def level_lines():
    rows = ["    0,"]
    for tenth in range(BASE + 1, GREATEST + 1):
        least = official.least_square(tenth, cascade.UNITS)
        rows.append(f"    {least}, # {text_of(tenth)}: {least**0.5 / cascade.UNITS:.4g} gal")
    return f"""\
# Threshold i is the least square of an amplitude, in units of 2^-16 gal, at which I = 2 log10(a) + 0.94 (JMA) is told
# as tenth base + i: rounded to the second decimal and then cut to the first, as the JMA does. So {text_of(BASE + 1)} begins
# at an I of {(BASE + 1) / 10 - 0.005:.3f}, and what is below it, down to no motion at all, is told as {text_of(BASE)}.
[levels]
base = {BASE}
thresholds = [
{chr(10).join(rows)}
]
"""


def setup(counts_per_gal):
    """The text of a setup for sensors of so many counts to a gal."""
    stages = zip(cascade.designed(), cascade.STAGES)
    return "\n".join(
        [
            """\
# Written by examples/jma/design.py: intensities on the scale of the JMA, sample by sample. The official filter is
# replaced by recursive stages, after Kunugi and others (Zisin 2013).

# Own choices: how many lanes the stations are shared among, and how many entries may wait between them and the board.
lanes = 4
queue = 256
""",
            gain_lines(counts_per_gal),
            "# The poles and zeros were fitted to the official response by least squares (examples/jma/fit.py).\n",
            *(stage_lines(k, it, *roots) for k, (it, roots) in enumerate(stages)),
            level_lines(),
            """\
# Own choices: an area's alert is raised where two readings in a row reach class 4, and cancelled at the third in a
# row below class 3.
[rules]
raise = "4"
cancel = "3"
calm = 3
""",
        ]
    )
