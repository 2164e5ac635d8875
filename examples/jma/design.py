#!/usr/bin/python3
"""A setup whose intensities are those of the JMA, and what it is worth. Python 3 with numpy, scipy and matplotlib.

    design.py setup COUNTS_PER_GAL [FILE]     a setup for sensors of that sensitivity, to FILE or standard output
    design.py measure                         replays synthetic records, and writes the other files beside this script
"""

import os
import pathlib
import sys

os.environ["OPENBLAS_NUM_THREADS"] = "1"

import setups


def main():
    match sys.argv[1:]:
        case ["setup", counts_per_gal]:
            sys.stdout.write(setups.setup(float(counts_per_gal)))
        case ["setup", counts_per_gal, path]:
            pathlib.Path(path).write_text(setups.setup(float(counts_per_gal)))
        case ["measure"]:
            import measure

            measure.main()
        case _:
            sys.exit(__doc__)


if __name__ == "__main__":
    main()
