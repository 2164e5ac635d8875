#!/usr/bin/env python3
"""Compares what two replays of one capture wrote, where it may depend on which thread was faster.

    bench/same.py LANES JOURNAL OUTPUT JOURNAL OUTPUT

The journals must have the same entries: with one lane they are compared as they stand, with more each segment in the order of
its stations. The outputs must have the same lines but for the readings, answers and alerts of the marks before the
last, and the same readings and answers at the last mark. How much of the journal a reading before it has seen, what it
tells then, and so which alerts there are, is left to `rows/readings.py`. Ends with 1 where something differs.
"""

import pathlib
import re
import sys

HERE = pathlib.Path(__file__).resolve().parent
sys.dont_write_bytecode = True
sys.path.insert(0, str(HERE.parent / "rows"))
from readings import in_order_of_stations, without_readings


def at_last_mark(output):
    """The readings and the answers at the last mark."""
    section = output[output.rfind("\nM ") + 1 :]
    return re.findall(r"^[RP] .*$", section, flags=re.MULTILINE)


def differing(lanes, ones, others):
    """What differs in two pairs of a journal and an output."""
    (journal, output), (other_journal, other_output) = ones, others
    if in_order_of_stations(journal, lanes) != in_order_of_stations(other_journal, lanes):
        yield "the journals"
    if without_readings(output) != without_readings(other_output):
        yield "the counts, the refused bodies, the tail or the totals"
    if at_last_mark(output) != at_last_mark(other_output):
        yield "the readings at the last mark"


def main():
    if len(sys.argv) != 6:
        sys.exit(__doc__)
    lanes, *paths = sys.argv[1:]
    texts = [pathlib.Path(path).read_text() for path in paths]
    wrong = list(differing(lanes, texts[:2], texts[2:]))
    for about in wrong:
        print(f"same: {about} differ: {' '.join(paths)}")
    sys.exit(1 if wrong else 0)


if __name__ == "__main__":
    main()
