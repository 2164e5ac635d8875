"""The readings, answers and alerts that a replay may write, worked out without the program.

They come from the setup, the sites, the capture and the journal. Where there is more than one mark it depends
on which thread was faster how much a reading has seen: for mark m at least the entries of segments 1 to m, at most
those of one segment more, and never less than the reading of its area before it; so for the last mark all. What is to
be answered then, and where an alert is given, is worked out from the journal as far as it was seen.
"""

import collections
import csv
import re

RADIUS = 30_000
SEGMENT_BODIES = 65_536

# The classes, and the least tenths of each but the lowest.
CLASSES = ["0", "1", "2", "3", "4", "5-", "5+", "6-", "6+", "7"]
LEAST = [5, 15, 25, 35, 45, 50, 55, 60, 65]

# The place of none among the classes.
NONE = -1

Station = collections.namedtuple("Station", "code x y factor")
Target = collections.namedtuple("Target", "name area x y factor")
Entry = collections.namedtuple("Entry", "segment station value")


def tenths(text):
    return None if text == "-" else int(text.replace(".", ""))


def text_of(value):
    return f"{'-' if value < 0 else ''}{abs(value) // 10}.{abs(value) % 10}"


def class_of(value):
    return NONE if value is None else sum(least <= value for least in LEAST)


def key_of(setup, key):
    """What a setup says at a key of a line of its own: nothing where there is none."""
    found = re.search(rf'^{key} *= *"?([^"\s]*)', setup, re.MULTILINE)
    return found[1] if found else ""


def rows_below_header(text):
    return [row for row in csv.reader(text.splitlines()) if row][1:]


def stations_of(text):
    return [Station(*map(int, row)) for row in rows_below_header(text)]


def targets_of(text):
    return [Target(name, area, *map(int, rest)) for name, area, *rest in rows_below_header(text)]


def segments_in(capture):
    """How many segments a capture has."""
    segments, bodies, at = 1, 0, 0
    while (end := at + 2 + int.from_bytes(capture[at : at + 2], "big")) <= len(capture):
        mark = capture[at + 2 : end] == b"MK"
        bodies += not mark
        if mark or bodies == SEGMENT_BODIES:
            segments, bodies = segments + 1, 0
        at = end
    return segments


def entries_of(journal):
    words = [line.split(" ") for line in journal.splitlines()]
    return [Entry(int(line[2]), int(line[3]), tenths(line[7])) for line in words]


def in_order_of_stations(journal, lanes):
    """A journal of several lanes with the entries of each segment in the order of the stations, and numbered anew.

    The lanes send in any order, each of them the entries of a station in theirs. A journal whose lines are not
    numbered in their order is left as it stands, and so is one of one lane.
    """
    words = [line.split(" ") for line in journal.splitlines()]
    numbers = [line[1] for line in words]
    if lanes == "1" or numbers != [str(n) for n in range(1, len(words) + 1)]:
        return journal
    words.sort(key=lambda line: (int(line[2]), int(line[3])))
    return "".join(" ".join(["E", n, *line[2:]]) + "\n" for n, line in zip(numbers, words))


def without_readings(output):
    """The lines of an output that do not depend on which thread was faster: all but readings, answers and alerts."""
    return re.sub(r"^[RPA] .*\n", "", output, flags=re.MULTILINE)


def fronts_in(output):
    """How many entries each reading has seen: a list for each mark, area by area."""
    sections = re.split(r"^M ", output, flags=re.MULTILINE)[1:]
    return [list(map(int, re.findall(r"^R \d+ \w+ (\d+)$", section, re.MULTILINE))) for section in sections]


def predicted(target, stations, shown):
    """The greatest that a near station says, with the factors: none where no near station reports."""
    said = [
        shown[station.code] - station.factor
        for station in stations
        if shown.get(station.code) is not None
        and (station.x - target.x) ** 2 + (station.y - target.y) ** 2 <= RADIUS**2
    ]
    return max(said) + target.factor if said else None


class Desk:
    """The class of each reading of an area, and the class at which an alert stands there."""

    def __init__(self, setup):
        self.lowest = CLASSES.index(key_of(setup, "raise"))
        self.calm_below = CLASSES.index(key_of(setup, "cancel"))
        self.calm = int(key_of(setup, "calm"))
        self.classes, self.standing = [], None

    def next_alert(self, now):
        """The alert of a reading of this class, or none."""
        self.classes.append(now)
        if self.standing is None:
            if len(self.classes) > 1 and min(self.classes[-2:]) >= self.lowest:
                self.standing = now
                return f"raise {CLASSES[now]}"
        elif now > self.standing:
            self.standing = now
            return f"upgrade {CLASSES[now]}"
        elif max(self.classes[-self.calm :]) < self.calm_below:
            self.standing = None
            return "cancel"
        return None


def lines_of_area(m, area, front, entries, stations, targets, desk):
    """The lines of an area at mark m, where its reading has seen so many entries."""
    shown = {entry.station: entry.value for entry in entries[:front]}
    yield f"R {m} {area} {front}\n"
    greatest = NONE
    for target in targets:
        if target.area == area:
            value = predicted(target, stations, shown)
            greatest = max(greatest, class_of(value))
            told = "- -" if value is None else f"{text_of(value)} {CLASSES[class_of(value)]}"
            yield f"P {m} {target.name} {told}\n"
    alert = desk.next_alert(greatest)
    if alert:
        yield f"A {m} {area} {alert}\n"


def output_at(fronts, others, setup, stations, targets, journal):
    """The output where the readings have seen so many entries: with these other lines, section by section."""
    stations, targets, entries = stations_of(stations), targets_of(targets), entries_of(journal)
    desks = {target.area: Desk(setup) for target in targets}
    *sections, end = re.split(r"^(?=[MT] )", others, flags=re.MULTILINE)[1:]
    for m, (section, seen) in enumerate(zip(sections, fronts), 1):
        yield section
        for (area, desk), front in zip(desks.items(), seen):
            yield from lines_of_area(m, area, front, entries, stations, targets, desk)
    yield end


def wrong_fronts(fronts, targets, capture, journal):
    """Which readings have seen too few or too many entries."""
    areas = list({target.area: None for target in targets_of(targets)})
    marks, ends = segments_in(capture), [entry.segment for entry in entries_of(journal)]
    wrong, before = [], [0] * len(areas)
    for m in range(1, marks + 1):
        seen = fronts[m - 1] if m <= len(fronts) else []
        closed, most = (sum(segment <= end for segment in ends) for end in (m, m + 1))
        bounds = [(max(closed, front), most) for front in before]
        if len(seen) != len(areas) or any(not least <= n <= most for n, (least, most) in zip(seen, bounds)):
            wrong.append(f"mark {m}: {dict(zip(areas, seen))} are not within {dict(zip(areas, bounds))}")
        before = seen
    if len(fronts) > marks:
        wrong.append(f"{len(fronts)} marks, where there are {marks}")
    return wrong
