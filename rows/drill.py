"""The files of a drill, written without the program: made-up shaking that grows, from a seed.

With S stations, T seconds and L lanes: stations 4 km apart in rows of twenty, 64 targets 10 km apart in rows of eight,
an area to a column, and each second a packet of 100 samples from each station, and then a mark.
"""

import functools
import struct

MULTIPLIER, INCREMENT, STATE = 6_364_136_223_846_793_005, 1_442_695_040_888_963_407, 1 << 64
SAMPLES, COMPONENTS = 100, 3
TARGETS = 64

# For so many seconds the shaking grows.
GROWS = 60

# b0, b1, b2, a1, a2 and the rounding of each stage. All have q = 20.
STAGES = [
    (1_048_576, -1_048_576, 0, -1_043_333, 0, "nearest"),
    (262_144, 0, 0, -786_432, 0, "nearest"),
    (524_288, 524_288, 0, 0, 0, "floor"),
    (1_048_576, -1_048_576, 0, -1_043_333, 0, "nearest"),
    (524_288, 0, 0, -524_288, 0, "nearest"),
    (1_048_576, 0, 0, 0, 0, "nearest"),
]


def setup(lanes):
    stages = "".join(
        f'\n[[stage]]\nb0 = {b0}\nb1 = {b1}\nb2 = {b2}\na1 = {a1}\na2 = {a2}\nq = 20\nround = "{rounding}"\n'
        for b0, b1, b2, a1, a2, rounding in STAGES
    )
    thresholds = [0] + [2 ** (i + 5) for i in range(1, 51)]
    return (
        f"lanes = {lanes}\nqueue = 256\n\n[gain]\ng = 1\nh = 0\n{stages}\n[levels]\nbase = 0\n"
        f'thresholds = {thresholds}\n\n[rules]\nraise = "4"\ncancel = "3"\ncalm = 5\n'
    )


def stations(count):
    rows = (f"{i + 1},{4_000 * (i % 20)},{4_000 * (i // 20)},{i % 5 - 2}\n" for i in range(count))
    return "code,x,y,factor\n" + "".join(rows)


def targets():
    rows = (f"t{j:02},a{j % 8},{10_000 * (j % 8)},{10_000 * (j // 8)},{j % 3 - 1}\n" for j in range(TARGETS))
    return "name,area,x,y,factor\n" + "".join(rows)


def record(body):
    return struct.pack(">H", len(body)) + body


@functools.lru_cache(1)
def capture(seed, count, seconds):
    state, records = seed, []
    for second in range(seconds):
        greatest = 100 + 1_000 * min(second, GROWS)
        for code in range(1, count + 1):
            components = []
            for _ in range(SAMPLES * COMPONENTS):
                state = (state * MULTIPLIER + INCREMENT) % STATE
                components.append((state >> 32) % (2 * greatest + 1) - greatest)
            header = struct.pack(">BBHHIH", 1, 0, code, 1, second, SAMPLES)
            records.append(record(b"PL" + header + struct.pack(f">{len(components)}i", *components)))
        records.append(record(b"MK"))
    return b"".join(records)


def write(folder, seed, count, seconds, lanes):
    (folder / "setup.toml").write_text(setup(lanes))
    (folder / "stations.csv").write_text(stations(count))
    (folder / "targets.csv").write_text(targets())
    (folder / "capture").write_bytes(capture(seed, count, seconds))
