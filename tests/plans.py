#!/usr/bin/env python3
"""The program of plans against a plan worked out here, on random recordings: its lines, and the frames of its reads.

The memories are known from how the recording was made; a plan is the shortest list found over every choice of reads, from the last cell down, and
its starts go by the request's words. usage: plans.py SEED WORDS THAT RUN THE PROGRAM
"""
import pathlib
import random
import subprocess
import sys

sys.path.insert(0, str(pathlib.Path(__file__).resolve().parent.parent / "samples"))
from recording import record

CELLS = {0x0A: 256, 0x03: 128}
RUNS = 60


def plan(known, cells):
    """The starts by the words; and that no shorter list would do, by trying every read for each unknown cell."""
    starts, read = [], set()
    for cell in range(cells):
        if cell not in known and cell not in read:
            starts.append(min(cell, cells - 4))
            read.update(range(starts[-1], starts[-1] + 4))
    fewest = [0] * (cells + 5)
    for cell in reversed(range(cells)):
        reads = [1 + fewest[start + 4] for start in range(max(0, cell - 3), min(cell, cells - 4) + 1)]
        fewest[cell] = fewest[cell + 1] if cell in known else min(reads)
    assert len(starts) == fewest[0]
    return starts


def house(rng):
    """A recording, and what it leaves known of each module."""
    kinds = {address: rng.choice(list(CELLS)) for address in rng.sample(range(1, 256), rng.randrange(17))}
    out, known = bytearray(), {address: set() for address in kinds}
    for address, kind in kinds.items():
        out += record(address, [0xFF, 0x0A, 0, 1, 1, 12, 5] if kind == 0x0A else [0xFF, 0x03, 2, 11, 30])
    for _ in range(rng.randrange(400) if kinds else 0):
        address = rng.choice(list(kinds))
        command = rng.choice((0xCC, 0xCC, 0xCC, 0xFE, 0xFC, 0xCA))
        width = 4 if command in (0xCC, 0xCA) else 1
        start = rng.randrange(CELLS[kinds[address]] - width + 1)
        out += record(address, [command, 0, start] + [rng.randrange(256) for _ in range(width)], rng.randrange(300))
        cells = range(start, start + width)
        known[address].update(cells) if command in (0xCC, 0xFE) else known[address].difference_update(cells)
    return bytes(out), {address: plan(known[address], CELLS[kinds[address]]) for address in sorted(kinds)}


def line(address, starts):
    said = " ".join([str(len(starts))] + [f"{start:04X}" for start in starts]) if starts else "nothing to read"
    return f"{address:02X} {said}\n"


def main():
    rng, program = random.Random(int(sys.argv[1])), sys.argv[2:]
    for _ in range(RUNS):
        recording, plans = house(rng)
        lines = "".join(line(address, starts) for address, starts in plans.items()).encode()
        frames = b"".join(record(address, [0xC9, start >> 8, start & 0xFF]) for address, starts in plans.items() for start in starts)
        for words, right in (([], lines), (["--frames"], frames)):
            wrote = subprocess.run(program + words, input=recording, stdout=subprocess.PIPE, check=True).stdout
            if wrote != right:
                sys.exit(f"plans.py: seed {sys.argv[1]}: the program wrote\n{wrote}\nand not\n{right}")
    print(f"{RUNS} recordings have the plans and the reads that were worked out otherwise (seed {sys.argv[1]})")


main()
