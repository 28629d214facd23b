#!/usr/bin/env python3
"""Writes the recordings of the measurement: the same bytes at every run.

Each NAME.small.rec and NAME.large.rec are the beginning and the whole of one recording, so that what a record costs is told by how the
cost grows; NAME.long.rec, for wall times, is the same at length. unheard, half and told.small.rec leave one module whose memory is known so far, for
its names and the plan of reads; bench-COMMAND.small.rec are for a bench, each of one command. The others are only compared: damaged-*.rec, and sweep.rec, which goes through commands, lengths, priorities and fields.

usage: make_inputs.py FOLDER
"""
import pathlib
import random
import sys

ROOT = pathlib.Path(__file__).resolve().parent.parent
sys.path.insert(0, str(ROOT / "samples"))
from recording import number, record

SMALL, LARGE, LONG = 1, 3, 300  # how many parts of a recording each size holds
PART = 1000  # records of a part of the random traffic

IR, BL, BL2 = 0x0A, 0x03, 0x09
MODULES = [(0x10 + 7 * i, IR if i % 2 == 0 else BL) for i in range(16)]
LENGTHS = {
    0x00: 4, 0xFE: 4, 0xCC: 7, 0xDA: 4, 0xF0: 8, 0xF1: 8, 0xF2: 6, 0xEF: 2, 0xFA: 2, 0xFD: 3, 0xC9: 3, 0xCB: 1, 0xFC: 4, 0xCA: 7,
    0xD9: 1, 0xEB: 5, 0xF4: 4, 0xF5: 2, 0xF6: 2, 0xF7: 2, 0xF8: 2, 0xF9: 2, 0xEC: 8, 0x04: 2, 0x05: 5, 0x06: 5,
}
OF_ONE = {IR: (0xEB, 0xF4, 0xF5, 0xF6, 0xF7, 0xF8, 0xF9), BL: (0xEC, 0x04, 0x05, 0x06)}  # commands that only one of these types has
HIGH = (0x00, 0x04, 0x05, 0x06)
LOCATED = (0xFE, 0xFD, 0xFC, 0xCC, 0xC9, 0xCA)
NAMED = (0xF0, 0xF1, 0xF2, 0xEF)
BENCH = (0xFD, 0xC9, 0xEF, 0xFA, 0xCB, 0xFC, 0xCA, 0xF4, 0xF6)  # commands to a bench


def entry(address, kind):
    return record(address, [0xFF, IR, 0x4C, 0x11, 1, 0x0C, 5] if kind == IR else [0xFF, kind, 2, 0x0B, 0x1E], gap=35)


def dump():
    """Sixteen modules name themselves, and every memory is told in blocks, as after CB."""
    out = [entry(address, kind) for address, kind in MODULES]
    for address, kind in MODULES:
        for start in range(0, 256 if kind == IR else 128, 4):
            out.append(record(address, [0xCC, 0, start] + [(start * 7 + i) & 0xFF for i in range(4)], gap=25))
    return b"".join(out)


def memory(starts):
    """One module of 256 cells, which names itself many times; then the blocks at these starts are told."""
    address, kind = MODULES[0]
    return entry(address, kind) * 64 + b"".join(record(address, [0xCC, 0, start, 255, 0, 1, 2], gap=25) for start in starts)


def likely_data(rng, command, kind=BL):
    """A frame of the command that every type allows, where it has it; to either blind of a VMB2BL."""
    data = [command] + [rng.randrange(256) for _ in range(LENGTHS[command] - 1)]
    if command in LOCATED:
        data[1:3] = [0, rng.randrange(0, 128, 4)]
    elif command in NAMED:
        data[1] = rng.choice((0x10, 0x20))
        data[-1] = 0xFF if command == 0xF2 else data[-1]
    elif command in (0x04, 0x05, 0x06, 0xFA, 0xEC):
        data[1] = rng.choice((0x03, 0x0C)) if kind == BL2 else 0x03
    if command == 0xEC:
        data[2:5] = [rng.randrange(4), rng.randrange(3) * (4 if data[1] == 0x0C else 1), rng.choice((0, 1, 2, 128))]
    elif command == 0x00:
        data[1:] = [byte & 0x33 for byte in data[1:]]
    return data


def traffic(rng):
    """A part of what a bus with sixteen modules carries, and of what goes wrong on it."""
    out = []
    for _ in range(PART):
        address, kind = rng.choice(MODULES)
        command = rng.choice([c for c in LENGTHS if c not in OF_ONE[BL if kind == IR else IR]])
        data, priority, remote, sid0 = likely_data(rng, command), 0 if command in HIGH else 3, 0, 0
        fault = rng.randrange(25)
        if fault == 0:
            address = rng.randrange(256)  # most often one that is not listed
        elif fault == 1:
            data = data[:-1] or [0]
        elif fault == 2:
            priority = rng.randrange(4)
        elif fault == 3:
            sid0 = 1
        elif fault == 4:
            data, remote, priority = [], 1, 3
        elif fault == 5:
            data = [rng.randrange(256) for _ in range(rng.randrange(9))]
        elif fault == 6:
            data = [rng.choice(list(LENGTHS))] + data[1:]
        elif fault == 7:
            out.append(entry(address, kind))
            continue
        out.append(record(address, data, rng.choice((0, 7, 40, 300, 2500)), priority, remote, sid0))
    return b"".join(out)


def sweep(rng):
    """Each command at each length and priority, and each value of each byte of the frames that have a length; for every type."""
    out = []
    for address, kind in ((0x21, IR), (0x31, BL), (0x51, BL2), (0x41, None)):
        out += [entry(address, kind)] if kind else []
        for command in range(256):
            for length in range(1, 9):
                for priority in range(4):
                    out.append(record(address, [command] + [rng.choice((0, 1, 3)) for _ in range(length - 1)], 0, priority))
        for command in LENGTHS:
            for at in range(1, LENGTHS[command]):
                for value in range(256):
                    data = likely_data(rng, command, kind)
                    data[at] = value
                    out.append(record(address, data, 0, 0 if command in HIGH else 3))
        for value in range(256):
            out.append(record(address, [0xFF, BL, value, 1, 2]))
            out.append(record(address, [0xFF, BL2, value, 1, 2]))
            out.append(record(address, [0xFF, value, 0, 0, 1, 2, 3]))
            out += [entry(address, kind)] if kind else []
        for word in range(4096):
            out += [b"\0" + number(word) + b"\0", b"\0" + number(word) + b"\1\xcb"]
    return b"".join(out)


def asked(rng, command):
    """A bench is handed one command, with what may stand in it."""
    last = {0xEF: [1 << rng.randrange(8)], 0xFA: [rng.randrange(256)], 0xC9: [0, rng.randrange(253)], 0xCA: [0] + [rng.randrange(253) for _ in range(5)]}
    data = last.get(command, [0] + [rng.randrange(256) for _ in range(6)])
    return record(MODULES[0][0], ([command] + data)[:LENGTHS[command]])


def damaged(rng, recording):
    out = bytearray(recording)
    for _ in range(rng.randrange(1, 4)):
        at, how = rng.randrange(len(out)), rng.randrange(3)
        if how == 0:
            out[at] = rng.randrange(256)
        elif how == 1:
            del out[at]
        else:
            out.insert(at, rng.randrange(256))
    return bytes(out[: rng.choice((len(out), rng.randrange(len(out))))])


def main():
    folder = pathlib.Path(sys.argv[1])
    rng = random.Random(7)
    classroom = (ROOT / "samples" / "classroom.rec").read_bytes()
    whole_dump = dump()
    parts = [traffic(rng) for _ in range(LARGE)]
    entries = b"".join(entry(address, kind) for address, kind in MODULES)
    sizes = (("small", SMALL), ("large", LARGE), ("long", LONG))
    for size, n in sizes:
        (folder / f"classroom.{size}.rec").write_bytes(classroom * (4 * n))
        (folder / f"dump.{size}.rec").write_bytes(whole_dump * n)
        (folder / f"random.{size}.rec").write_bytes(entries + b"".join(parts[i % LARGE] for i in range(n)))
    for name, starts in (("unheard", ()), ("half", range(0, 256, 8)), ("told", range(0, 256, 4))):
        (folder / f"{name}.small.rec").write_bytes(memory(starts))
    for command in BENCH:
        (folder / f"bench-{command:02X}.small.rec").write_bytes(b"".join(asked(rng, command) for _ in range(64)))
    (folder / "empty.rec").write_bytes(b"")
    (folder / "sweep.rec").write_bytes(sweep(rng))
    for i in range(200):
        source = rng.choice((classroom, whole_dump, parts[0], classroom[:60], entries + parts[1]))
        (folder / f"damaged-{i:03}.rec").write_bytes(damaged(rng, source))


main()
