#!/usr/bin/env python3
"""Runs the listing program on recordings and compares what it writes: named cases against the listing that the rules give, and
all of them, with random and damaged ones, against the second implementation.

usage: listings.py REFERENCE SEED PROGRAM...   (PROGRAM with the words that run it)
"""
import pathlib
import random
import subprocess
import sys

sys.path.insert(0, str(pathlib.Path(__file__).resolve().parent.parent / "samples"))
from recording import record

HEADER = "address type names cells\n"
IR = [0xFF, 0x0A, 0x12, 0x34, 0x01, 0x0C, 0x05]
BL = [0xFF, 0x03, 0x00, 0x0C, 0x05]
BL2 = [0xFF, 0x09, 0x0F, 0x0B, 0x1E]


def name(address, channel, *parts):
    texts = {0xF0: [0x41] * 6, 0xF1: [0x42] * 6, 0xF2: [0xFF] * 4}
    return b"".join(record(address, [part, channel] + texts[part]) for part in parts)


def counts(heard, refused):
    return f"heard {heard} refused {refused}\n"


def broken(offset, refusal):
    return f"broken at byte {offset} refusal {refusal}\n"


def named_cases():
    """A name, the recording, and its listing by the rules."""
    whole = bytes.fromhex("00A81907FF0A1234010C05 00A81907CC0080052A034C 00A80102FA00".replace(" ", ""))
    yield "the whole case", whole, HEADER + "2A 0A 0 4\n" + counts(2, 1)
    yield "empty", b"", HEADER + counts(0, 0)
    first = record(0x2A, IR)
    n = len(first)
    listed = HEADER + "2A 0A 0 0\n"
    yield "a gap of two bytes that is not shortest", first + b"\x80\x00", listed + broken(n + 1, 16) + counts(1, 0)
    yield "a gap of five groups that is not shortest", first + b"\x80\x80\x80\x80\x00", listed + broken(n + 4, 16) + counts(1, 0)
    yield "a gap of six groups", first + b"\xff\xff\xff\xff\xff\x01", listed + broken(n + 4, 16) + counts(1, 0)
    for title, gap in ("the greatest gap of four groups", 268435455), ("one more", 268435456), ("the greatest gap", 34359738367):
        yield title, first + record(0x2A, [0xCB], gap=gap), listed + counts(2, 0)
    yield "a word of three groups", first + b"\x00\x80\x80\x01", listed + broken(n + 2, 16) + counts(1, 0)
    yield "a word above 4095", first + b"\x00\x80\x20\x00", listed + broken(n + 2, 16) + counts(1, 0)
    yield "a word that is not shortest", first + b"\x00\x80\x00\x00", listed + broken(n + 2, 16) + counts(1, 0)
    yield "a count of nine", first + b"\x00\xa8\x19\x09" + bytes(9), listed + broken(n + 3, 16) + counts(1, 0)
    yield "a count with its top bit set", first + b"\x00\xa8\x19\x81\x00", listed + broken(n + 3, 16) + counts(1, 0)
    second = record(0x2A, [0xCC, 0x00, 0x00, 1, 2, 3, 4], gap=300)
    for cut in range(1, len(second)):
        yield f"cut off after {cut} bytes of a record", first + second[:cut], listed + broken(n + cut, 15) + counts(1, 0)
    yield "nothing cut off", first + second, HEADER + "2A 0A 0 4\n" + counts(2, 0)
    yield "only the broken part", b"\x80", HEADER + broken(1, 15) + counts(0, 0)
    modules = b"".join(record(0x90 - i, IR if i % 2 else BL) for i in range(17))
    lines = "".join(f"{a:02X} {'0A' if (0x90 - a) % 2 else '03'} 0 0\n" for a in range(0x81, 0x91))
    yield "sixteen modules and a seventeenth", modules, HEADER + lines + counts(16, 1)
    exchanged = record(0x05, IR) + record(0x05, [0xFE, 0, 9, 9]) + name(0x05, 0x01, 0xF0, 0xF1, 0xF2) + record(0x05, BL)
    yield "an exchange", exchanged, HEADER + "05 03 0 0\n" + counts(6, 0)
    yield "an exchange among blind modules", record(0x05, BL) + record(0x05, [0xFE, 0, 9, 9]) + record(0x05, BL2), HEADER + "05 09 0 0\n" + counts(3, 0)
    yield "the same type again", record(0x05, IR) + record(0x05, [0xFE, 0, 9, 9]) + record(0x05, IR), HEADER + "05 0A 0 1\n" + counts(3, 0)
    yield "names whole and not", (
        record(1, IR) + name(1, 0x01, 0xF2, 0xF0, 0xF1) + name(1, 0x02, 0xF0, 0xF1) + name(1, 0x80, 0xF2, 0xF2, 0xF2)
    ), HEADER + "01 0A 1 32\n" + counts(9, 0)
    blocks = record(1, IR) + b"".join(record(1, [0xCC, 0, start, 1, 2, 3, 4]) for start in range(0, 32, 4))
    yield "names that memory frames told", blocks + record(1, [0xFC, 0, 16, 0]), HEADER + "01 0A 1 31\n" + counts(10, 0)
    yield "names of a blind", (
        record(1, BL) + name(1, 0x03, 0xF0, 0xF1, 0xF2) + name(1, 0x10, 0xF2, 0xF1, 0xF0) + name(1, 0x20, 0xF2)
    ), HEADER + "01 03 2 0\n" + counts(8, 0)
    yield "names of two blinds", (
        record(1, BL2) + b"".join(name(1, channel, 0xF0, 0xF1, 0xF2) for channel in (0x03, 0x0C, 0x40, 0x80)) + record(1, [0xFE, 0, 0xFF, 0])
    ), HEADER + "01 09 4 1\n" + counts(14, 0)
    told = record(1, BL) + b"".join(record(1, [0xFE, 0, i, 0]) for i in range(128)) + record(1, [0xFC, 0, 3, 0]) + record(1, [0xCA, 0, 8, 0, 0, 0, 0])
    yield "cells told and asked for", told, HEADER + "01 03 0 123\n" + counts(131, 0)


def long_recording(rng, size):
    """Records of every length, so that each buffer's end falls inside one."""
    out = bytearray(record(0x11, IR) + record(0x12, BL))
    while len(out) < size:
        address, k = rng.choice((0x11, 0x12, 0x13)), rng.randrange(7)
        data = (
            [0xFE, 0, rng.randrange(128), rng.randrange(256)],
            [0xCC, 0, rng.randrange(0, 124), 1, 2, 3, 4],
            [0xFC, 0, rng.randrange(128), 0],
            [0xCB],
            [0xF0, 0x03, 65, 66, 67, 68, 69, 70],
            [0xF6, rng.randrange(256)],
            [],
        )[k]
        out += record(address, data, gap=rng.choice((0, 5, 200, 20000, 3000000, 300000000)), remote=int(not data))
    return bytes(out)


def damaged(rng, recording):
    out = bytearray(recording)
    for _ in range(rng.randrange(1, 4)):
        k = rng.randrange(3)
        if k == 0 and out:
            out[rng.randrange(len(out))] = rng.randrange(256)
        elif k == 1:
            del out[rng.randrange(len(out) + 1):]
        elif out:
            del out[rng.randrange(len(out))]
    return bytes(out)


def run(words, recording):
    done = subprocess.run(words, input=recording, stdout=subprocess.PIPE, stderr=subprocess.PIPE)
    if done.returncode or done.stderr:
        sys.exit(f"{words[-1]}: exit status {done.returncode}: {done.stderr.decode(errors='replace')}")
    return done.stdout.decode("ascii")


def main():
    reference, seed, program = [sys.argv[1]], int(sys.argv[2]), sys.argv[3:]
    if "--" in program:  # words that run both
        split = program.index("--")
        reference, program = program[:split] + reference, program[:split] + program[split + 1:]
    rng = random.Random(seed)
    print(f"seed {seed}")
    cases = list(named_cases())
    for title, recording, expected in cases:
        for who, words in (("program", program), ("reference", reference)):
            got = run(words, recording)
            if got != expected:
                sys.exit(f"{title}: {who} wrote\n{got}instead of\n{expected}")
    others = [long_recording(rng, 300_000)] + [long_recording(rng, rng.randrange(70_000)) for _ in range(10)]
    others += [damaged(rng, rng.choice(others[1:])) for _ in range(40)]
    others += [damaged(rng, cases[rng.randrange(len(cases))][1] + long_recording(rng, 200)) for _ in range(60)]
    others += [bytes(rng.randrange(256) for _ in range(rng.randrange(60))) for _ in range(60)]
    for recording in others:
        got, expected = run(program, recording), run(reference, recording)
        if got != expected:
            sys.exit(f"a recording of {len(recording)} bytes, {recording[:60].hex()}..: program wrote\n{got}reference\n{expected}")
    print(f"{len(cases)} named cases and {len(others)} random recordings agree")


main()
