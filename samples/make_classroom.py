#!/usr/bin/env python3
"""Writes classroom.rec: what a logger hears in a classroom with two VMB8IR (21, 22) and two VMB1BL (31, 32).

A morning's work on the bus: the modules name themselves, two are dumped, names come in mixed order, buttons are pressed and
LEDs answer, one cell is asked to change, and the second VMB1BL is exchanged for a VMB8IR.
usage: make_classroom.py > classroom.rec
"""
import sys

from recording import record

out = bytearray()


def say(gap, address, data, high=False, remote=False, sid0=False):
    out.extend(record(address, data, gap, 0 if high else 3, remote, sid0))


def name(address, channel, text, order, gap=20):
    """The three parts of a name, in the order in which they are heard."""
    text = text.encode("ascii").ljust(16, b"\xff")
    parts = {0: (0xF0, text[:6]), 1: (0xF1, text[6:12]), 2: (0xF2, text[12:])}
    for part in order:
        command, characters = parts[part]
        say(gap, address, bytes([command, channel]) + characters)


INPUT_A, INPUT_B, BLIND_A, BLIND_B = 0x21, 0x22, 0x31, 0x32

# the gateway asks every address for its type; the modules answer
for address in (INPUT_A, INPUT_B, BLIND_A, BLIND_B, 0x40):
    say(10, address, b"", remote=True)
say(35, INPUT_A, bytes([0xFF, 0x0A, 0x4C, 0x11, 0x01, 0x0C, 0x05]))
say(12, INPUT_B, bytes([0xFF, 0x0A, 0x4C, 0x12, 0x01, 0x0C, 0x05]))
say(18, BLIND_A, bytes([0xFF, 0x03, 0x02, 0x0B, 0x1E]))
say(11, BLIND_B, bytes([0xFF, 0x03, 0x00, 0x0B, 0x1E]))

# a whole dump of the first VMB8IR, and the first half of the second's
say(900, INPUT_A, bytes([0xCB]))
for start in range(0, 256, 4):
    say(25, INPUT_A, bytes([0xCC, 0x00, start] + [(start * 7 + i) & 0xFF for i in range(4)]))
say(700, INPUT_B, bytes([0xCB]))
for start in range(0, 128, 4):
    say(25, INPUT_B, bytes([0xCC, 0x00, start] + [(start * 3 + i) & 0xFF for i in range(4)]))

# names, in the order in which the modules sent them; two of them never came whole, but the dumps told the cells that they live in
say(1500, INPUT_A, bytes([0xEF, 0x01]))
name(INPUT_A, 0x01, "Board light", (0, 1, 2))
say(80, INPUT_A, bytes([0xEF, 0x02]))
name(INPUT_A, 0x02, "Window left", (2, 0, 1))
name(INPUT_A, 0x04, "Window right", (1, 2, 0))
name(INPUT_A, 0x08, "Door", (0, 2))
name(INPUT_B, 0x80, "All off", (2, 1, 0))
name(INPUT_B, 0x40, "Projector", (2,))
say(300, BLIND_A, bytes([0xEF, 0x03]))
name(BLIND_A, 0x03, "South blind", (0, 1, 2))
name(BLIND_A, 0x10, "Up", (2, 1, 0))
name(BLIND_A, 0x20, "Down", (1, 0, 2))

# lessons: buttons are pressed and released, LEDs follow, blinds go up and down
for lesson in range(12):
    channel = 1 << lesson % 8
    say(300_000, INPUT_A, bytes([0x00, channel, 0x00, 0x00]), high=True)
    say(40, INPUT_A, bytes([0xF6, channel]))
    say(210, INPUT_A, bytes([0x00, 0x00, channel, 0x00]), high=True)
    say(60, INPUT_A, bytes([0xEB, 0x00, channel, 0x00, channel >> 1]))
    say(500, INPUT_B, bytes([0xF7 + lesson % 3, channel]))
    say(900, BLIND_A, bytes([0x05 + lesson % 2, 0x03, 0x00, 0x00, 0x1E]), high=True)
    say(30, BLIND_A, bytes([0xEC, 0x03, 0x02, 1 + lesson % 2, 0x00, 0x00, 0x00, 0x00]))
    say(31_000, BLIND_A, bytes([0xEC, 0x03, 0x02, 0x00, 0x00, 0x00, 0x00, 0x00]))
    say(5, BLIND_B, bytes([0x05, 0x03, 0x00, 0x00, 0x00]), high=True)
    say(700, BLIND_B, bytes([0x04, 0x03]), high=True)
    say(15, 0x50, bytes([0xFE, 0x00, 0x10, lesson]))  # a module that never said its type

# one cell of the first VMB8IR, a character of its second name, is asked to change, and nobody tells what it then holds
say(2_000, INPUT_A, bytes([0xFC, 0x00, 0x11, 0x2A]))

# single cells of the first VMB1BL; the second is taken off the wall, and a VMB8IR put in its place
for location in (0x00, 0x01, 0x7F):
    say(40, BLIND_A, bytes([0xFE, 0x00, location, 0x5A]))
say(35, BLIND_B, bytes([0xFE, 0x00, 0x02, 0x77]))
say(3_600_000, BLIND_B, bytes([0xFF, 0x0A, 0x51, 0x90, 0x01, 0x0D, 0x01]))
say(90, BLIND_B, bytes([0xFE, 0x00, 0xFF, 0x01]))
say(90, BLIND_B, bytes([0xF4, 0x01, 0x02, 0x02]))

# noise: a frame with a bad length, one with SID0 set, one of a priority that is not the command's
say(10, INPUT_A, bytes([0xFE, 0x00, 0x10]))
say(10, INPUT_A, bytes([0xCB]), sid0=True)
say(10, INPUT_A, bytes([0xFD, 0x00, 0x10]), high=True)

sys.stdout.buffer.write(out)
