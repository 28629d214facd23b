#!/usr/bin/env python3
"""Writes technician.rec: what a technician has heard before reading the rest of a house's memories.

A VMB8IR (21) was dumped, and seven of its cells were asked to change; a VMB8IR (22) and a VMB1BL (32) have only named themselves; of a VMB1BL (31)
every second block was told, and all but the last three cells of the end; a VMB1BL (33) was dumped, and nothing is left to read.
usage: make_technician.py > technician.rec
"""
import sys

from recording import record

IR, BL = 0x0A, 0x03
out = bytearray()


def say(address, *data):
    out.extend(record(address, data, 20))


def names_itself(address, kind):
    say(address, *((0xFF, IR, 0x4C, 0x11, 0x01, 0x0C, 0x05) if kind == IR else (0xFF, BL, 0x02, 0x0B, 0x1E)))


def tells(address, starts):
    for start in starts:
        say(address, 0xCC, 0x00, start, 0x00, 0xFF, start, 0x2A)


for address, kind in ((0x21, IR), (0x22, IR), (0x31, BL), (0x32, BL), (0x33, BL)):
    names_itself(address, kind)
tells(0x21, range(0, 256, 4))
for cell in (0x03, 0x05, 0x06, 0x64, 0xF9, 0xFD, 0xFF):
    say(0x21, 0xFC, 0x00, cell, 0x00)
tells(0x31, range(0, 124, 8))
say(0x31, 0xFE, 0x00, 0x7C, 0x11)
tells(0x33, range(0, 128, 4))
sys.stdout.buffer.write(out)
