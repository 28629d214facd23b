#!/usr/bin/env python3
"""Writes lesson.rec: the commands of a lesson on a bench module at address 2A, as ./bench takes them from standard input.

The module names itself and is dumped, its first channel gets a name, LEDs are lit, one cell is written and not read again, and two
commands are not allowed. With --heard it writes what ./bench is to give back: the commands that are taken, each with its replies, by a bench of its own.
usage: make_lesson.py [--heard] > lesson.rec
"""
import sys

from recording import record

BENCH, ELSEWHERE = 0x2A, 0x31

lesson, heard = bytearray(), bytearray()
memory, leds = bytearray(range(256)), ["off"] * 8


def block(start):
    return [0xCC, 0, start, *memory[start:start + 4]]


def lit(*states):
    return sum(1 << i for i, state in enumerate(leds) if state in states)


def replies(data):
    """What the bench answers; None where it refuses."""
    command, *fields = data or [None]
    if command is None:
        return [[0xFF, 0x0A, memory[0xFE], memory[0xFF], 1, 12, 5]]
    if command == 0xCB:
        return [block(start) for start in range(0, 256, 4)]
    if command == 0xCA:
        memory[fields[1]:fields[1] + 4] = bytes(fields[2:])
        return [block(fields[1])]
    if command == 0xFC:
        memory[fields[1]] = fields[2]
        return []
    if command == 0xFD:
        return [[0xFE, 0, fields[1], memory[fields[1]]]]
    if command == 0xEF and bin(fields[0]).count("1") == 1:
        name = memory[16 * (fields[0].bit_length() - 1):][:16]
        return [[0xF0, fields[0], *name[:6]], [0xF1, fields[0], *name[6:12]], [0xF2, fields[0], *name[12:]]]
    if command in (0xF6, 0xF9):
        for i in range(8):
            if fields[0] >> i & 1:
                leds[i] = {0xF6: "on", 0xF9: "very fast"}[command]
        return []
    if command == 0xFA:
        return [[0xEB, 0, lit("on"), lit("slow", "very fast"), lit("fast", "very fast")]]
    return [[0xDA, 0, 0, 0]] if command == 0xD9 else None


def say(data, gap=1000, address=BENCH, remote=False):
    said = record(address, bytes(data), gap, 3, remote, False)
    lesson.extend(said)
    answers = replies(data) if address == BENCH else []
    if answers is not None:
        heard.extend(said)
        for answer in answers:
            heard.extend(record(address, bytes(answer)))


say([], remote=True)                                        # what are you? FF
say([0xCB])                                                 # the whole memory: 64 blocks
for start, text in ((0, b"Boar"), (4, b"d li"), (8, b"ght "), (12, b"    ")):
    say([0xCA, 0x00, start, *text])                         # a name for channel 1: each block is answered with what is then stored
say([0xEF, 0x01])                                           # and asked for: three parts
say([0xFC, 0x00, 0x40, 0x2A])                               # one cell written, with no answer: nobody knows that it was stored
say([0xFD, 0x00, 0x41])                                     # its neighbour read
say([0xF6, 0x01])                                           # LED 1 on
say([0xF9, 0x80])                                           # LED 8 very fast
say([0xFA, 0x00])                                           # how are the LEDs? EB
say([0xD9])                                                 # any errors? DA with zeros
say([0xEF, 0x03])                                           # no such channel: 9 at byte 2
say([0xFE, 0x00, 0x00, 0x11])                               # only a module sends this: 6
say([], address=ELSEWHERE, remote=True)                     # another address: no answer

sys.stdout.buffer.write(heard if "--heard" in sys.argv else lesson)
