#!/usr/bin/env python3
"""Writes the traces that are timed: one of long lines, one of short lines, one of large modules, each as long as a trace may be or as
its kind allows, and one of 4,096 small draws.

usage: make.py FOLDER    (the folder has straight.spv and loops.spv, as bench/modules/make.py writes them)
"""
import os
import struct
import sys

sys.dont_write_bytecode = True
sys.path.insert(0, os.path.join(os.path.dirname(os.path.abspath(__file__)), ".."))
from shaders import FRAGMENT, VERTEX

TRACE_BYTES = 16_777_216
BUFFER_WORDS = 65_536
MODULES, LIBRARIES, PIPES, LAYOUTS = 64, 256, 256, 64


def written(path, lines):
    with open(path, "w") as file:
        file.writelines(line + "\n" for line in lines)


def filled(lines, more):
    """The lines, and behind them those of `more` for as long as they fit."""
    left = TRACE_BYTES - sum(len(line) + 1 for line in lines)
    for line in more:
        left -= len(line) + 1
        if left < 0:
            return
        lines.append(line)


def long():
    """Buffers of as many words as a line may have; the last line is as long as still fits."""
    lines = ["gplt 1"]
    word = 1
    left = TRACE_BYTES - len("gplt 1\n")
    while left >= len("data 00000000\n"):
        count = min(BUFFER_WORDS, (left - len("data\n")) // 9)
        words = []
        for _ in range(count):
            word = (word * 1664525 + 1013904223) & 0xFFFFFFFF
            words.append(f"{word:08x}")
        lines.append(" ".join(["data", *words]))
        left -= len(lines[-1]) + 1
    return lines


def steps():
    """Short lines of a recorder, without an end."""
    number = 0
    while True:
        yield f"push 0 {number % 32} {number & 0xFFFFFFFF:08x}"
        yield f"scissor 0 {number % 200} {number // 7 % 200} {number % 50} 32"
        number += 1


def short():
    """Layouts, libraries and pipes up to their limits, and then lines of a recorder."""
    lines = ["gplt 1", "code " + VERTEX, "code " + FRAGMENT]
    lines += ["layout 0 0 1 - - -"] * LAYOUTS
    lines += ["vertex 1 triangles v:4 - - - 0:0:s4:0", "prerast 1 0 0 0 0 0 cw", "output 1 0 1:1 6 u1:1 - - -"]
    lines += [f"fragment 1 1 {k % LAYOUTS} 0 3:1 - 0={k:08x}" for k in range(LIBRARIES - 3)]
    lines += [f"pipe 0 1 2 {3 + k % (LIBRARIES - 3)}" for k in range(PIPES)]
    filled(lines, steps())
    return lines


def modules(folder):
    """As many modules as a trace may have, each of about 16,000 words: straight lines and loops by turns."""
    codes = []
    for name in ("straight", "loops"):
        with open(f"{folder}/{name}.spv", "rb") as file:
            data = file.read()
        codes.append(" ".join(["code", *(f"{word:08x}" for word in struct.unpack(f"<{len(data) // 4}I", data))]))
    return ["gplt 1"] + codes * (MODULES // 2)


def draws(count):
    """Draws of one triangle in a scissor that wanders, by four recorders and six pipelines, with a depth test and XOR."""
    lines = ["gplt 1", "data 00000000 00000000 00000005 00000000 00004000 00000000 00000005 00000000 00000000 00004000 00000005 00000000",
             "data 00000064", "code " + VERTEX, "code " + FRAGMENT, "layout 0 0 1 - - -", "vertex 1 triangles v:4 - - - 0:0:s4:0",
             "prerast 1 0 0 0 0 0 cw"]
    lines += [f"fragment 1 1 0 0 3:1 - 0={k:08x}" for k in range(1, 7)]
    lines += ["output 1 0 1:1 6 u1:1 - - -"]
    lines += [f"pipe 0 1 {2 + k} 8" for k in range(6)]
    for recorder in range(4):
        lines += [f"target {recorder} u1 64 64 1 1 00000000", f"target {recorder} z 64 64 1 1 7fffffff"]
    for recorder in range(4):
        lines += [f"vbuf {recorder} 0 0", f"ubuf {recorder} 0 0 1", f"bind {recorder} {2 * recorder} - - - {2 * recorder + 1}"]
    chance = 1
    for draw in range(count):
        chance = (chance * 6364136223846793005 + 1442695040888963407) & 0xFFFFFFFFFFFFFFFF
        place = chance >> 33
        recorder = draw % 4
        lines += [f"scissor {recorder} {place // 8 % 32} {place // 256 % 32} 32 32", f"draw {recorder} {draw // 4 % 6} 0 3 0 1"]
    return lines


def main():
    folder = sys.argv[1]
    written(f"{folder}/long.gplt", long())
    written(f"{folder}/short.gplt", short())
    written(f"{folder}/modules.gplt", modules(folder))
    written(f"{folder}/draws.gplt", draws(4_096))


main()
