#!/usr/bin/env python3
"""Writes three traces of draws, each also without its draws, and for the other program the words of both modules and of the corners,
four words a corner.

usage: make.py FOLDER
"""
import os
import struct
import sys

sys.dont_write_bytecode = True
sys.path.insert(0, os.path.join(os.path.dirname(os.path.abspath(__file__)), ".."))
from shaders import FRAGMENT, VERTEX

PIXEL = 256
POINTS = 16_384
VALUES = 6  # of the specialization constant, each with a pipeline of its own


def triangle(side):
    """It covers a square of that many pixels a side."""
    return [0, 0, 5, 0, 2 * side * PIXEL, 0, 5, 0, 0, 2 * side * PIXEL, 5, 0]


def points():
    """Points that are spread over 256 x 256 pixels."""
    words = []
    chance = 1
    for _ in range(POINTS):
        chance = (chance * 6364136223846793005 + 1442695040888963407) & 0xFFFFFFFFFFFFFFFF
        words += [chance >> 33 & 0xFFFF, chance >> 48, 5, 0]
    return words


def objects(corners, topology, side, samples, depth):
    """The lines before the first draw: pipelines that differ in the specialization constant alone, and what is bound."""
    mask = (1 << samples) - 1
    multisample = f"{samples}:{mask}" if samples > 1 else "-"
    lines = ["gplt 1", "data " + " ".join(f"{word:08x}" for word in corners), "data 00000064", "code " + VERTEX, "code " + FRAGMENT,
             "layout 0 0 1 - - -", f"vertex 1 {topology} v:4 - - - 0:0:s4:0", "prerast 1 0 0 0 0 0 cw"]
    lines += [f"fragment 1 1 0 0 {'3:1' if depth else '-'} {multisample} 0={value:08x}" for value in range(1, VALUES + 1)]
    lines += [f"output 1 0 {samples}:{mask} 6 u1:1 - - -"]
    lines += [f"pipe 0 1 {2 + k} {2 + VALUES}" for k in range(VALUES)]
    lines += [f"target 0 u1 {side} {side} 1 {samples} 00000000", f"target 0 z {side} {side} 1 {samples} 7fffffff"]
    return lines + ["vbuf 0 0 0", "ubuf 0 0 0 1", f"bind 0 0 - - - {'1' if depth else '-'}"]


def draws(count, vertices, scissor):
    """Draws by turns of pipelines, each in a scissor that wanders where it is smaller than a target may be."""
    chance = 1
    for number in range(count):
        chance = (chance * 6364136223846793005 + 1442695040888963407) & 0xFFFFFFFFFFFFFFFF
        place = chance >> 33
        x, y = min(place // 8 % 32, 256 - scissor), min(place // 256 % 32, 256 - scissor)
        yield f"scissor 0 {x} {y} {scissor} {scissor}"
        yield f"draw 0 {number // 4 % VALUES} 0 {vertices} 0 1"


def main():
    folder = sys.argv[1]
    corners = {"triangles": triangle(32), "samples": triangle(256), "points": points()}
    scenes = {"triangles": (objects(corners["triangles"], "triangles", 64, 1, True), draws(4_096, 3, 32)),
              "samples": (objects(corners["samples"], "triangles", 256, 4, True), draws(12, 3, 256)),
              "points": (objects(corners["points"], "points", 256, 1, False), draws(48, POINTS, 256))}
    for name, (before, lines) in scenes.items():
        lines = before + list(lines)
        for ending, kept in ((".gplt", lines), (".still.gplt", [line for line in lines if not line.startswith("draw")])):
            with open(f"{folder}/{name}{ending}", "w") as file:
                file.writelines(line + "\n" for line in kept)
    for name, words in {"vertex": VERTEX, "fragment": FRAGMENT}.items():
        corners[name] = [int(word, 16) for word in words.split()]
    for name, words in corners.items():
        with open(f"{folder}/{name}", "wb") as file:
            file.write(struct.pack(f"<{len(words)}I", *words))


main()
