#!/usr/bin/env python3
"""Times the draws of the traces that make.py wrote, beside a program that makes the same draws.

usage: time.py FOLDER PROGRAM YARDSTICK

A scene's time is what a play of its trace takes longer than one of the same trace without its draws: processor time, the shortest of some
runs. The other program runs in FOLDER, and prints for each scene its nanoseconds, vertices, covered pixels and the sum of the first target's words.
"""
import resource
import subprocess
import sys

TURNS = 10


def processor_time():
    used = resource.getrusage(resource.RUSAGE_CHILDREN)
    return used.ru_utime + used.ru_stime


def played(program, trace):
    """The nanoseconds, and the text."""
    with open(trace) as source:
        start = processor_time()
        done = subprocess.run([program, "play"], stdin=source, stdout=subprocess.PIPE, text=True)
        used = processor_time() - start
    if done.returncode:
        sys.exit(f"time: {program} ended with {done.returncode} on {trace}")
    return used * 1e9, done.stdout


def sum_of(text):
    """The words of the first target, each behind what came before."""
    total = 0
    for line in text.splitlines()[1:]:
        if line.startswith("target"):
            return total
        for word in line.replace("/", " ").split():  # samples of a pixel stand between strokes
            total = (total * 31 + int(word, 16)) & 0xFFFFFFFFFFFFFFFF
    return total


def main():
    folder, program, yardstick = sys.argv[1:]
    other = {}
    for _ in range(TURNS):
        for line in subprocess.run([yardstick], cwd=folder, stdout=subprocess.PIPE, text=True, check=True).stdout.splitlines():
            name, *numbers = line.split("\t")
            numbers = [int(number) for number in numbers]
            other[name] = min(other.get(name, numbers), numbers)
    print(f"{'draw':34} {'here':>12} {'yardstick':>12} {'ratio':>8}")
    for name, (theirs, vertices, pixels, total) in other.items():
        runs = [played(program, f"{folder}/{name}.gplt") for _ in range(TURNS)]
        nanos = min(used for used, _ in runs) - min(played(program, f"{folder}/{name}.still.gplt")[0] for _ in range(TURNS))
        if sum_of(runs[0][1]) != total:
            print(f"bench: what both draw in {name} differs", file=sys.stderr)
        for count, what in ((vertices, "vertices"), (pixels, "pixels")):
            print(f"{f'{name}, {count} {what}':34} {nanos / count:12.1f} {theirs / count:12.1f} {nanos / theirs:8.2f}")


main()
