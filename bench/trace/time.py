#!/usr/bin/env python3
"""Times whole runs of a program on the traces that make.py wrote, beside another program with the same words, if one is given.

usage: time.py FOLDER PROGRAM [YARDSTICK]

For each trace and word: milliseconds of processor time, of both programs, in the shortest of some runs; their ratio; and the first program's
peak memory in bytes for each byte of the trace, by /usr/bin/time (Debian's package time). The lines of the first program are compared with
as many of the other one.
"""
import os
import resource
import subprocess
import sys
import tempfile

ROWS = [("long", "links"), ("long", "check"), ("short", "links"), ("short", "check"), ("modules", "check"), ("modules", "links"), ("draws", "links"),
        ("draws", "play")]
TURNS = 5
LOWEST = 4 << 20  # a peak below this is the program's own, and says nothing of the trace


def processor_time():
    used = resource.getrusage(resource.RUSAGE_CHILDREN)
    return used.ru_utime + used.ru_stime


def run(program, word, trace):
    """The milliseconds, the peak in KiB, and the lines."""
    with open(trace) as source, tempfile.NamedTemporaryFile("r") as said, tempfile.TemporaryFile("w+") as text:
        command = ["/usr/bin/time", "-f", "%M", "-o", said.name, program, word]
        start = processor_time()
        done = subprocess.run(command, stdin=source, stdout=text)
        used = processor_time() - start
        if done.returncode:
            sys.exit(f"time: {program} {word} ended with {done.returncode} on {trace}")
        text.seek(0)
        return used * 1000, int(said.read().split()[-1]), text.read().splitlines()


def best(program, word, trace):
    runs = [run(program, word, trace) for _ in range(TURNS)]
    return min(millis for millis, _, _ in runs), max(peak for _, peak, _ in runs), runs[0][2]


def main():
    folder, program, *yardstick = sys.argv[1:]
    print(f"{'trace':34} {'here':>12} {'yardstick':>12} {'ratio':>8} {'bytes':>8}")
    for name, word in ROWS:
        trace = f"{folder}/{name}.gplt"
        millis, peak, lines = best(program, word, trace)
        row = f"{name + ', ' + word:34} {millis:12.1f}"
        if yardstick:
            theirs, _, other = best(yardstick[0], word, trace)
            row += f" {theirs:12.1f} {millis / theirs:8.2f}"
            if lines != other[:len(lines)]:
                print(f"bench: what both print of {name}, {word} differs", file=sys.stderr)
        else:
            row += f" {'-':>12} {'-':>8}"
        size = os.path.getsize(trace)
        print(f"{row} {peak * 1024 / size:8.1f}" if size >= LOWEST else f"{row} {'-':>8}")


main()
