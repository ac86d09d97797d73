#!/usr/bin/env python3
"""Measures `rvmove run` against the plain C interpreter beside this file: million instructions a
second of processor time of both, and their ratio, by the best and by the median of many short runs
that alternate; and `rvm_bench`, which has two memories in one program, over each of them. Wants gcc
and what `make bench` builds. More guests may be named: `bench.py NAME=IMAGE:HARTS:STEPS ..`."""
import statistics
import subprocess
import sys

from cost import seconds
from guests import INTERPRETER, PROGRAM, TWO_MEMORIES, build_interpreter, loop

RUNS = 15


def turns(words):
    done = subprocess.run([INTERPRETER, "run", *words, "--count"], check=True, capture_output=True)
    return int(done.stderr.split(b"turns ")[1].split()[0])


def compare(name, words, command=None):
    steps = turns(words)
    plain, proved = [], []
    for _ in range(RUNS):
        plain.append(seconds([INTERPRETER, "run", *words]))
        proved.append(seconds(command or [PROGRAM, "run", *words]))
    c, r = steps / min(plain) / 1e6, steps / min(proved) / 1e6
    median = statistics.median(plain) / statistics.median(proved)
    print(
        f"{name:13} {steps:11} steps   C {c:7.1f}   rvmove {r:7.1f}   ratio {r / c:5.2f}"
        f"   of medians {median:5.2f}",
        flush=True,
    )


def main():
    build_interpreter()
    image = loop()
    print("million instructions a second of processor time, best of", RUNS, "runs that alternate")
    words = [image, "--raw", "--steps", "1000000000"]
    compare("loop, 1 hart", words)
    for memory in ("flat", "paged"):
        compare(f"loop, {memory}", words, [TWO_MEMORIES, image, "1", memory, "1000000000"])
    compare("loop, 4 harts", [image, "--raw", "--harts", "4", "--steps", "20000000"])
    for guest in sys.argv[1:]:
        name, rest = guest.split("=")
        image, harts, steps = rest.split(":")
        compare(name, [image, "--raw", "--harts", harts, "--steps", steps])


if __name__ == "__main__":
    main()
