#!/usr/bin/env python3
"""Moves guests while they run, many times, and compares what they send with what they send without a move.

    bench/live.py [--times N] IMAGE ..        N moves in all, 200 where it is not given

The moves go through all versions of streams and several policies. Each must have the status 0, the output
of `rvmove run`, and end within a minute. The last line says how many were moved to their end and how long
the longest took; the status is 1 where one was not as it must be.
"""
import argparse
import itertools
import subprocess
import sys
import time
from pathlib import Path

RVMOVE = Path(__file__).resolve().parent.parent / "build" / "rvmove"
STEPS = "100000"
POLICIES = (("29", "50", "3"), ("1", "1", "1"), ("3", "1", "100"), ("1000", "1", "100"))
VERSIONS = ("1", "2", "3")
MINUTE = 60


def run(words):
    return subprocess.run([RVMOVE, *words], capture_output=True, timeout=MINUTE)


def main():
    parser = argparse.ArgumentParser(description=__doc__, formatter_class=argparse.RawDescriptionHelpFormatter)
    parser.add_argument("--times", type=int, default=200)
    parser.add_argument("images", nargs="+")
    arguments = parser.parse_args()
    wanted = {image: run(["run", image, "--steps", STEPS]).stdout for image in arguments.images}
    kinds = itertools.cycle(itertools.product(arguments.images, POLICIES, VERSIONS))
    faults, moved, longest = 0, 0, 0.0
    for image, (rounds, left, factor), version in itertools.islice(kinds, arguments.times):
        words = ["move", image, "--steps", STEPS, "--rounds", rounds, "--left", left, "--factor", factor, "--stream", version]
        begun = time.monotonic()
        try:
            ended = run(words)
        except subprocess.TimeoutExpired:
            print(f"no end: {' '.join(words)}")
            faults += 1
            continue
        longest = max(longest, time.monotonic() - begun)
        moved += b"finished\n" in ended.stderr
        if ended.returncode != 0 or ended.stdout != wanted[image]:
            print(f"status {ended.returncode}, output as of run {ended.stdout == wanted[image]}: {' '.join(words)}")
            faults += 1
    print(f"{arguments.times} moves, {moved} to their end, {faults} faults, the longest {longest:.2f} s")
    sys.exit(1 if faults else 0)


if __name__ == "__main__":
    main()
