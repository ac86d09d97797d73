#!/usr/bin/env python3
"""Counts host instructions a guest step, of `rvmove run` and of the interpreters in C beside this file (a plain one,
and one as fast as C can, by computed goto and by one switch), by valgrind's cachegrind: the difference of two runs of
the same guest over their difference in steps, so that the start and the end of a run do not count. The figure is free
of noise.

    bench/count.py [NAME=IMAGE[:HARTS[:FEWER:MORE]] ..]

counts the loop of the benchmark (on one hart, on four, with input waiting, under `debug`, and over
each of two memories in one program), a guest for each kind of row (kinds.txt), and the images named:
the first FEWER and the first MORE steps are run, by default 100000 and 1000000. Wants valgrind, gcc
and what `make bench` builds; the last line has the geometric means over the images named."""
import math
import os
import re
import subprocess
import sys

from guests import BUILD, INTERPRETER, LIMIT_BY_GOTO, LIMIT_BY_SWITCH, PROGRAM, TWO_MEMORIES
from guests import build_interpreter, build_limits, kinds, loop

FEWER, MORE = 100_000, 1_000_000


def instructions(command, stdin=None):
    """How many host instructions a command takes."""
    words = ["valgrind", "--tool=cachegrind", "--cache-sim=no", "--cachegrind-out-file=/dev/null", *command]
    done = subprocess.run(words, capture_output=True, text=True, input=stdin)
    counted = re.search(r"I\s+refs:\s+([\d,]+)", done.stderr)
    if done.returncode != 0 or counted is None:
        sys.exit(f"{' '.join(command)}: status {done.returncode}\n{done.stderr}")
    return int(counted[1].replace(",", ""))


def a_step(command, fewer=FEWER, more=MORE):
    """Host instructions a step of a command that is given a number of steps."""
    return (instructions(command(more)) - instructions(command(fewer))) / (more - fewer)


def run(program, image, *words):
    return lambda steps: [program, "run", image, *words, "--steps", str(steps)]


def compare(name, image, *words, fewer=FEWER, more=MORE):
    """Prints the figures of a guest, and answers those of `rvmove` and of each interpreter in C."""
    programs = (PROGRAM, INTERPRETER, LIMIT_BY_GOTO, LIMIT_BY_SWITCH)
    figures = [a_step(run(program, image, *words), fewer, more) for program in programs]
    tell(name, figures)
    return figures


def tell(name, figures):
    ours, plain, goto, switch = figures
    print(f"{name:24} rvmove {ours:7.2f}   C plain {plain:7.2f}   goto {goto:7.2f}   switch {switch:7.2f}   "
          f"ratio {ours / plain:5.2f} {ours / goto:5.2f} {ours / switch:5.2f}", flush=True)


def geometric_means(rows):
    return [math.exp(sum(map(math.log, column)) / len(rows)) for column in zip(*rows)]


def debugged(image):
    """Host instructions a step of `debug`, by lines of a script that ask for so many."""
    def lines(count):
        return instructions([PROGRAM, "debug", image, "--raw"], stdin=f"step 0 {MORE}\n" * count)
    return (lines(3) - lines(1)) / (2 * MORE)


def main():
    build_interpreter()
    build_limits()
    image = loop()
    one = compare("loop, 1 hart", image, "--raw")
    compare("loop, 4 harts", image, "--raw", "--harts", "4")
    waiting = os.path.join(BUILD, "waiting.txt")
    with open(waiting, "wb") as file:
        file.write(bytes(1000))
    compare("loop, input waiting", image, "--raw", "--input", waiting)
    print(f"{'loop, debug':24} rvmove {debugged(image):7.2f}   run {one[0]:7.2f}", flush=True)
    for memory in ("flat", "paged"):
        figure = a_step(lambda steps, memory=memory: [TWO_MEMORIES, image, "1", memory, str(steps)])
        print(f"{'loop, ' + memory + ' of two':24} rvmove {figure:7.2f}", flush=True)
    tell("kinds, geometric mean", geometric_means([compare(name, image) for name, image in kinds()]))
    figures = []
    for guest in sys.argv[1:]:
        name, rest = guest.split("=")
        image, harts, fewer, more = (rest.split(":") + ["1", str(FEWER), str(MORE)][rest.count(":"):])[:4]
        figures.append(compare(name, image, "--harts", harts, fewer=int(fewer), more=int(more)))
    if figures:
        tell("geometric mean", geometric_means(figures))


if __name__ == "__main__":
    main()
