#!/usr/bin/env python3
"""Runs `rvmove` on large inputs: processor seconds and peak memory of each, and where `strace` is there how
many system calls it made. Scripts of twice and four times the lines tell whether time grows as they do; the
assembler is measured beside GNU `as`, of whatever machine it is. Wants what `make build` builds, and GNU
time.

    bench/large.py [WORD ..]      those whose names hold one of the words
"""
import math
import os
import random
import re
import shutil
import struct
import subprocess
import sys
import tempfile
from pathlib import Path

from guests import LONG_JOURNALS, PROGRAM, TWO_MEMORIES

GUEST = "_start:\n    auipc x2, 1\nnext:\n    sw x1, 0(x2)\n    addi x1, x1, 1\n    j next\n"
# Lines of a move of four pages, by the place of its first frame.
PAGES = 4
FRAMES = PAGES + 7


def move_lines(first):
    """The lines of a move of four pages whose first frame has this place, in streams of version 1."""
    pages, state = [first + 2 + page for page in range(PAGES + 1)], first + PAGES + 3
    lines = ["begin", f"deliver {first}", f"deliver {first + 1}", *["copy"] * (PAGES + 1)]
    lines += [f"deliver {place}" for place in pages] + ["copy", "copy"]
    return lines + [f"deliver {place}" for place in range(state, state + 4)]


def deliveries(count):
    """Moves there and back with so many deliveries in all."""
    lines = []
    for move in range(count // FRAMES + 1):
        lines += move_lines(move * FRAMES)
    return lines


def measured(command, **given):
    """Processor seconds of a command, how many of them are its own and not the system's, and its peak megabytes, the
    best of three runs. GNU time starts it: the peak of a process counts what it was forked from."""
    best = (math.inf, math.inf, math.inf)
    for _ in range(3):
        with tempfile.NamedTemporaryFile("r") as told:
            if "stdin" in given:
                given["stdin"].seek(0)
            timed = ["/usr/bin/time", "-f", "%M", "-o", told.name, *command]
            process = subprocess.Popen(timed, stdout=subprocess.DEVNULL, **given)
            _, status, used = os.wait4(process.pid, 0)
            process.returncode = os.waitstatus_to_exitcode(status)
            if process.returncode:
                sys.exit(f"{' '.join(map(str, command))}: status {process.returncode}")
            best = min(best, (used.ru_utime + used.ru_stime, used.ru_utime, int(told.read()) / 1024))
    return best


def calls(command, **given):
    """How many system calls a command makes, by their names."""
    with tempfile.NamedTemporaryFile("r") as counts:
        strace = ["strace", "-f", "-c", "-o", counts.name, *command]
        subprocess.run(strace, check=True, stdout=subprocess.DEVNULL, **given)
        rows = [line.split() for line in counts.read().splitlines()]
    return {row[-1]: int(row[3]) for row in rows if len(row) >= 5 and re.fullmatch(r"\d+", row[3])}


class Inputs:
    """Files for the runs, in a folder of their own."""

    def __init__(self, folder):
        self.folder = Path(folder)
        self.image = self.assembled("guest", GUEST)

    def text(self, name, lines):
        file = self.folder / name
        file.write_text("\n".join(lines) + "\n")
        return file

    def assembled(self, name, text):
        source, image = self.folder / f"{name}.s", self.folder / f"{name}.elf"
        source.write_text(text)
        subprocess.run([PROGRAM, "asm", source, image], check=True)
        return image

    def random(self, name, size):
        file = self.folder / name
        file.write_bytes(random.Random(1).randbytes(size))
        return file


def script(inputs, name, lines, *options):
    return [PROGRAM, "script", inputs.image, inputs.text(name, lines), *options]


def script_runs(inputs):
    for count in (100_000, 200_000, 400_000):
        yield f"script: {count} lines `step 0 1`", script(inputs, "steps.txt", ["step 0 1"] * count)
    for count in (10_000, 20_000, 40_000):
        lines = deliveries(count)
        yield f"script: moves with {count} deliveries", script(inputs, "moves.txt", lines, "--pages", str(PAGES))
    for count in (10_000, 20_000, 40_000):
        lines = ["begin", *["deliver 0"] * count]
        yield f"script: one frame delivered {count} times", script(inputs, "again.txt", lines)
    steps = ["step 0 1000000"] * 5
    yield "script: 5 lines `step 0 1000000`", script(inputs, "million.txt", steps)
    begin = ["begin", "deliver 0", "deliver 1"]
    yield "script: the same while pages are copied", script(inputs, "copying.txt", begin + steps)


def round_lines(pages):
    """The first round of a move of so many pages, each frame of which comes, and the start before it."""
    begin = ["begin", "deliver 0", "deliver 1"]
    return begin, begin + ["copy"] * (pages + 1) + [f"deliver {place}" for place in range(2, pages + 3)]


def round_runs(inputs):
    """A round of 4096 pages, whose first byte alone, or last byte alone, is not 0; and a copy of as many bytes."""
    pages, size = 4096, 4096 * 4096
    for name, place in (("first", 0), ("last", 4095)):
        image = inputs.folder / f"{name}.bin"
        page = bytearray(4096)
        page[place] = 1
        image.write_bytes(bytes(page) * pages)
        begin, lines = round_lines(pages)
        for version in "12":
            words = [PROGRAM, "script", "--raw", "--pages", str(pages), "--stream", version, image]
            what = f"version {version}, pages that are 0 but for their {name} byte"
            yield f"begin of a move, {what}", [*words, inputs.text("begin.txt", begin)]
            yield f"the same and a round, {what}", [*words, inputs.text("round.txt", lines)]
    code = f"import time; a = bytes({size}); b = bytearray({size}); b[:] = a; t = time.process_time(); b[:] = a; " \
        "print(time.process_time() - t)"
    taken = min(float(subprocess.run([sys.executable, "-c", code], capture_output=True, text=True).stdout) for _ in range(5))
    print(f"{taken * 1000:8.1f} ms  memcpy of {size} bytes")


def stream_runs(inputs):
    """A stream of 4096 Page frames, fed to a reader in pieces of 4096 bytes, beside a copy of it."""
    def frame(kind, move, body):
        return struct.pack("<BQI", kind, move, len(body)) + body

    pages = (struct.pack("<HI", page, page + 1) + bytes([page % 256]) * 4096 for page in range(4096))
    stream = inputs.folder / "stream.bin"
    stream.write_bytes(frame(0, 0, struct.pack("<I", 1)) + b"".join(frame(4, 1, page) for page in pages))
    runs = [subprocess.run([TWO_MEMORIES, stream], capture_output=True, text=True, check=True).stdout for _ in range(9)]
    read, copied = (min(int(re.search(f"{word} in (\\d+) us", run)[1]) for run in runs) for word in ("read", "copied"))
    print(f"a stream of 4096 pages: read in {read / 1000:.1f} ms, copied in {copied / 1000:.1f} ms, {read / copied:.1f} times")


def move_runs(inputs):
    full = inputs.random("full.bin", 4096 * 4096)
    script = inputs.text("move.txt", ["move"])
    for version in "12":
        words = [PROGRAM, "script", "--pages", "4096", "--stream", version]
        yield f"move of 4096 pages of zeros, version {version}", [*words, inputs.image, script]
        yield f"move of 4096 random pages, version {version}", [*words, "--raw", full, script]


def journal_runs(_inputs):
    for count in (125_000, 250_000, 500_000):
        yield f"two journals of {count} entries are written and put in order", [LONG_JOURNALS, str(count)]
    # Among a million steps at each host it offers its guest 5,000 times, and each offer is accepted: 20,000 frames.
    for form in ("list", "runs"):
        for times in (0, 1, 11):
            words = [LONG_JOURNALS, form, "1000000", "5000", str(times)]
            yield f"two journals of 1000000 steps, 20000 frames, put in order {times} times, {form}", words


def assembler_runs(inputs):
    out = inputs.folder / "out"
    for count in (25_000, 50_000, 100_000):
        source = inputs.text("labels.s", ["_start:", *(f"label{n}: la a0, label{n}" for n in range(count))])
        yield f"asm: {count} labels, a `la` of each", [PROGRAM, "asm", source, out]
        if shutil.which("as"):
            lines = (f"label{n}: lea label{n}(%rip), %rax" for n in range(count))
            plain = inputs.text("plain.s", lines)
            yield f"as (x86): {count} labels, a `lea` of each", ["as", "-o", out, plain]
    for count in (1_000_000, 4_000_000):
        source = inputs.text("lines.s", ["_start:", *["nop"] * (count - 1)])
        yield f"asm: {count} lines `nop`", [PROGRAM, "asm", source, out]
        if shutil.which("as"):
            yield f"as (x86): {count} lines `nop`", ["as", "-o", out, source]


def listing_runs(inputs):
    image = inputs.random("words.bin", 2_000_000)
    yield "dis: 500,000 words", [PROGRAM, "dis", "--raw", image]
    session = inputs.text("session.txt", ["mem 0x80000000 256"] * 25_000)
    yield "debug: 25,000 lines `mem 0x80000000 256`", [PROGRAM, "debug", inputs.image, session]


def main():
    wanted = sys.argv[1:]
    with tempfile.TemporaryDirectory(prefix="large-") as folder:
        inputs = Inputs(folder)
        if not wanted or "stream" in wanted:
            stream_runs(inputs)
        for runs in (script_runs, round_runs, move_runs, journal_runs, assembler_runs, listing_runs):
            for name, command in runs(inputs):
                if wanted and not any(word in name for word in wanted):
                    continue
                report(name, command)


def report(name, command):
    """A line of one run."""
    given = {}
    if command[1] == "debug":
        given["stdin"] = open(command.pop(), "rb")
    seconds, own, megabytes = measured(command, **given)
    print(f"{name:76} {seconds:8.3f} s, its own {own:8.3f} s {megabytes:8.0f} MB", end="", flush=True)
    if command[1] in ("dis", "debug") and shutil.which("strace"):
        if given:
            given["stdin"].seek(0)
        made = calls(command, **given)
        most = sorted(made, key=made.get, reverse=True)[:3]
        print(f"   {', '.join(f'{made[name]} {name}' for name in most)}", end="")
    print(flush=True)


if __name__ == "__main__":
    main()
