#!/usr/bin/env python3
"""Measures moves by threads, `rvmove move`:

- host instructions a step of the guest, beside those of `rvmove run`, by valgrind's cachegrind: the difference of
  two moves of the same guest over their difference in steps, so that start and end do not count; for a loop on one hart
  and on four, with a timer interrupt at each 100 steps, and with a trap at each tenth step;
- the memory of journals and receipts, by valgrind's massif: the peak of the heap in a move of 100000 steps, above that
  in a move of one step; of a guest that sends nothing, and of one that sends a byte at each 20 steps;
- the pause as it is seen from outside: the largest gap between two pieces of the output of a guest that sends a byte at
  each second step, in 20 moves;
- the guest's speed while 4096 filled pages are copied: the guest fills a pipe that nobody reads, so that it waits, and
  then makes turns in silence; the pipe is read in the midst of the copies, with each of some bandwidths, beside a megabyte
  a second, at which hardly a page is copied meanwhile;
- the time of a move of 4096 pages that nobody writes, all of them zeros or none, in each version, best of some runs that
  alternate with those it is compared with: a run of the same image, that is to load it; and a plain copy of as many
  pages over a loopback socket in C (`pages.c`), whose target throws them away, puts them into memory, or also keeps them
  as journals do. How long the copier slept in that move, its answers tell. What is left beside load and sleeps is for
  the pages;
- the same with large pages for the heap, as docs/OPERATING.md has it.

    bench/threads.py [TIMES [ROUNDS]]      TIMES runs each, 5 where it is not given, in so many rounds, 1 where it is not
                                           given, of which the lowest and the highest are printed
    bench/threads.py steps|memory|pauses|speed    one of these alone

Wants valgrind, gcc, and what `make build` builds."""
import fcntl
import functools
import os
import re
import statistics
import struct
import subprocess
import sys
import tempfile
import termios
import time

from count import instructions
from guests import BUILD, PAGES_PROGRAM, PROGRAM, build_pages, loop

FEWER, MORE = 20_000, 100_000
PAGES = 4096
VERSIONS = (1, 2, 3)
MODES = ("thrown", "put", "kept")
LARGE_PAGES = "glibc.malloc.hugetlb=1:glibc.malloc.top_pad=60000000"

# How many milliseconds the copier sleeps behind such an answer. When the guest is gone it sleeps once more before it asks
# for the last frame, which is answered NoMove where the target had it.
SLEEPS = ((r"^refused \d+ Busy$", 1), (r"^state sent$", 10), (r"^part \d+ of \d+ sent$", 10), (r"^resent$", 10), (r"^refused \d+ NoMove$", 10))


# Guests, in the assembly language of `rvmove asm`. Each goes on for ever.
HEAD = """.equ mtime, 0x0200BFF8
.equ mtimecmp, 0x02004000
.equ transmit, 0x10000000
_start:
    la t0, handler
    csrw mtvec, t0
    li t2, mtime
    li t3, mtimecmp
    li t4, transmit
"""
TIMER = HEAD + """    li t0, 0x80
    csrw mie, t0
    csrrsi zero, mstatus, 8
    j handler
top:
    addi a0, a0, 1
    j top
handler:
    lw t1, 0(t2)
    addi t1, t1, 100
    sw t1, 0(t3)
    sw zero, 4(t3)
    la t0, top
    csrw mepc, t0
    mret
"""
TRAPS = HEAD + """top:
    addi a0, a0, 1
    addi a0, a0, 1
    addi a0, a0, 1
    addi a0, a0, 1
    ecall
    j top
handler:
    csrr t0, mepc
    addi t0, t0, 4
    csrw mepc, t0
    mret
"""
QUIET = HEAD + """handler:
    addi a0, a0, 1
    j handler
"""
SENDS_SOME = HEAD + """handler:
    sw a0, 0(t4)
""" + "    addi a0, a0, 1\n" * 18 + "    j handler\n"
SENDS_ALWAYS = HEAD + """handler:
    sw a0, 0(t4)
    j handler
"""

# Sends SENT bytes, more than its pipe holds, makes SILENT turns, and sends one more.
SENT, SILENT = 6000, 70_000
SENDS_THEN_SILENT = f"""
_start: lui s0, 0x10000
    li t0, {SENT}
send: sw t0, 0(s0)
    addi t0, t0, -1
    bnez t0, send
    li t1, {SILENT // 2}
wait: addi t1, t1, -1
    bnez t1, wait
    sw t1, 0(s0)
stop: j stop
"""


def assembled(name, text):
    """The image of a guest."""
    source, image = (os.path.join(BUILD, f"{name}.{ending}") for ending in ("s", "elf"))
    with open(source, "w", encoding="utf-8") as file:
        file.write(text)
    subprocess.run([PROGRAM, "asm", source, image], check=True)
    return image


def a_step(command, image, *options):
    """Host instructions a step."""
    words = [[PROGRAM, command, image, "--pages", "4", *options, "--steps", str(steps)] for steps in (FEWER, MORE)]
    fewer, more = map(instructions, words)
    return (more - fewer) / (MORE - FEWER)


def measure_steps():
    """Prints host instructions a step, under `run` and under `move`."""
    rows = (("loop, one hart", loop(), "--raw"), ("loop, four harts", loop(), "--raw", "--harts", "4"),
            ("timer interrupt at each 100 steps", assembled("timer", TIMER)), ("trap at each tenth step", assembled("traps", TRAPS)))
    for name, image, *options in rows:
        run, move = (a_step(command, image, *options) for command in ("run", "move"))
        print(f"host instructions a step, {name}: run {run:.1f}, move {move:.1f}, {move - run:.1f} more, "
              f"{move / run:.2f} times", flush=True)


def peak_of(image, steps):
    """The peak of the heap in a move, in bytes."""
    with tempfile.NamedTemporaryFile("r") as told:
        words = ["valgrind", "--tool=massif", f"--massif-out-file={told.name}", "--peak-inaccuracy=0.0"]
        subprocess.run([*words, PROGRAM, "move", image, "--pages", "4", "--steps", str(steps)], check=True, capture_output=True)
        return max(int(line.partition("=")[2]) for line in told if line.startswith("mem_heap_B="))


def measure_memory():
    """Prints how much more memory a move of many steps takes than one of one step."""
    for name, text in (("sends nothing", QUIET), ("sends a byte at each 20 steps", SENDS_SOME)):
        image = assembled("memory", text)
        few, many = peak_of(image, 1), peak_of(image, MORE)
        print(f"heap of a move of {MORE} steps, guest {name}: {(many - few) / 1024:.1f} KB above the {few / 1024:.1f} KB "
              "of one step", flush=True)


def gap_of(image):
    """The largest gap between two pieces of the output of a move, in milliseconds; none where the guest did not go over
    while it ran."""
    words = [PROGRAM, "move", image, "--pages", "4", "--steps", str(MORE)]
    process = subprocess.Popen(words, stdout=subprocess.PIPE, stderr=subprocess.PIPE)
    came = []
    while os.read(process.stdout.fileno(), 1 << 16):
        came.append(time.perf_counter())
    answers = process.stderr.read()
    if process.wait():
        sys.exit(f"{' '.join(words)}: status {process.returncode}")
    gaps = [later - earlier for earlier, later in zip(came, came[1:])]
    return max(gaps) * 1000 if gaps and b"finished" in answers else None


def measure_pauses(times=20):
    """Prints the pause as it is seen from outside."""
    image = assembled("sends", SENDS_ALWAYS)
    gaps = sorted(gap for gap in (gap_of(image) for _ in range(times)) if gap is not None)
    if gaps:
        print(f"largest gap in the output, {len(gaps)} of {times} moves: median {statistics.median(gaps):.2f} ms, "
              f"{gaps[0]:.2f} to {gaps[-1]:.2f}", flush=True)


def bytes_of(image):
    """The bytes of the first segment of an ELF file."""
    with open(image, "rb") as file:
        elf = file.read()
    header, = struct.unpack_from("<I", elf, 28)
    begins, size = (struct.unpack_from("<I", elf, header + place)[0] for place in (4, 16))
    return elf[begins:begins + size]


def waiting_in(pipe):
    """How many bytes wait in a pipe."""
    return struct.unpack("i", fcntl.ioctl(pipe, termios.FIONREAD, b"\0" * 4))[0]


def silent_turns(image, delay, bandwidth):
    """The turns a second of a guest that is woken so many seconds after it filled its pipe. What it still sends then
    counts as time, so that this is a little less than its speed."""
    words = [PROGRAM, "move", image, "--raw", "--pages", str(PAGES), "--steps", str(MORE)]
    words += ["--bandwidth", str(bandwidth)] if bandwidth else []
    process = subprocess.Popen(words, stdout=subprocess.PIPE, stderr=subprocess.DEVNULL, pipesize=4096)
    pipe, came = process.stdout.fileno(), 0
    while waiting_in(pipe) < 4096 - 256:
        pass
    begun = time.perf_counter()
    while time.perf_counter() < begun + delay:
        pass
    woken = time.perf_counter()
    while came < SENT:
        came += len(os.read(pipe, SENT - came))
    last = os.read(pipe, 1)
    ended = time.perf_counter()
    process.kill()
    process.wait()
    if not last:
        sys.exit(f"{' '.join(words)}: the guest fell silent")
    return SILENT / (ended - woken)


def measure_speed(times=30):
    """Prints the guest's speed while pages are copied, with each of some bandwidths, beside a megabyte a second."""
    image = os.path.join(BUILD, "silent.bin")
    code = bytes_of(assembled("silent", SENDS_THEN_SILENT))
    with open(image, "wb") as file:
        file.write(code + b"\xff" * (PAGES * 4096 - len(code)))
    for millis in (15, 18, 21, 30):
        rates = {bandwidth: [] for bandwidth in (1, None, 200, 100, 50, 25)}
        for _ in range(times):
            for bandwidth, of_it in rates.items():
                of_it.append(silent_turns(image, millis / 1000, bandwidth) / 1e6)
        still = statistics.median(rates[1])
        print(f"million turns a second, {millis} ms later, at 1 MB a second: median {still:.1f}; " + "; ".join(
            f"at {bandwidth}: {statistics.median(of_it):.1f}, {statistics.median(of_it) / still:.2f}"
            for bandwidth, of_it in rates.items() if bandwidth != 1), flush=True)


def copied(mode):
    """The milliseconds that as many pages take over a loopback socket."""
    return float(subprocess.run([PAGES_PROGRAM, mode], check=True, capture_output=True, text=True).stdout)


def command_for(command, filled, *options):
    """A command over a RAM of all pages, which the image fills or leaves zeros. The guest makes one step."""
    image = os.path.join(BUILD, "still-filled.bin" if filled else "still.bin")
    with open(image, "wb") as file:
        file.write(b"\x6f\x00\x00\x00" + b"\xff" * (PAGES * 4096 - 4 if filled else 0))
    return [PROGRAM, command, image, "--raw", "--steps", "1", "--pages", str(PAGES), *options]


def taken(words):
    """The milliseconds of a command, and what it wrote to standard error."""
    begun = time.monotonic()
    done = subprocess.run(words, stdout=subprocess.DEVNULL, stderr=subprocess.PIPE, text=True)
    ended = time.monotonic()
    if done.returncode:
        sys.exit(f"{' '.join(words)}: status {done.returncode}")
    return (ended - begun) * 1000, done.stderr


@functools.cache
def sleep_length(millis, times=20):
    """How many milliseconds a sleep of so many takes: the system wakes a thread a little later."""
    begun = time.monotonic()
    for _ in range(times):
        time.sleep(millis / 1000)
    return (time.monotonic() - begun) * 1000 / times


def slept(answers):
    """The milliseconds of the copier's sleeps in a move with these answers: A's, before those of B, the first of which
    is `accepted`."""
    at_a = answers.partition("\naccepted")[0]
    return sum(sleep_length(millis) * len(re.findall(answer, at_a, re.M)) for answer, millis in SLEEPS)


def one_round(times, filled):
    """What a round of so many runs tells, by its name: times in milliseconds, and how they compare with a plain copy."""
    load = command_for("run", filled)
    moves = [command_for("move", filled, "--stream", str(version)) for version in VERSIONS]
    runs = [([copied(mode) for mode in MODES], taken(load), [taken(move) for move in moves]) for _ in range(times)]
    plain = {mode: min(run[0][place] for run in runs) for place, mode in enumerate(MODES)}
    loaded, _ = min(run[1] for run in runs)
    told = {f"plain copy over loopback, {mode}": best for mode, best in plain.items()}
    told[f"run of {PAGES} pages, that is to load them"] = loaded
    for place, version in enumerate(VERSIONS):
        moved, answers = min(run[2][place] for run in runs)
        left = moved - loaded - slept(answers)
        told[f"move by version {version}"] = moved
        told[f"  of that, sleeps, version {version}"] = slept(answers)
        told[f"  for the pages, by version {version}"] = left
        for mode, best in plain.items():
            told[f"  that is, times the plain copy, {mode}, version {version}"] = left / best
    return told


def measure_pages(times, rounds):
    """Prints the times of moves, and of what they are compared with, the lowest and the highest of some rounds."""
    for filled, pages in ((True, "no page is zeros"), (False, "all pages are zeros")):
        told = [one_round(times, filled) for _ in range(rounds)]
        print(f"  {pages}:")
        for name in told[0]:
            print(f"    {name}: {min(it[name] for it in told):.1f} to {max(it[name] for it in told):.1f}")


def main():
    alone = {"steps": measure_steps, "memory": measure_memory, "pauses": measure_pauses, "speed": measure_speed}
    if len(sys.argv) == 2 and sys.argv[1] in alone:
        alone[sys.argv[1]]()
        return
    times = int(sys.argv[1]) if len(sys.argv) > 1 else 5
    rounds = int(sys.argv[2]) if len(sys.argv) > 2 else 1
    for measure in alone.values():
        measure()
    build_pages()
    print(f"moves of {PAGES} pages, in milliseconds:")
    measure_pages(times, rounds)
    print("with large pages for the heap:")
    os.environ["GLIBC_TUNABLES"] = LARGE_PAGES
    measure_pages(times, rounds)


if __name__ == "__main__":
    main()
