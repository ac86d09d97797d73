#!/usr/bin/env python3
"""Random scripts for worlds of hosts, with frames lost, repeated and reordered and moves given up,
against a board that never moves.

    bench/stress.py [EVENTS [SEED]]

makes EVENTS lines (100000 by default) in scripts of 500 lines each, over 2 to 8 hosts and streams of
version 1 to 3, and asks `rvmove script` for their answers. The lines of the guest that were answered,
neither NotHere nor Paused, are given to `rvmove debug` in their order: each answer has to be the same.
At most one host may answer: each line of the guest goes to one host, and at the end `step 0` to all.
Wants what `make build` builds. Prints what was compared, and stops with status 1 at a difference."""
import random
import subprocess
import sys
import tempfile
from pathlib import Path

from guests import PROGRAM

LINES = 500
CHUNK = 20
PAGES = 3
REFUSED = ("refused 22 NotHere", "refused 23 Paused")

GUEST = """
.equ transmit, 0x10000000
.equ receive, 0x10000004
_start:
    li s0, 0x80001000
    li s1, transmit
    csrr a0, mhartid
    slli a1, a0, 8
    add s0, s0, a1
next:
    lw t0, 0(s0)
    addi t0, t0, 1
    sw t0, 0(s0)
    andi t1, t0, 255
    sw t1, 0(s1)
    li t2, 0x80002000
    amoadd.w t3, t0, (t2)
    lr.w t4, (t2)
    sc.w t5, t3, (t2)
    ecall
    j next
"""


def guest_line(rng, harts):
    """A line for the guest, whose answer is one line."""
    hart = rng.randrange(harts + (rng.random() < 0.05))
    return rng.choice((
        f"step {hart} {rng.choice((1, 1, 2, 3, 17, 100))}",
        f"step {hart}",
        f"input {rng.randrange(256):02x}",
        f"drain {rng.choice((1, 16, 256, 257))}",
        f"mem 0x{0x80000000 + 16 * rng.randrange(PAGES * 256 + 1):08x} 16",
        f"dis 0x{0x80000000 + 4 * rng.randrange(20):08x}",
        f"reg {hart} {rng.choice(('t0', 's0', 'a0', 'pc'))} 0x{rng.choice((0x80000008, 0x80001ffc, 0x80002ffc, 7)):x}",
        f"poke 0x{0x80000000 + 4 * rng.randrange(1024, PAGES * 1024):08x} {rng.randrange(1 << 32):08x}",
        f"break 0x{0x80000000 + 4 * rng.randrange(6, 12):08x}",
        f"clear 0x{0x80000000 + 4 * rng.randrange(6, 12):08x}",
    ))


def more_lines(rng, hosts, harts, frames, come):
    """A few lines more of a script in which so many frames were sent, and those from `come` on have not
    come yet; and the frame that comes next then. Most frames come in order, some twice, late or never."""
    lines = []
    for _ in range(CHUNK):
        host = rng.choice("ABCDEFGH"[:hosts]) + " " if rng.random() < 0.2 else ""
        kind = rng.random()
        if kind < 0.3:
            lines.append(host + guest_line(rng, harts))
        elif kind < 0.5:
            lines.append(host + "copy")
        elif kind < 0.9 and come < frames + 2 and rng.random() < 0.85:
            lines.append(f"deliver {come}")
            come += 1 if rng.random() < 0.95 else 2
        elif kind < 0.9:
            lines.append(f"deliver {rng.randrange(max(0, frames - 20), frames + 2)}")
        elif kind < 0.96:
            to = rng.choice("ABCDEFGH"[:hosts])
            lines.append(f"{host}{rng.choice(('begin', 'begin', 'move'))} {to} {rng.randrange(1, 4)} 1 3")
        elif kind < 0.99:
            lines.append(host + "resend")
        else:
            lines.append(host + "abort")
    return lines, come


def answers(words, lines=None):
    done = subprocess.run([PROGRAM, *words], capture_output=True, text=True, input=lines)
    if done.returncode != 0:
        sys.exit(f"{' '.join(map(str, words))}: status {done.returncode}\n{done.stderr}")
    return done.stdout.splitlines()


def is_for_guest(line):
    words = line.split()
    return words[len(words[0]) == 1] in ("step", "input", "drain", "mem", "dis", "reg", "poke", "break", "clear")


def main():
    events = int(sys.argv[1]) if len(sys.argv) > 1 else 100_000
    rng = random.Random(int(sys.argv[2]) if len(sys.argv) > 2 else 1)
    made = compared = moves = 0
    with tempfile.TemporaryDirectory() as folder:
        source, image, file = (Path(folder) / name for name in ("guest.s", "guest.elf", "script.txt"))
        source.write_text(GUEST)
        answers(["asm", source, image])
        while made < events:
            hosts, harts = rng.choice((2, 2, 3, 8)), rng.randrange(1, 5)
            stream = rng.choice("123") if hosts == 2 else "3"
            board = ["--harts", str(harts), "--pages", str(PAGES)]
            world = ["script", image, file, *board, "--hosts", str(hosts), "--stream", stream]
            lines, frames, come = [], 0, 0
            while len(lines) < LINES:
                more, come = more_lines(rng, hosts, harts, frames, come)
                lines += more
                file.write_text("\n".join(lines) + "\n")
                frames = max((int(a.rsplit(" ", 1)[1]) + 1 for a in answers(world) if " -> " in a), default=0)
            lines += [f"{name} step 0" for name in "ABCDEFGH"[:hosts]]
            file.write_text("\n".join(lines) + "\n")
            got = answers(world)
            if len(got) != len(lines):
                sys.exit(f"{len(lines)} lines, {len(got)} answers")
            taken = [(line, answer) for line, answer in zip(lines, got) if is_for_guest(line) and answer not in REFUSED]
            plain = [line.split(" ", 1)[1] if line[1] == " " else line for line, _ in taken]
            alone = answers(["debug", image, *board], "\n".join(plain) + "\n")
            for (line, answer), other in zip(taken, alone, strict=True):
                if answer != other:
                    kept = Path("stress-script.txt")
                    kept.write_text(file.read_text())
                    sys.exit(f"{line}: {answer}, but {other} on the board that never moves; see {kept}")
            last = [answer for answer in got[-hosts:] if answer not in REFUSED]
            if len(last) > 1:
                sys.exit(f"{len(last)} hosts answered")
            made, compared = made + len(lines), compared + len(taken)
            moves += sum(answer.startswith(("committed", "moved")) for answer in got)
    print(f"{made} events, {compared} answers compared, {moves} moves committed")


if __name__ == "__main__":
    main()
