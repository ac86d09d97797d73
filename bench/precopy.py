#!/usr/bin/env python3
"""Plays moves of guests that write at different rates, and draws what each round sent and how long the pause was.

    python3 bench/precopy.py [FOLDER]     FOLDER for the pictures, by default docs/pictures; wants build/rvmove

Each guest has 256 pages. `rvmove script` moves it: between two turns of the source (`copy`) the guest makes so many
steps, which stands for the speed of the link. The answers tell the rounds: pages sent, pages skipped, pages left. What
is sent behind `stopping` is the pause. A second table is of `rvmove move`, which moves the same guests while they run,
by threads and over TCP, so that it differs each time. The tables go to standard output, a picture for each guest to
FOLDER. Wants matplotlib (Debian: python3-matplotlib).
"""
import os
import re
import subprocess
import sys
import tempfile

import matplotlib

matplotlib.use("svg")
import matplotlib.pyplot as plt

HERE = os.path.dirname(os.path.abspath(__file__))
PROGRAM = os.path.join(HERE, "..", "build", "rvmove")
PAGES = 256
# The steps of the guest for each page that the link takes.
STEPS = 400
POLICY = 29, 8, 3
TURNS = 3 * POLICY[2] * PAGES
# The steps of a guest that moves by threads.
LIVE_STEPS = "100000"

# Name, what it writes, how many pages it goes round, and how many instructions it waits before each store.
GUESTS = [
    ("quiet", "writes nothing", 0, 0),
    ("hot", "writes 12 pages in turn, again and again", 12, 8),
    ("sweep", "sweeps all pages, a page in 1600 steps", 240, 1596),
    ("fast", "sweeps all pages, a page in 8 steps", 240, 4),
]


def source_of(pages, wait):
    """A guest that stores into so many pages in turn, behind 16 pages that it leaves alone."""
    if pages == 0:
        return "_start: j _start\n"
    return "\n".join([
        "_start: li s1, 0x80010000",
        f"li s2, {pages}",
        "again: mv t0, s1",
        "mv t1, s2",
        "next: sw t1, 0(t0)",
        *(["li t2, " + str(wait // 2), "wait: addi t2, t2, -1", "bnez t2, wait"] if wait else []),
        "li t3, 4096",
        "add t0, t0, t3",
        "addi t1, t1, -1",
        "bnez t1, next",
        "j again",
        "",
    ])


def image_of(name, pages, wait, folder):
    """The file of a guest's image."""
    text, image = (os.path.join(folder, name + ending) for ending in (".s", ".elf"))
    with open(text, "w", encoding="utf-8") as file:
        file.write(source_of(pages, wait))
    subprocess.run([PROGRAM, "asm", text, image], check=True)
    return image


def play(image, folder):
    """The answers of a move of a guest, turn by turn."""
    script = os.path.join(folder, "script.txt")
    lines = ["step 0 5000", "begin {} {} {}".format(*POLICY), "deliver 0", "deliver 1"]
    lines += [f"step 0 {STEPS}", "copy"] * TURNS
    with open(script, "w", encoding="utf-8") as file:
        file.write("\n".join(lines) + "\n")
    done = subprocess.run([PROGRAM, "script", image, script, "--pages", str(PAGES)], check=True, capture_output=True, text=True)
    return done.stdout.splitlines()


def move(image):
    """The answers of a move of a guest that runs meanwhile."""
    rounds, left, factor = map(str, POLICY)
    words = ["--pages", str(PAGES), "--steps", LIVE_STEPS, "--rounds", rounds, "--left", left, "--factor", factor]
    done = subprocess.run([PROGRAM, "move", image, *words], check=True, capture_output=True, text=True)
    return done.stderr.splitlines()


def rounds_of(answers):
    """Of each round pages sent, skipped and left; and how many pages were sent while the guest was paused."""
    rounds, last, paused, was_sent = [], 0, False, False
    for answer in answers:
        if was_sent:
            break
        ended = re.match(r"round (\d+) sent (\d+) skipped (\d+) left (\d+)", answer)
        if ended:
            rounds.append(tuple(map(int, ended.groups()[1:])))
        paused = paused or answer == "stopping"
        last += paused and answer.startswith("copied ")
        was_sent = answer.startswith("state sent")
    assert was_sent, "the move did not come to its end"
    return rounds, last


def draw(name, what, rounds, last, folder):
    figure, axes = plt.subplots(figsize=(7, 2.8))
    numbers = range(1, len(rounds) + 1)
    sent, skipped, left = zip(*rounds)
    axes.bar(numbers, sent, color="#4878a8", label="sent while the guest runs")
    axes.bar(numbers, skipped, bottom=sent, color="#c8d4e0", label="skipped: written again")
    axes.bar([len(rounds) + 1], [last], color="#b04030", label="sent in the pause")
    axes.plot(numbers, left, color="black", marker="o", markersize=3, linewidth=1, label="left at the end")
    shown = [number for number in numbers if len(rounds) < 20 or number % 2]
    axes.set_xticks([*shown[:-1], *numbers[-1:], len(rounds) + 1], [*map(str, shown[:-1]), str(len(rounds)), "\npause"], fontsize=7)
    axes.set_ylabel("pages of 4096 bytes")
    axes.set_xlabel("round")
    axes.set_ylim(0, PAGES + 10)
    axes.set_title(f"A guest that {what}", fontsize=10, pad=20)
    axes.legend(fontsize=7, ncols=4, loc="lower center", bbox_to_anchor=(0.5, 1.0), frameon=False)
    figure.tight_layout()
    figure.savefig(os.path.join(folder, f"precopy-{name}.svg"), metadata={"Date": None})
    plt.close(figure)


def tell(moves):
    """Prints a table of the moves of all guests."""
    print("| Guest | Rounds | Sent while it runs | Sent in the pause | All, of 256 |")
    print("|---|---|---|---|---|")
    for (_, what, _, _), (rounds, last) in zip(GUESTS, moves):
        running = sum(sent for sent, _, _ in rounds)
        print(f"| {what} | {len(rounds)} | {running} | {last} | {(running + last) / PAGES:.2f} times |")


def main():
    folder = sys.argv[1] if len(sys.argv) > 1 else os.path.join(HERE, "..", "docs", "pictures")
    os.makedirs(folder, exist_ok=True)
    plt.rcParams["svg.hashsalt"] = "precopy"
    with tempfile.TemporaryDirectory() as scratch:
        images = [image_of(name, pages, wait, scratch) for name, _, pages, wait in GUESTS]
        played = [rounds_of(play(image, scratch)) for image in images]
        tell(played)
        tell([rounds_of(move(image)) for image in images])
    for (name, what, _, _), (rounds, last) in zip(GUESTS, played):
        draw(name, what, rounds, last, folder)


if __name__ == "__main__":
    main()
