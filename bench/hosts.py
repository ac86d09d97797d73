#!/usr/bin/env python3
"""How long a guest of 16 MiB takes from one process to another, and for how long it stands still, beside QEMU; how fast it runs
while its pages are copied; and how fast a guest runs in a host process, beside `run`.

    hosts.py [--rvmove PROGRAM] [--moves N] [--qemu PROGRAM] [--turns N] [--copying]

Both move the same guest over loopback: examples/farm/fill.s, which fills 4096 pages and then writes 16 of them all the
time, and count.s, which leaves nearly all pages zero. Moves of both alternate, N of each (20). rvmove's figures are those that
`tell` writes; the pause ends when the source has heard that the guest runs. QEMU's are `total-time` and `downtime` of
`query-migrate`, with no limit of its bandwidth; they count whole milliseconds. Wants qemu-system-riscv32.

Then fill.s is moved N times with each of some bandwidths: how long a move takes, and how many turns the guest makes in it until
its pause, beside as long a time without a move. With --copying this alone is measured.

Then count.s makes N turns (1000000000) by `run` and in a host that is not asked to move it, with one hart and with four: millions of
turns a second, and the most memory that the host has used after a tenth of the turns and at their end.
"""
import argparse
import json
import os
import re
import socket
import statistics
import subprocess
import tempfile
import time
from pathlib import Path

ROOT = Path(__file__).resolve().parent.parent
FARM = ROOT / "examples" / "farm"


def free_port():
    with socket.socket() as s:
        s.bind(("127.0.0.1", 0))
        return s.getsockname()[1]


class Hosts:
    """Two host processes; the guest goes to and fro."""

    def __init__(self, program, folder, image, *options):
        self.program, self.folder, self.at = program, folder, "A"
        peers = folder / "peers"
        peers.write_text(f"A 127.0.0.1:{free_port()}\nB 127.0.0.1:{free_port()}\n")
        self.processes = [
            subprocess.Popen(
                [program, "host", name, *words, *options, "--peers", peers, "--control", folder / f"{name}.socket"],
                stdin=subprocess.DEVNULL, stdout=subprocess.DEVNULL, stderr=subprocess.DEVNULL,
            )
            for name, words in (("A", [image, "--pages", "4096"]), ("B", []))
        ]
        while "peers B" not in self.tell("A", "status"):
            time.sleep(0.05)
        time.sleep(1)

    def tell(self, name, line):
        told = subprocess.run([self.program, "tell", self.folder / f"{name}.socket", line], capture_output=True, text=True)
        return told.stdout

    def move(self):
        """The milliseconds of a move and of its pause."""
        to = "B" if self.at == "A" else "A"
        answer = self.tell(self.at, f"move {to}")
        found = re.fullmatch(r"moved \d+ rounds \d+ copies \d+ bytes \d+ ms (\d+) paused (\d+)\n", answer)
        if not found:
            raise SystemExit(f"move: {answer!r}")
        self.at = to
        time.sleep(0.2)
        return int(found[1]), int(found[2])

    def speeds(self):
        """Turns a millisecond without a move, and in one until the pause; and the milliseconds of the move."""
        begun, first = time.monotonic(), turns_of(self.program, self.folder / f"{self.at}.socket")
        time.sleep(0.1)
        alone = (turns_of(self.program, self.folder / f"{self.at}.socket") - first) / (time.monotonic() - begun) / 1e3
        to = "B" if self.at == "A" else "A"
        answers = subprocess.run([self.program, "tell", self.folder / f"{self.at}.socket"], capture_output=True, text=True,
                                 input=f"status\nmove {to}\nstatus\n").stdout
        found = re.search(r"turns (\d+)\n.*ms (\d+) paused (\d+)\n.*turns (\d+)\n", answers, re.S)
        self.at = to
        time.sleep(0.2)
        before, whole, paused, after = map(int, found.groups())
        return alone, (after - before) / (whole - paused), whole

    def end(self):
        for name in "AB":
            self.tell(name, "stop now")
        for process in self.processes:
            process.wait(10)


class Qemu:
    """One QEMU with the guest, which is moved to a new one."""

    def __init__(self, program, folder, image):
        self.program, self.folder, self.image, self.count = program, folder, image, 0
        self.process, self.monitor = self.start()
        time.sleep(1)

    def start(self, *words):
        self.count += 1
        path = self.folder / f"monitor-{self.count}"
        process = subprocess.Popen(
            [self.program, "-M", "virt", "-m", "16", "-bios", "none", "-kernel", self.image, "-display", "none",
             "-serial", "null", "-monitor", "none", "-qmp", f"unix:{path},server=on,wait=off", *words],
            stdin=subprocess.DEVNULL, stdout=subprocess.DEVNULL, stderr=subprocess.DEVNULL,
        )
        monitor = socket.socket(socket.AF_UNIX)
        for _ in range(200):
            try:
                monitor.connect(os.fspath(path))
                break
            except OSError:
                time.sleep(0.02)
        stream = monitor.makefile("rw")
        stream.readline()
        ask(stream, "qmp_capabilities")
        return process, stream

    def move(self):
        port = free_port()
        process, monitor = self.start("-incoming", f"tcp:127.0.0.1:{port}")
        ask(self.monitor, "migrate-set-parameters", **{"max-bandwidth": 1 << 40})
        ask(self.monitor, "migrate", uri=f"tcp:127.0.0.1:{port}")
        while (told := ask(self.monitor, "query-migrate"))["status"] not in ("completed", "failed"):
            time.sleep(0.005)
        if told["status"] == "failed":
            raise SystemExit(f"QEMU: {told}")
        self.process.kill()
        self.process.wait()
        self.process, self.monitor = process, monitor
        time.sleep(0.2)
        return told["total-time"], told["downtime"]

    def end(self):
        self.process.kill()
        self.process.wait()


def ask(stream, command, **arguments):
    """What QEMU returns for a command; events are passed over."""
    stream.write(json.dumps({"execute": command, "arguments": arguments}) + "\n")
    stream.flush()
    while "return" not in (told := json.loads(stream.readline())):
        if "error" in told:
            raise SystemExit(f"QEMU: {told}")
    return told["return"]


def turns_of(program, control):
    status = subprocess.run([program, "tell", control, "status"], capture_output=True, text=True).stdout
    return int(status.split()[-1])


def most_memory(process):
    return next(line for line in Path(f"/proc/{process.pid}/status").read_text().splitlines() if "VmHWM" in line).split()[1]


def speeds(program, folder, image, harts, turns):
    """Millions of turns a second in `run` and in a host, and the host's memory in kB, early and at the end."""
    words = [image, "--harts", str(harts)]
    begun = time.monotonic()
    subprocess.run([program, "run", *words, "--steps", str(turns)], stdout=subprocess.DEVNULL, stderr=subprocess.DEVNULL)
    run = turns / (time.monotonic() - begun) / 1e6
    peers, control = folder / "peers", folder / "speed.socket"
    peers.write_text(f"A 127.0.0.1:{free_port()}\nB 127.0.0.1:{free_port()}\n")
    process = subprocess.Popen(
        [program, "host", "A", *words, "--peers", peers, "--control", control],
        stdin=subprocess.DEVNULL, stdout=subprocess.DEVNULL, stderr=subprocess.DEVNULL,
    )
    while not control.exists():
        time.sleep(0.01)
    first, begun, early = turns_of(program, control), time.monotonic(), None
    while (made := turns_of(program, control) - first) < turns:
        if early is None and made >= turns / 10:
            early = most_memory(process)
        time.sleep(0.1)
    host, late = made / (time.monotonic() - begun) / 1e6, most_memory(process)
    subprocess.run([program, "tell", control, "stop now"], stdout=subprocess.DEVNULL)
    process.wait(10)
    return run, host, early, late


def line(name, moves):
    times, pauses = zip(*moves)
    return (
        f"{name:8} move {statistics.median(times):6.1f} ms ({min(times)} to {max(times)}),"
        f" pause {statistics.median(pauses):5.1f} ms ({min(pauses)} to {max(pauses)})"
    )


def copying(program, moves):
    """Prints how fast the guest runs while its pages are copied, with each of some bandwidths."""
    for bandwidth in (None, 500, 200, 100, 50):
        with tempfile.TemporaryDirectory() as name:
            folder = Path(name)
            image = folder / "guest.elf"
            subprocess.run([program, "asm", FARM / "fill.s", image], check=True)
            hosts = Hosts(program, folder, image, *(["--bandwidth", str(bandwidth)] if bandwidth else []))
            seen = [hosts.speeds() for _ in range(moves)]
            hosts.end()
        alone, moved, times = (statistics.median(figures) for figures in zip(*seen))
        shares = sorted(made / usual for usual, made, _ in seen)
        share = f"{statistics.median(shares):.2f} ({shares[0]:.2f} to {shares[-1]:.2f})"
        print(f"bandwidth {bandwidth}: move {times:.1f} ms; {alone / 1e3:.0f} million turns a second, {moved / 1e3:.0f} in a move, {share}", flush=True)


def main():
    parser = argparse.ArgumentParser(description=__doc__, formatter_class=argparse.RawDescriptionHelpFormatter)
    parser.add_argument("--rvmove", type=Path, default=ROOT / "build" / "rvmove")
    parser.add_argument("--qemu", default="qemu-system-riscv32")
    parser.add_argument("--moves", type=int, default=20)
    parser.add_argument("--turns", type=int, default=1_000_000_000)
    parser.add_argument("--copying", action="store_true")
    given = parser.parse_args()
    program = given.rvmove.resolve()
    if given.copying:
        return copying(program, given.moves)
    for guest in ("fill", "count"):
        with tempfile.TemporaryDirectory() as name:
            folder = Path(name)
            image = folder / "guest.elf"
            subprocess.run([program, "asm", FARM / f"{guest}.s", image], check=True)
            rivals = {"rvmove": Hosts(program, folder, image), "QEMU": Qemu(given.qemu, folder, image)}
            moves = {rival: [] for rival in rivals}
            for _ in range(given.moves):
                for rival in rivals:
                    moves[rival].append(rivals[rival].move())
            for rival in rivals:
                rivals[rival].end()
                print(guest, line(rival, moves[rival]), flush=True)
    copying(program, given.moves)
    with tempfile.TemporaryDirectory() as name:
        folder = Path(name)
        image = folder / "guest.elf"
        subprocess.run([program, "asm", FARM / "count.s", image], check=True)
        for harts in (1, 4):
            run, host, early, late = speeds(program, folder, image, harts, given.turns)
            print(f"{harts} harts: run {run:.1f}, host {host:.1f} million turns a second; {early} kB, at the end {late} kB", flush=True)


if __name__ == "__main__":
    main()
