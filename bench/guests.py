"""The guests of both benchmarks, and how they are made."""
import os
import struct
import subprocess

HERE = os.path.dirname(os.path.abspath(__file__))
BUILD = os.path.join(HERE, "..", "build")
PROGRAM = os.path.join(BUILD, "rvmove")
TWO_MEMORIES = os.path.join(BUILD, "rvm_bench")
LONG_JOURNALS = os.path.join(BUILD, "rvm_test_journals")
INTERPRETER = os.path.join(BUILD, "interpreter")
LIMIT_BY_GOTO = os.path.join(BUILD, "limit-goto")
LIMIT_BY_SWITCH = os.path.join(BUILD, "limit-switch")
PAGES_PROGRAM = os.path.join(BUILD, "pages")

# Counts x6 down from 4,000,000 and the word at 0x80001000 up, then halts: 20,000,005 steps.
LOOP = [
    0x800012B7,  # lui  t0, 0x80001
    0x003D1337,  # lui  t1, 0x3D1
    0x90030313,  # addi t1, t1, -0x700
    0x0002A383,  # lw   t2, 0(t0)
    0x00138393,  # addi t2, t2, 1
    0x0072A023,  # sw   t2, 0(t0)
    0xFFF30313,  # addi t1, t1, -1
    0xFE0318E3,  # bne  t1, zero, -16
    0x00100E37,  # lui  t3, 0x100
    0x000E2023,  # sw   zero, 0(t3)
]

# How many times a guest of one kind repeats its lines.
REPEATED = 240


def build_interpreter():
    """The plain interpreter in C."""
    subprocess.run(["gcc", "-O2", "-o", INTERPRETER, os.path.join(HERE, "interpreter.c")], check=True)


def build_limits():
    """The interpreter in C that is as fast as C can: by computed goto (gcc), and by one switch (the kit's clang)."""
    source = os.path.join(HERE, "limit.c")
    subprocess.run(["gcc", "-O3", "-fno-gcse", "-fno-crossjumping", "-o", LIMIT_BY_GOTO, source], check=True)
    kit = os.path.dirname(subprocess.run(["rt", "doc"], capture_output=True, text=True, check=True).stdout.strip())
    headers = subprocess.run(["gcc", "-print-file-name=include"], capture_output=True, text=True, check=True)
    clang = [os.path.join(kit, "toolchain", "bin", "clang"), "-O3", "-isystem", headers.stdout.strip()]
    subprocess.run([*clang, "-DSWITCH", "-o", LIMIT_BY_SWITCH, source], check=True)


def build_pages():
    subprocess.run(["gcc", "-O2", "-pthread", "-o", PAGES_PROGRAM, os.path.join(HERE, "pages.c")], check=True)


def loop():
    """The image of the loop, as plain bytes."""
    image = os.path.join(BUILD, "loop.bin")
    with open(image, "wb") as file:
        file.write(b"".join(struct.pack("<I", word) for word in LOOP))
    return image


def kinds():
    """A guest for each line of kinds.txt, assembled by the program: its name and its image."""
    with open(os.path.join(HERE, "kinds.txt"), encoding="utf-8") as file:
        rows = [line.strip() for line in file if line.strip() and not line.startswith("#")]
    made = []
    for name, lines in (row.split(": ", 1) for row in rows):
        source, image = (os.path.join(BUILD, f"kind-{name}.{ending}") for ending in ("s", "elf"))
        body = [line.strip().replace("{n}", str(n)) for n in range(REPEATED) for line in lines.split(";")]
        text = ["_start: auipc s0, 1", "lui s1, 0x80001", "top:", *body, "j top", ""]
        with open(source, "w", encoding="utf-8") as file:
            file.write("\n".join(text))
        subprocess.run([PROGRAM, "asm", source, image], check=True)
        made.append((name, image))
    return made
