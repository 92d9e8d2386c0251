#!/usr/bin/env python3
"""Estimates the cycles of what ran, by llvm-mca.

cycles.py CPU BLOCKS.. : for each file of blocks that count.c wrote, a line of two numbers: the cycles if each block
were a loop of its own, which is right for long loops and too slow for short blocks, and the cycles if nothing ever
waited for anything, which is too quick for all. Caches and wrong guesses of branches are not in either.
"""
import re
import shutil
import subprocess
import sys

TURNS = 200  # of a block, for llvm-mca to settle
PART = 0.998  # of all instructions; the blocks that hardly run are left out, and the rest is scaled up


def tool(name):
    for version in ("-22", "-19", "-16", "-14", ""):
        if shutil.which(name + version):
            return name + version
    sys.exit(f"cycles.py: there is no {name}")


MC, MCA = tool("llvm-mc"), tool("llvm-mca")


def assembly(code):
    octets = " ".join("0x" + code[i:i + 2] for i in range(0, len(code), 2))
    return subprocess.run([MC, "--disassemble", "-triple=x86_64"], input=octets, capture_output=True, text=True).stdout


def ends_in_jump(code):
    lines = [line.strip() for line in assembly(code).splitlines() if line.strip() and not line.strip().startswith(".")]
    return bool(lines) and bool(re.match(r"(j|call|ret|loop|syscall|rep)", lines[-1]))


def read(path):
    """Runs and instructions by address and code."""
    blocks = {}
    for line in open(path):
        address, instructions, runs, code = line.split()
        blocks[int(address, 16), code] = [int(runs), int(instructions)]
    return blocks


def join_halves(blocks):
    """The emulator cuts a block where a page of code ends; that would hang on where the linker put it."""
    total = sum(runs * n for runs, n in blocks.values())
    for key in sorted(blocks, key=lambda key: -blocks[key][0] * blocks[key][1]):
        runs, n = blocks[key]
        address, code = key
        if runs * n < 0.0005 * total or ends_in_jump(code):
            continue
        after = [other for other in blocks if other[0] == address + len(code) // 2 and blocks[other][0] > 0]
        if not after:
            continue
        other = max(after, key=lambda other: blocks[other][0])
        both = min(runs, blocks[other][0])
        blocks[address, code + other[1]] = [both, n + blocks[other][1]]
        blocks[key][0] -= both
        blocks[other][0] -= both
    return blocks


def estimate(code, cpu):
    """Cycles of one turn of a block: as a loop of its own, and if nothing waited."""
    command = [MCA, "-mtriple=x86_64", "-mcpu=" + cpu, f"-iterations={TURNS}", "--instruction-info=0", "--resource-pressure=0"]
    said = subprocess.run(command, input=assembly(code), capture_output=True, text=True).stdout
    return int(re.search(r"Total Cycles:\s+(\d+)", said)[1]) / TURNS, float(re.search(r"Block RThroughput:\s+([\d.]+)", said)[1])


def cycles(path, cpu):
    blocks = join_halves(read(path))
    total = sum(runs * n for runs, n in blocks.values())
    done = looped = unhindered = 0
    for (_, code), (runs, n) in sorted(blocks.items(), key=lambda item: -item[1][0] * item[1][1]):
        if runs == 0 or done > PART * total:
            break
        turn, least = estimate(code, cpu)
        done += runs * n
        looped += runs * turn
        unhindered += runs * least
    return looped * total / done, unhindered * total / done


def main():
    cpu = sys.argv[1]
    for path in sys.argv[2:]:
        print(*(f"{figure:.0f}" for figure in cycles(path, cpu)))


main()
