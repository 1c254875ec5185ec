#!/usr/bin/env python3
"""Writes the script that a seed generates, of so many lines, and its sample files: made_script.py FOLDER SEED LINES."""
import sys

folder, seed, lines = sys.argv[1], int(sys.argv[2]), int(sys.argv[3])
state = seed


def draw(n):
    global state
    state = (state * 6364136223846793005 + 1442695040888963407) % 2**64
    return state // 2**33 % n


def line(k):
    caller, kind = 1 + draw(4), draw(10)
    if kind == 0:
        return f"{caller} v{draw(16)} = record g{draw(8)}"
    if kind == 1:
        return f"{caller} v{draw(16)} = concat v{draw(16)} v{draw(16)}"
    if kind == 2:
        return f"{caller} v{draw(16)} = sub v{draw(16)} {draw(500)} {draw(500)}"
    if kind == 3:
        return f"{caller} v{draw(16)} = replace v{draw(16)} {draw(400)} {draw(100)} v{draw(16)}"
    if kind == 4:
        return f"{caller} length v{draw(16)}"
    if kind == 5:
        return f"{caller} play {caller - 1} v{draw(16)} {draw(500)} {draw(2000)} out"
    if kind == 6:
        return f"{caller} retain held k{draw(64)} v{draw(16)} -"
    if kind == 7:
        return f"{caller} forget held k{draw(64)}"
    return f"{caller} advance {10 * (k + 1)}" if kind == 8 else f"{caller} sweep 64"


for i in range(8):
    with open(f"{folder}/g{i}", "wb") as file:
        file.write(bytes((7 * k + 31 * i) % 256 for k in range(1000 * (i + 1))))
with open(f"{folder}/made.vs", "w", encoding="ascii") as file:
    for k in range(lines):
        file.write(line(k) + "\n")
