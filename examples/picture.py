#!/usr/bin/env python3
"""Draws what `voice` told of a rope as an SVG: the peaks of a `levels` line, and where a `describe` line found talk.

    voice run SCRIPT | picture.py > picture.svg

It takes the last line of each kind from standard input. A window of peaks is 160 samples, a fiftieth of a second."""
import re
import sys

WINDOW = 160
SECOND = 8000
HEIGHT = 127  # the greatest loudness


def lines_of(text):
    """The peaks of the last `levels` line, and the intervals of the last `describe` line."""
    peaks, talk = [], []
    for line in text.splitlines():
        found = re.fullmatch(r"\d+ \d+ levels: peaks \d+((?: \d+)*)", line)
        if found:
            peaks = [int(one) for one in found[1].split()]
        found = re.fullmatch(r"\d+ \d+ describe: talk \d+((?: \d+\+\d+)*)", line)
        if found:
            talk = [tuple(map(int, one.split("+"))) for one in found[1].split()]
    return peaks, talk


def picture(peaks, talk):
    length = max([len(peaks) * WINDOW, SECOND, *[start + count for start, count in talk]])
    x = lambda sample: round(800 * sample / length, 1)
    yield f'<svg xmlns="http://www.w3.org/2000/svg" viewBox="-8 -8 816 {HEIGHT + 40}" font-family="sans-serif" font-size="11">'
    for start, count in talk:
        yield f'<rect x="{x(start)}" y="0" width="{x(count)}" height="{HEIGHT}" fill="#cfe8cf"/>'
    for place, peak in enumerate(peaks):
        yield f'<rect x="{x(place * WINDOW)}" y="{HEIGHT - peak}" width="{max(x(WINDOW) - 0.2, 0.4)}" height="{peak}" fill="#36618e"/>'
    yield f'<line x1="0" y1="{HEIGHT}" x2="800" y2="{HEIGHT}" stroke="black"/>'
    for second in range(length // SECOND + 1):
        yield f'<line x1="{x(second * SECOND)}" y1="{HEIGHT}" x2="{x(second * SECOND)}" y2="{HEIGHT + 5}" stroke="black"/>'
        yield f'<text x="{x(second * SECOND)}" y="{HEIGHT + 17}" text-anchor="middle">{second} s</text>'
    yield "</svg>"


if __name__ == "__main__":
    if len(sys.argv) > 1:
        sys.exit(__doc__)
    for line in picture(*lines_of(sys.stdin.read())):
        print(line)
