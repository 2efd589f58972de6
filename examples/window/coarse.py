#!/usr/bin/env python3
"""coarse.py SCREEN [EXPECTED]: reads a screen as Xvfb keeps it (an XWD file) and prints the mean colour of each square of 20
pixels, 16 shades a channel. With EXPECTED, such a print, compares: exits with 1 where a shade differs by more than two."""
import struct
import sys

SIDE = 20


def coarse(path):
    with open(path, "rb") as file:
        data = file.read()
    head = struct.unpack(">25I", data[:100])
    size, width, height, order, line, colors = head[0], head[4], head[5], head[7], head[12], head[19]
    at = size + 12 * colors
    assert head[11] == 32 and order == 0, "the screen has no 32 bits a pixel, lowest byte first"
    rows = []
    for top in range(0, height - SIDE + 1, SIDE):
        row = []
        for left in range(0, width - SIDE + 1, SIDE):
            sums = [0, 0, 0]
            for y in range(top, top + SIDE):
                pixels = data[at + y * line + 4 * left : at + y * line + 4 * (left + SIDE)]
                for channel in range(3):
                    sums[channel] += sum(pixels[2 - channel :: 4])
            row.append("".join(f"{it // (16 * SIDE * SIDE):x}" for it in sums))
        rows.append(row)
    return rows


def main():
    rows = coarse(sys.argv[1])
    if len(sys.argv) < 3:
        print("\n".join(" ".join(row) for row in rows))
        return 0
    with open(sys.argv[2], encoding="ascii") as file:
        wanted = [line.split() for line in file]
    if [len(row) for row in rows] != [len(row) for row in wanted]:
        print("another size")
        return 1
    worst = max(abs(int(a, 16) - int(b, 16)) for r, w in zip(rows, wanted) for x, y in zip(r, w) for a, b in zip(x, y))
    print(f"shades differ by {worst} at most")
    return 1 if worst > 2 else 0


sys.exit(main())
