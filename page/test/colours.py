#!/usr/bin/env python3
"""Says whether the colours of T0 to T4 and red differ for colour-blind readers, in both themes. Prints the nearest pairs."""
import itertools
import os
import re
import sys

LEAST = 10          # CIE76 difference
# Machado, Oliveira and Fernandes (2009), severity 1, on linear RGB.
BLINDNESS = {
    "none": ((1, 0, 0), (0, 1, 0), (0, 0, 1)),
    "protanopia": ((.152286, 1.052583, -.204868), (.114503, .786281, .099216), (-.003882, -.048116, 1.051998)),
    "deuteranopia": ((.367322, .860646, -.227968), (.280085, .672501, .047413), (-.011820, .042940, .968881)),
    "tritanopia": ((1.255528, -.076749, -.178779), (-.078411, .930809, .147602), (.004733, .691367, .303900)),
}


def linear(text):
    """Returns linear red, green and blue of #rgb or #rrggbb."""
    digits = text[1:] if len(text) == 7 else "".join(c + c for c in text[1:])
    values = [int(digits[i:i + 2], 16) / 255 for i in (0, 2, 4)]
    return [v / 12.92 if v <= .04045 else ((v + .055) / 1.055) ** 2.4 for v in values]


def times(matrix, v):
    return [min(1, max(0, sum(a * b for a, b in zip(row, v)))) for row in matrix]


def lab(v):
    rows = ((.4124564, .3575761, .1804375), (.2126729, .7151522, .0721750), (.0193339, .1191920, .9503041))
    xyz = [sum(a * b for a, b in zip(row, v)) / white for row, white in zip(rows, (.95047, 1, 1.08883))]
    x, y, z = (t ** (1 / 3) if t > .008856 else 7.787 * t + 16 / 116 for t in xyz)
    return 116 * y - 16, 500 * (x - y), 200 * (y - z)


def themes():
    """Returns the colours of each theme by their names."""
    with open(os.path.join(os.path.dirname(os.path.abspath(__file__)), "..", "style", "colours.css"), encoding="utf-8") as f:
        blocks = re.findall(r"([^{}]+)\{([^{}]*)\}", f.read())
    colours = lambda body: dict(re.findall(r"--(\w+): (#[0-9a-f]{3,6});", body))
    return {name: colours(next(body for head, body in blocks if head.strip().endswith(end)))
            for name, end in (("light", ":root"), ("dark", "[data-theme=dark]"))}


def main():
    bad = 0
    for theme, colours in themes().items():
        for blindness, matrix in BLINDNESS.items():
            seen = {n: lab(times(matrix, linear(colours[n]))) for n in ("t0", "t1", "t2", "t3", "t4", "bad")}
            near = min((sum((p - q) ** 2 for p, q in zip(seen[a], seen[b])) ** .5, a, b) for a, b in itertools.combinations(seen, 2))
            print("%-5s %-12s nearest %s and %s: %.1f" % (theme, blindness, near[1], near[2], near[0]))
            bad += near[0] < LEAST
    sys.exit(1 if bad else 0)


if __name__ == "__main__":
    main()
