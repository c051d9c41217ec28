#!/usr/bin/env python3
"""Makes the sample inputs: prices of resale tickets in cents, a value every ten minutes, and the curve of a show that was called off. The same each time."""
import math, pathlib, random

here = pathlib.Path(__file__).resolve().parent
r = random.Random(20261115)


def walk(n, level, pull, noise):
    """Prices that wander about a level, with a ripple a day."""
    x, out = level, []
    for k in range(n):
        x += pull * (level - x) + r.gauss(0, noise)
        out.append(x + 60 * math.sin(2 * math.pi * k / 144))
    return out


def called_off(m):
    """The curve of a show later called off: a calm start, doubts, a fall, a rebound, and the collapse. From 1 down to some 0.35."""
    points = [(0, 1.0), (0.22, 0.99), (0.38, 0.90), (0.46, 0.66), (0.55, 0.78), (0.68, 0.74), (0.80, 0.52), (0.90, 0.38), (1, 0.35)]
    out = []
    for k in range(m):
        t = k / (m - 1)
        (a, x), (b, y) = next((p, q) for p, q in zip(points, points[1:]) if p[0] <= t <= q[0])
        out.append(x + (y - x) * (t - a) / (b - a))
    return out


def planted(prices, at, level, curve, stretch, back=72):
    """The curve, at its own level and pace, put into a series, and the way back to the level of before, over half a day or as long as is said."""
    m = len(curve)
    for k in range(m):
        u = min(m - 1, max(0, k + stretch * math.sin(math.pi * k / m)))
        i = int(u)
        y = curve[i] + (curve[min(i + 1, m - 1)] - curve[i]) * (u - i)
        prices[at + k] = level * y + r.gauss(0, 12)
    for k in range(back):
        if at + m + k < len(prices):
            a = (k + 1) / (back + 1)
            prices[at + m + k] = (1 - a) * level * curve[-1] + a * prices[at + m + k] + r.gauss(0, 12)


def line(name, values):
    return f"({name}{''.join(f' {v}' for v in values)})"


def whole(prices):
    return [max(0, min(10000, round(p))) for p in prices]


def write(name, window, width, merge, series, find, query):
    text = f"(window {window})\n(width {width})\n(merge {merge})\n{line('series', series)}\n(find {find} {line('query', query)})\n"
    (here / name).write_text(text)


m = 192
shape = called_off(m)
prices = walk(4000, 5200, 0.02, 35)
planted(prices, 700, 5200, shape, 3)
planted(prices, 2301, 5600, shape, -4)
planted(prices, 3400, 4700, shape, 6)
series = whole(prices)
query = whole(6100 * y + r.gauss(0, 10) for y in shape)
write("called_off.in", 32, 4096, 50, series, "normal 8 3000 15 1600", query)
write("calm.in", 32, 4096, 50, whole(walk(4000, 4800, 0.02, 35)), "normal 8 3000 15 1600", query)
write("same_fall.in", 16, 512, 50, series, "raw 0 700000 10 0", series[2380:2444])

# samples/replay: an index of the first 102 prices, and 48 that come later. An old fall; the show is called off across the end of the index; the next fall lies behind it.
shape = called_off(24)
prices = walk(150, 5200, 0.02, 35)
planted(prices, 30, 5100, shape, 0.5, 12)
planted(prices, 92, 5500, shape, -0.5, 8)
planted(prices, 124, 5000, shape, 0.7)
write("growing.in", 6, 1024, 25, whole(prices), "normal 2 2500 12 300", whole(5300 * y for y in shape))
