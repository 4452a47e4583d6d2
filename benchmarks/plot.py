"""A plot of seconds by size, a panel a work, both axes in powers, as SVG."""

import math

COLORS = {"nazwiru": "#c0392b", "rocksdb": "#2c5f8a", "sqlite": "#7f8c8d", "map": "#27ae60"}
WIDTH, HEIGHT, MARGIN, COLUMNS = 260, 190, 42, 3


class Axis:
    """Where a value lies between two ends, in powers."""

    def __init__(self, values, begin, end):
        self.low, self.high = math.log(min(values) * 0.8), math.log(max(values) * 1.25)
        self.begin, self.end = begin, end

    def at(self, value):
        part = (math.log(value) - self.low) / (self.high - self.low)
        return self.begin + part * (self.end - self.begin)


def text(x, y, words, anchor="middle", size=11, color="#333"):
    return f'<text x="{x:.1f}" y="{y:.1f}" font-size="{size}" text-anchor="{anchor}" fill="{color}">{words}</text>'


def panel(work, sizes, left, top):
    seconds = [figures[name][0] for figures in sizes.values() for name in figures]
    across = Axis(list(sizes), left + MARGIN, left + WIDTH - 10)
    up = Axis(seconds, top + HEIGHT - MARGIN + 10, top + 26)
    yield f'<rect x="{left + MARGIN - 6}" y="{top + 20}" width="{WIDTH - MARGIN}" height="{HEIGHT - MARGIN - 4}" fill="none" stroke="#ccc"/>'
    yield text(left + WIDTH / 2 + 12, top + 14, work, size=13)
    for size in sizes:
        yield text(across.at(size), top + HEIGHT - 12, f"{size // 1000}k")
    for mark in (0.01, 0.03, 0.1, 0.3, 1, 3, 10, 30):
        if up.low <= math.log(mark) <= up.high:
            yield text(left + MARGIN - 10, up.at(mark) + 4, f"{mark:g} s", "end")
    for name in next(iter(sizes.values())):
        points = " ".join(f"{across.at(size):.1f},{up.at(figures[name][0]):.1f}" for size, figures in sizes.items())
        yield f'<polyline points="{points}" fill="none" stroke="{COLORS[name]}" stroke-width="2"/>'


def svg(all_figures):
    rows = -(-len(all_figures) // COLUMNS)
    width, height = COLUMNS * WIDTH, rows * HEIGHT + 30
    parts = [f'<svg xmlns="http://www.w3.org/2000/svg" viewBox="0 0 {width} {height}" font-family="sans-serif">', '<rect width="100%" height="100%" fill="#fff"/>']
    for i, (work, sizes) in enumerate(all_figures.items()):
        parts += panel(work, sizes, i % COLUMNS * WIDTH, i // COLUMNS * HEIGHT)
    for i, (name, color) in enumerate(COLORS.items()):
        parts.append(text(60 + 110 * i, height - 10, name, "start", 13, color))
    return "\n".join([*parts, "</svg>", ""])
