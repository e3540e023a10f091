"""Draws lines of time against channels as an SVG picture."""

from html import escape
from itertools import count
from math import ceil

WIDTH, HEIGHT = 760, 440
LEFT, RIGHT, TOP, BOTTOM = 66, 110, 64, 56
COLORS = ("#0b62a4", "#c4501b", "#2d7d46", "#7a3e9d", "#8a6d00", "#b0266e")


def grid(greatest):
    """Round numbers from 0 on, at most six; the last one is no less than `greatest`."""
    for exponent in count(-6):
        for step in (1, 2, 5):
            distance = step * 10.0 ** exponent
            steps = max(1, ceil(greatest / distance))
            if steps <= 5:
                return [distance * number for number in range(steps + 1)]


def plot(title, subtitle, lines):
    """The picture of `lines`: for each name its points (channels, seconds), channels rising."""
    across = grid(max(channels for points in lines.values() for channels, _ in points))
    up = grid(max(seconds for points in lines.values() for _, seconds in points))
    place = placing(across[-1], up[-1])
    parts = [*frame(title, subtitle), *grid_lines(across, up, place)]
    heights = apart([place(*points[-1])[1] for points in lines.values()])
    for color, (name, points), height in zip(COLORS, lines.items(), heights):
        parts += line(color, name, [place(*point) for point in points], height)
    return "\n".join([*parts, "</svg>", ""])


def placing(most_channels, most_seconds):
    """Where a point stands in the picture, in its units from the upper left."""
    def place(channels, seconds):
        x = LEFT + (WIDTH - LEFT - RIGHT) * channels / most_channels
        y = HEIGHT - BOTTOM - (HEIGHT - TOP - BOTTOM) * seconds / most_seconds
        return round(x, 1), round(y, 1)
    return place


def apart(heights, least=16):
    """The heights, moved down as far as names need it that would stand on one another."""
    moved = list(heights)
    order = sorted(range(len(moved)), key=moved.__getitem__)
    for above, below in zip(order, order[1:]):
        moved[below] = max(moved[below], moved[above] + least)
    return moved


def text(x, y, anchor, words, size=12, color="#444"):
    """Words at a place; `anchor` is start, middle or end."""
    return (f'<text x="{x}" y="{y}" text-anchor="{anchor}" font-size="{size}" fill="{color}">'
            f"{escape(words)}</text>")


def frame(title, subtitle):
    """The white ground, the words above and those of the axes."""
    return [
        f'<svg xmlns="http://www.w3.org/2000/svg" viewBox="0 0 {WIDTH} {HEIGHT}" '
        f'width="{WIDTH}" height="{HEIGHT}" font-family="sans-serif">',
        f"<title>{escape(title)}</title>",
        f'<rect width="{WIDTH}" height="{HEIGHT}" fill="#fff"/>',
        text(20, 26, "start", title, 16, "#111"),
        text(20, 46, "start", subtitle),
        text((LEFT + WIDTH - RIGHT) / 2, HEIGHT - 14, "middle", "channels"),
        f'<g transform="rotate(-90)">{text(-(TOP + HEIGHT - BOTTOM) / 2, 18, "middle", "seconds")}'
        "</g>"]


def grid_lines(across, up, place):
    """A pale line at each round number, and the number."""
    parts = []
    for channels in across:
        (x, bottom), (_, top) = place(channels, 0), place(channels, up[-1])
        parts.append(f'<path d="M{x} {bottom}V{top}" stroke="#eee"/>')
        parts.append(text(x, bottom + 18, "middle", f"{channels:,.0f}"))
    for seconds in up:
        (left, y), (right, _) = place(0, seconds), place(across[-1], seconds)
        parts.append(f'<path d="M{left} {y}H{right}" stroke="{"#ddd" if seconds else "#888"}"/>')
        parts.append(text(left - 8, y + 4, "end", f"{seconds:g}"))
    return parts


def line(color, name, points, height):
    """One line with a dot at each measured size, and its name at its end."""
    path = " ".join(f"{x},{y}" for x, y in points)
    dots = [f'<circle cx="{x}" cy="{y}" r="3.5" fill="{color}"/>' for x, y in points]
    return [f'<polyline points="{path}" fill="none" stroke="{color}" stroke-width="2"/>', *dots,
            text(points[-1][0] + 10, height + 4, "start", name, 13, color)]
