"""A picture of times against sizes, both axes by powers of ten, as SVG."""
import math

WIDTH, HEIGHT = 760, 460
LEFT, RIGHT, TOP, BOTTOM = 80, 210, 40, 60
COLOURS = ["#c0392b", "#2c3e50", "#2980b9", "#7fb3d5", "#b9770e", "#e0b46c", "#e6a39b", "#95a5a6"]
SIZES = {3: "1 kB", 4: "10 kB", 5: "100 kB", 6: "1 MB", 7: "10 MB"}
TIMES = {2: "100 ns", 3: "1 µs", 4: "10 µs", 5: "100 µs", 6: "1 ms", 7: "10 ms", 8: "100 ms", 9: "1 s", 10: "10 s"}
TITLE = "One replace, or 100 mixed operations, in a document of this size: time of the call"


def of(lines):
    """The picture of these lines, each a list of points (bytes, nanoseconds) by its name."""
    times = [math.log10(spent) for points in lines.values() for _, spent in points]
    low, high = math.floor(min(times)), math.ceil(max(times))
    across = lambda power: LEFT + (power - 3) / 4 * (WIDTH - LEFT - RIGHT)
    up = lambda power: HEIGHT - BOTTOM - (power - low) / (high - low) * (HEIGHT - TOP - BOTTOM)
    drawn = [
        f'<svg xmlns="http://www.w3.org/2000/svg" viewBox="0 0 {WIDTH} {HEIGHT}" font-family="sans-serif" font-size="12">',
        f'<rect width="{WIDTH}" height="{HEIGHT}" fill="white"/>',
        f'<text x="{LEFT}" y="22" font-size="14">{TITLE}</text>',
    ]
    for power, name in SIZES.items():
        x = across(power)
        drawn.append(f'<line x1="{x:.1f}" y1="{TOP}" x2="{x:.1f}" y2="{HEIGHT - BOTTOM}" stroke="#ddd"/>')
        drawn.append(f'<text x="{x:.1f}" y="{HEIGHT - BOTTOM + 20}" text-anchor="middle">{name}</text>')
    for power in range(low, high + 1):
        y = up(power)
        drawn.append(f'<line x1="{LEFT}" y1="{y:.1f}" x2="{WIDTH - RIGHT}" y2="{y:.1f}" stroke="#ddd"/>')
        drawn.append(f'<text x="{LEFT - 8}" y="{y + 4:.1f}" text-anchor="end">{TIMES.get(power, f"10^{power} ns")}</text>')
    for (name, y), colour in zip(labels(lines, up), COLOURS):
        points = [(across(math.log10(size)), up(math.log10(spent))) for size, spent in lines[name]]
        dash = ' stroke-dasharray="5 4"' if "in place" in name else ""
        path = " ".join(f"{x:.1f},{y:.1f}" for x, y in points)
        drawn.append(f'<polyline points="{path}" fill="none" stroke="{colour}" stroke-width="2"{dash}/>')
        drawn += [f'<circle cx="{x:.1f}" cy="{y:.1f}" r="3" fill="{colour}"/>' for x, y in points]
        drawn.append(f'<text x="{WIDTH - RIGHT + 10}" y="{y + 4:.1f}" fill="{colour}">{name}</text>')
    drawn.append("</svg>\n")
    return "\n".join(drawn)


def labels(lines, up):
    """The names with the heights of their labels, which stand beside the last points and 16 apart."""
    ends = sorted((up(math.log10(points[-1][1])), name) for name, points in lines.items())
    heights, last = {}, -math.inf
    for y, name in ends:
        last = max(y, last + 16)
        heights[name] = last
    return [(name, heights[name]) for name in lines]
