"""Draws lines over two axes, as SVG."""

WIDTH, HEIGHT, LEFT, BOTTOM, RIGHT, TOP = 720, 440, 72, 48, 128, 28


def ticks(most):
    """Round numbers from 0 up to at least the greatest."""
    steps = (digit * 10**power for power in range(-4, 12) for digit in (1, 2, 5))
    step = next(step for step in steps if most <= 6 * step)
    return [step * number for number in range(int(most / step) + 2)]


def label(value):
    return f"{int(value):,}" if value >= 10 else f"{value:g}"


def grid(across, up, place_x, place_y):
    for x, text in across.items():
        yield f'<line x1="{place_x(x):.1f}" y1="{TOP}" x2="{place_x(x):.1f}" y2="{HEIGHT - BOTTOM}" class="grid"/>'
        yield f'<text x="{place_x(x):.1f}" y="{HEIGHT - BOTTOM + 18}" text-anchor="middle">{text}</text>'
    for y in up:
        yield f'<line x1="{LEFT}" y1="{place_y(y):.1f}" x2="{WIDTH - RIGHT}" y2="{place_y(y):.1f}" class="grid"/>'
        yield f'<text x="{LEFT - 8}" y="{place_y(y) + 4:.1f}" text-anchor="end">{label(y)}</text>'


def name_heights(series, place_y):
    """Where the names stand beside the ends of their lines, none over another."""
    heights, last = {}, float("inf")
    for name in sorted(series, key=lambda name: series[name][-1][1]):
        last = min(place_y(series[name][-1][1]) + 4, last - 14)
        heights[name] = last
    return heights


def draw(title, x_axis, y_axis, series, dots=True, across=None):
    """The text of the picture. Of each series: points x and y, by rising x. And the texts below the x axis, or else numbers."""
    across = across or {x: label(x) for x in ticks(max(x for line in series.values() for x, _ in line))}
    up = ticks(max(y for line in series.values() for _, y in line))
    place_x = lambda x: LEFT + (WIDTH - LEFT - RIGHT) * x / max(across)
    place_y = lambda y: HEIGHT - BOTTOM - (HEIGHT - BOTTOM - TOP) * y / up[-1]
    shapes = list(grid(across, up, place_x, place_y))
    shapes.append(f'<text x="{(LEFT + WIDTH - RIGHT) / 2}" y="{HEIGHT - 8}" text-anchor="middle">{x_axis}</text>')
    shapes.append(f'<text x="8" y="{TOP - 12}">{y_axis}</text>')
    heights = name_heights(series, place_y)
    for at, (name, line) in enumerate(series.items()):
        colour = f"hsl({at * 360 // len(series)} 70% 38%)"
        path = " ".join(f"{place_x(x):.1f},{place_y(y):.1f}" for x, y in line)
        shapes.append(f'<polyline points="{path}" fill="none" stroke="{colour}" stroke-width="1.5"/>')
        if dots:
            shapes += [f'<circle cx="{place_x(x):.1f}" cy="{place_y(y):.1f}" r="2.5" fill="{colour}"/>' for x, y in line]
        shapes.append(f'<text x="{place_x(line[-1][0]) + 8:.1f}" y="{heights[name]:.1f}" fill="{colour}">{name}</text>')
    style = "<style>text{font:12px sans-serif}.grid{stroke:#ddd}</style>"
    head = f'<svg xmlns="http://www.w3.org/2000/svg" viewBox="0 0 {WIDTH} {HEIGHT}" width="{WIDTH}" height="{HEIGHT}">'
    ground = '<rect width="100%" height="100%" fill="white"/>'
    return "\n".join([head, f"<title>{title}</title>", style, ground, *shapes, "</svg>"]) + "\n"


def beside(left, right):
    """The text of two pictures side by side."""
    head = f'<svg xmlns="http://www.w3.org/2000/svg" viewBox="0 0 {2 * WIDTH} {HEIGHT}" width="{2 * WIDTH}" height="{HEIGHT}">'
    return "\n".join([head, left.rstrip(), right.replace("<svg ", f'<svg x="{WIDTH}" ', 1).rstrip(), "</svg>"]) + "\n"
