"""Draws places over accesses, as SVG: a band for the lines and for each level of the tree, with a row for each place."""

import html

import picture

WIDTH, LEFT, RIGHT, TOP, BOTTOM = picture.WIDTH, 56, 128, 48, 40
ROW, MOST_ROWS, GAP, LEAST_BAND = 14, 24, 8, 28  # a row's height, for how many rows; between bands; and of a low band
LETTERS = 11  # how far apart numbers stand
READ, WRITE, FALSE = "#1f6fb4", "#e08214", "#c4161c"


class Rows:
    """Where each place's row is, and each band."""

    def __init__(self, places, levels):
        self.heights, self.bands = {}, {}
        least = ROW if len(places) <= MOST_ROWS else ROW * MOST_ROWS / len(places)
        y = TOP
        for level in levels:
            indices = sorted({index for at, index in places if at == level}, reverse=True)
            height = max(len(indices) * least, LEAST_BAND if least < ROW else ROW)
            for at, index in enumerate(indices):
                self.heights[level, index] = y + (at + 0.5) * height / len(indices)
            self.bands[level] = y, height, indices
            y += height + GAP
        self.bottom = y - GAP if levels else TOP + LEAST_BAND


def text(x, y, words, more=""):
    return f'<text x="{x:.1f}" y="{y:.1f}"{more}>{words}</text>'


def dot(x, y, size):
    return f"M{x - size:.1f} {y:.1f}a{size:g} {size:g} 0 1 0 {2 * size:g} 0a{size:g} {size:g} 0 1 0 {-2 * size:g} 0z"


def square(x, y, size):
    return f"M{x - size:.1f} {y - size:.1f}h{2 * size:g}v{2 * size:g}h{-2 * size:g}z"


def cross(x, y, size):
    return f"M{x - size:.1f} {y - size:.1f}l{2 * size:g} {2 * size:g}m0 {-2 * size:g}l{-2 * size:g} {2 * size:g}"


def ground(rows, names):
    """The bands with their names, and the numbers of places, as far as there is room."""
    for level, (y, height, indices) in rows.bands.items():
        yield f'<rect x="{LEFT}" y="{y:.1f}" width="{WIDTH - LEFT - RIGHT}" height="{height:.1f}" class="band"/>'
        yield text(WIDTH - RIGHT + 8, y + height / 2 + 4, names[level])
        last = float("-inf")
        for index in indices:
            at = rows.heights[level, index]
            if at - last >= LETTERS:
                yield text(LEFT - 6, at + 4, index, ' text-anchor="end"')
                last = at


def axis(count, rows, place_x):
    for x in picture.ticks(count):
        if x <= count:
            yield f'<line x1="{place_x(x):.1f}" y1="{TOP}" x2="{place_x(x):.1f}" y2="{rows.bottom:.1f}" class="grid"/>'
            yield text(place_x(x), rows.bottom + 16, picture.label(x), ' text-anchor="middle"')
    yield text((LEFT + WIDTH - RIGHT) / 2, rows.bottom + 34, "access", ' text-anchor="middle"')
    yield text(8, TOP - 8, "place")


def legend(y):
    for x, name, shape in ((430, "read", dot), (490, "write", square), (552, "false answer", cross)):
        yield f'<path d="{shape(x - 10, y - 4, 4)}" class="{name.split()[0]}"/>'
        yield text(x, y, name)


def shapes_of(marks, false, rows, place_x):
    """Marks that fall together are drawn once. False answers are drawn last, over all others."""
    size = max(1, min(4, round(0.4 * (WIDTH - LEFT - RIGHT) / max(len(marks), 1), 1)))
    step = 0.1 if size > 1 else 2
    drawn = {"read": {}, "write": {}, "false": {}}
    for number, (place, kind) in enumerate(marks, 1):
        x, y = (step * round(at / step) for at in (place_x(number), rows.heights[place]))
        if number in false:
            drawn["false"][cross(x, y, 6)] = None
        else:
            drawn[kind][(dot if kind == "read" else square)(x, y, size)] = None
    for kind, paths in drawn.items():
        if paths:
            yield f'<path d="{"".join(paths)}" class="{kind}"/>'


def first_false(number, rows, place_x):
    x = place_x(number)
    yield f'<line x1="{x:.1f}" y1="{TOP}" x2="{x:.1f}" y2="{rows.bottom:.1f}" class="first"/>'
    anchor = "start" if x < WIDTH / 2 else "end"
    yield text(x, TOP - 8, f"first false: {number:,}", f' text-anchor="{anchor}" class="told"')


STYLE = (
    "text{font:12px sans-serif}.head{font-weight:bold}.band{fill:#f1f1f1}.grid{stroke:#ddd}"
    f".read{{fill:{READ}}}.write{{fill:{WRITE}}}.false{{fill:none;stroke:{FALSE};stroke-width:3}}"
    f".first{{stroke:{FALSE};stroke-dasharray:3 3}}.told{{fill:{FALSE}}}"
)


def draw(title, marks, names, false, most=1):
    """The text of the picture. Of each access: its place, which is a level and an index, and whether it is a read or a write.
    The name of each level, the topmost first. The numbers of the false accesses, counted from 1. And how many accesses the
    axis has at least."""
    rows = Rows({place for place, _ in marks}, list(names))
    count, title = max(len(marks), most), html.escape(title)
    place_x = lambda number: LEFT + 8 + (WIDTH - LEFT - RIGHT - 16) * number / count
    height = round(rows.bottom + BOTTOM)
    shapes = [text(8, 16, title, ' class="head"'), *ground(rows, names), *axis(count, rows, place_x), *legend(rows.bottom + 34)]
    shapes += shapes_of(marks, false, rows, place_x)
    if false:
        shapes += first_false(min(false), rows, place_x)
    head = f'<svg xmlns="http://www.w3.org/2000/svg" viewBox="0 0 {WIDTH} {height}" width="{WIDTH}" height="{height}">'
    back = '<rect width="100%" height="100%" fill="white"/>'
    return "\n".join([head, f"<title>{title}</title>", f"<style>{STYLE}</style>", back, *shapes, "</svg>"]) + "\n"
