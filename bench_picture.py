"""The benchmark's table as a picture: `bench_picture.py TABLE > PICTURE.svg`.

A panel for each call, a row for each workload, the time in µs to the right on a scale of powers of ten. A full dot is the proved engine, a ring the
reference engine, a cross the peer.
"""
import math
import sys

PANELS = {"step": 3, "write": 6, "read": 9}  # the column of the proved engine; the reference engine's is the next
LEFT, WIDTH, GAP, TOP, ROW = 190, 240, 30, 50, 18


def rows(path):
    """The cells of each table in the file."""
    tables = []
    fresh = True
    for line in open(path, encoding="utf-8"):
        if not line.startswith("|"):
            fresh = True
        elif fresh:
            tables.append([])  # the heads
            fresh = False
        elif not line.startswith("|---"):
            tables[-1].append([cell.strip() for cell in line.strip().strip("|").split("|")])
    return tables


def marks(kind, x, y):
    if kind == "proved":
        return f'<circle cx="{x:.1f}" cy="{y}" r="4" fill="black"/>'
    if kind == "reference":
        return f'<circle cx="{x:.1f}" cy="{y}" r="4" fill="none" stroke="black"/>'
    return f'<path d="M{x - 4:.1f} {y - 4}l8 8m0 -8l-8 8" stroke="black"/>'


def text(x, y, words, anchor="start"):
    return f'<text x="{x}" y="{y}" text-anchor="{anchor}">{words}</text>'


def picture(engines, peer):
    lows = [float(cells[c + k]) for cells in engines for c in PANELS.values() for k in (0, 1)]
    first, last = math.floor(math.log10(min(lows))), math.ceil(math.log10(max(lows)))
    height = TOP + ROW * len(engines) + 30
    out = []
    for i, (call, column) in enumerate(PANELS.items()):
        left = LEFT + i * (WIDTH + GAP)
        place = lambda time: left + WIDTH * (math.log10(time) - first) / (last - first)
        out.append(text(left, TOP - 28, f"{call}, µs"))
        for power in range(first, last + 1):
            x = place(10**power)
            out.append(f'<path d="M{x:.1f} {TOP - 10}V{height - 30}" stroke="#ccc"/>')
            out.append(text(f"{x:.1f}", TOP - 14, f"{10.0**power:g}", "middle"))
        for j, cells in enumerate(engines):
            y = TOP + j * ROW
            if i == 0:
                out.append(text(LEFT - 14, y + 4, cells[0], "end"))
                if cells[0] in peer:
                    out.append(marks("peer", place(peer[cells[0]]), y))
            out.append(marks("reference", place(float(cells[column + 1])), y))
            out.append(marks("proved", place(float(cells[column])), y))
    for i, kind in enumerate(("proved", "reference", "peer")):
        out.append(marks(kind, LEFT + 110 * i, height - 14))
        out.append(text(LEFT + 110 * i + 10, height - 10, kind))
    width = LEFT + 3 * WIDTH + 3 * GAP
    head = f'<svg xmlns="http://www.w3.org/2000/svg" width="{width}" height="{height}" font-family="sans-serif" font-size="12">'
    return "\n".join([head, f'<rect width="{width}" height="{height}" fill="white"/>'] + out + ["</svg>"])


tables = rows(sys.argv[1])
engines = [cells for cells in tables[0] if len(cells) > max(PANELS.values()) + 1]
peer = {cells[0]: float(cells[2]) for cells in tables[2]} if len(tables) > 2 else {}  # the second is that of steps that fire
print(picture(engines, peer))
