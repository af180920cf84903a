"""Draws figures as bars, as an SVG: a group for each title, a bar for each name."""

from xml.sax.saxutils import escape

ROW, LABEL, LONGEST, TOP = 22, 210, 420, 14
COLOURS = {"plant": "#2a6f97", "Redis": "#b5443c", "PostgreSQL": "#6a7f4f", "echo": "#9a9a9a"}


def draw(path, figures):
    """`figures` are of a title, a name and a number a second each; each title's bars have a scale of their own."""
    groups = {}
    for title, name, number in figures:
        groups.setdefault(title, []).append((name, number))
    height = TOP + sum(ROW * (len(bars) + 2) for bars in groups.values())
    lines = [f'<svg xmlns="http://www.w3.org/2000/svg" width="{LABEL + LONGEST + 110}" height="{height}" font-family="sans-serif" font-size="13">']
    at = TOP
    for title, bars in groups.items():
        most = max(number for _, number in bars)
        lines.append(f'<text x="4" y="{at + 10}" font-weight="bold">{escape(title)}, per second</text>')
        for name, number in bars:
            at += ROW
            width, colour = LONGEST * number / most, COLOURS.get(name.split(",")[0], "#555555")
            lines.append(f'<text x="{LABEL - 8}" y="{at + 12}" text-anchor="end">{escape(name)}</text>')
            lines.append(f'<rect x="{LABEL}" y="{at}" width="{width:.1f}" height="{ROW - 6}" fill="{colour}"/>')
            lines.append(f'<text x="{LABEL + width + 6:.1f}" y="{at + 12}">{number:,.0f}</text>')
        at += 2 * ROW
    with open(path, "w") as file:
        file.write("\n".join([*lines, "</svg>", ""]))
