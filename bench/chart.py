"""A bar chart as an SVG."""
import html

LEFT, WIDTH, BAR, GAP = 190, 420, 18, 30


def bar(y, name, value, most, own):
    length = WIDTH * value / most
    colour = "#4a7ab5" if own else "#b9b9b0"
    return [f'<text x="{LEFT - 8}" y="{y + 13}" text-anchor="end">{html.escape(name)}</text>',
            f'<rect x="{LEFT}" y="{y}" width="{max(1, length):.1f}" height="{BAR - 4}" '
            f'fill="{colour}"/>',
            f'<text x="{LEFT + max(1, length) + 6:.1f}" y="{y + 12}">{value:.2f}</text>']


def chart(title, groups):
    """Groups of bars, each (name, [(program, ratio, whether it is the engine's)]); a bar's length
    is its part of the longest of its group."""
    y, out = 56, []
    for name, bars in groups:
        out.append(f'<text x="12" y="{y}" font-weight="bold">{html.escape(name)}</text>')
        y += 10
        most = max(value for _, value, _ in bars)
        for program, value, own in bars:
            out += bar(y, program, value, most, own)
            y += BAR
        y += GAP
    head = [f'<svg xmlns="http://www.w3.org/2000/svg" width="{LEFT + WIDTH + 70}" height="{y}" '
            'font-family="sans-serif" font-size="12">',
            '<rect width="100%" height="100%" fill="#fff"/>',
            f'<text x="12" y="22" font-size="14">{html.escape(title)}</text>']
    return "\n".join([*head, *out, "</svg>", ""])
