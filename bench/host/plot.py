"""The ratios of the benchmarks as a picture: a line for each benchmark, a dot for each case and peer, right of the middle where ours is the faster."""
import math
from xml.sax.saxutils import escape

WIDTH, LEFT, RIGHT, TOP, STEP = 900, 190, 30, 96, 32
LEAST, MOST = 1 / 8, 8
COLOURS = {'plain Rust': '#1f6f8b', 'plain C': '#1f6f8b', 'plain C++': '#1f6f8b', 'memcpy': '#8a5a00', 'nanopb': '#7b3f98', 'protoc': '#b3261e', 'protoc, new': '#e08a7d',
           'OpenSSL': '#2e7d32', 'OpenSSL without SHA instructions': '#8bbf8e', 'ours, by value': '#555', 'before': '#c2185b'}
# in the legend; None: one of the others says it
NAMES = {'plain Rust': 'plain Rust, C or C++', 'plain C': None, 'plain C++': None, 'OpenSSL without SHA instructions': 'OpenSSL, no SHA instructions'}


def across(ratio):
    """Where a ratio stands: doublings are equally far apart."""
    held = min(max(ratio, LEAST), MOST)
    return LEFT + (WIDTH - LEFT - RIGHT) * (math.log2(held) - math.log2(LEAST)) / (math.log2(MOST) - math.log2(LEAST))


def text(x, y, words, anchor='start', size=13, colour='#222', more=''):
    return '<text x="%.1f" y="%.1f" text-anchor="%s" font-size="%d" fill="%s"%s>%s</text>' % (x, y, anchor, size, colour, more, escape(words))


def grid(bottom):
    parts, ratio = [], LEAST
    while ratio <= MOST:
        x, middle = across(ratio), ratio == 1
        parts.append('<line x1="%.1f" y1="%d" x2="%.1f" y2="%d" stroke="%s" stroke-width="%s"/>' % (x, TOP - 8, x, bottom, '#555' if middle else '#ddd', 1.5 if middle else 1))
        parts.append(text(x, bottom + 18, '1' if middle else '%g×' % ratio if ratio > 1 else '1/%g' % (1 / ratio), 'middle', 12, '#555'))
        ratio *= 2
    parts.append(text(across(1) - 12, TOP - 16, '← the other is faster', 'end', 12, '#555'))
    parts.append(text(across(1) + 12, TOP - 16, 'ours is faster →', 'start', 12, '#555'))
    return parts


def legend(used, y):
    parts, x = [], 40
    for way, colour in COLOURS.items():
        name = NAMES.get(way, way)
        if name is None or not any(COLOURS[one] == colour for one in used):
            continue
        parts.append('<circle cx="%.1f" cy="%.1f" r="5" fill="%s"/>' % (x, y - 4, colour))
        parts.append(text(x + 10, y, name, size=12))
        x += 34 + 7 * len(name)
    return parts


def picture(rows, about):
    """An SVG of rows with script, benchmark and peers (name to ratio)."""
    lines = {}
    for row in rows:
        lines.setdefault('%s: %s' % (row.script, row.benchmark), []).append(row)
    bottom = TOP + STEP * len(lines)
    parts = ['<svg xmlns="http://www.w3.org/2000/svg" width="%d" height="%d" viewBox="0 0 %d %d" font-family="sans-serif">' % (WIDTH, bottom + 62, WIDTH, bottom + 62),
             '<rect width="100%" height="100%" fill="#fff"/>', text(20, 28, "Others' time to ours", size=18, more=' font-weight="bold"'), text(20, 50, about.split('. ')[0], size=12, colour='#555')]
    parts += grid(bottom)
    for at, (name, of) in enumerate(lines.items()):
        y = TOP + STEP * at + STEP / 2
        parts.append(text(LEFT - 14, y + 4, name, 'end'))
        for row in of:
            for way, ratio in row.peers.items():
                parts.append('<circle cx="%.1f" cy="%.1f" r="5" fill="%s" fill-opacity="0.6"><title>%s, %s: %.2f</title></circle>' % (
                    across(ratio), y, COLOURS.get(way, '#555'), escape(row.case), escape(way), ratio))
    parts += legend({way for row in rows for way in row.peers}, bottom + 44)
    return '\n'.join(parts + ['</svg>']) + '\n'
