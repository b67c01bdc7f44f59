"""The two pictures of docs/SCALE.md: what a year costs by the number of names, and where it goes.

The colours are readable on a light and on a dark page.
"""
import html
import math

from scale_page import ASKED, DAILY, HOURLY, NAMES, SHARES, SIZES, YEARS, cost, shares, short, whole

# For each look its colour on a light page and on a dark one.
LOOKS = {
    "a": ("#0b5cad", "#79b8ff"), "b": ("#b85c00", "#f0a35e"), "c": ("#1e6b34", "#6fd58a"), "d": ("#b3261e", "#ff8f85"),
    "e": ("#7b3fa0", "#d2a8ff"), "f": ("#6b7178", "#9aa4ae"),
}
PLAIN = [
    (".paper", "fill", "#ffffff", "#0d1117"), (".name", "fill", "#1a1a1a", "#f0f3f6"),
    (".note", "fill", "#555555", "#b8bfc7"), (".rule", "stroke", "#d5dade", "#30363d"), (".on", "fill", "#ffffff", "#0d1117"),
]
FONTS = """
    text { font: 12px sans-serif }
    .name { font-weight: 600; font-size: 14px }
    .word, .on { font-weight: 600 }
    .middle { text-anchor: middle }
    .end { text-anchor: end }
    .line { stroke-width: 2.2; fill: none }
    .dashed { stroke-dasharray: 6 4 }"""


def rules(page):
    """The rules of the style sheet for the light page, 0, or the dark one, 1."""
    found = [f"{who} {{ {what}: {pair[page]} }}" for who, what, *pair in PLAIN]
    for look, pair in LOOKS.items():
        found.append(f".{look}.line {{ stroke: {pair[page]} }} .{look}.word, .{look}.bar {{ fill: {pair[page]} }}")
    return found


def picture(width, height, title, parts):
    light, dark = ("".join(f"\n    {rule}" for rule in rules(page)) for page in (0, 1))
    label = html.escape(title)
    front = [
        f'<svg xmlns="http://www.w3.org/2000/svg" viewBox="0 0 {width} {height}" width="{width}" height="{height}"'
        f' role="img" aria-label="{label}">',
        f"  <style>{FONTS}{light}\n    @media (prefers-color-scheme: dark) {{{dark}\n    }}\n  </style>",
        f'  <rect class="paper" width="{width}" height="{height}"/>',
    ]
    return "\n".join([*front, *parts, "</svg>"]) + "\n"


def text(x, y, words, looks):
    return f'  <text class="{looks}" x="{x:.1f}" y="{y:.1f}">{html.escape(words, quote=False)}</text>'


def rule(x, y, to_x, to_y, looks="rule"):
    return f'  <path class="{looks}" d="M{x:.1f},{y:.1f} L{to_x:.1f},{to_y:.1f}"/>'


# What a year costs.

LEFT, RIGHT, TOP, BOTTOM = 74, 590, 74, 384
LEAST, MOST = -5, 3  # powers of ten of processors


def across(names):
    first, last = math.log10(SIZES[0]), math.log10(SIZES[-1])
    return LEFT + (math.log10(names) - first) / (last - first) * (RIGHT - LEFT)


def up(processors):
    return BOTTOM - (math.log10(processors) - LEAST) / (MOST - LEAST) * (BOTTOM - TOP)


def power(exponent):
    return whole(10 ** exponent) if exponent >= 0 else f"{10.0 ** exponent:.{-exponent}f}"


def axes():
    parts = []
    for exponent in range(LEAST, MOST + 1):
        y = up(10.0 ** exponent)
        parts += [rule(LEFT, y, RIGHT, y), text(LEFT - 8, y + 4, power(exponent), "note end")]
    for names in (SIZES[0], 10 ** 4, 10 ** 5, 10 ** 6, 10 ** 7, 10 ** 8, SIZES[-1]):
        x = across(names)
        words = short(names).replace(" million", "M") if names >= 10 ** 6 else whole(names)
        parts += [rule(x, TOP, x, BOTTOM), text(x, BOTTOM + 18, words, "note middle")]
        parts.append(text(x, TOP - 8, whole(math.ceil(names / NAMES)), "note middle"))
    middle = (LEFT + RIGHT) / 2
    return parts + [text(middle, BOTTOM + 38, "names", "note middle"),
                    text(middle, TOP - 26, "tables, each with logs, authorities and keys of its own", "note middle")]


def cost_picture():
    lines = [("a", "", HOURLY, 1, "each hour: logs,", "authorities, owners"), ("a", "dashed", HOURLY, 2, "each hour: browsers", ""),
             ("b", "", DAILY, 1, "each day: logs,", "authorities, owners"), ("b", "dashed", DAILY, 2, "each day: browsers", "")]
    parts = [text(16, 26, "Processors that are busy the year round, where each name is confirmed once in each epoch", "name")]
    parts += axes()
    for look, dashed, title, place, words, more in lines:
        ends = [(across(names), up(cost(title, names)[place])) for names in (SIZES[0], SIZES[-1])]
        parts.append(rule(*ends[0], *ends[1], f"{look} line {dashed}".strip()))
        amount = short(cost(title, SIZES[-1])[place])
        y = ends[1][1] + (0 if more else 4)
        parts.append(text(RIGHT + 8, y, f"{amount}, {words}", f"{look} word"))
        if more:
            parts.append(text(RIGHT + 8, y + 14, more, f"{look} word"))
    title = f"A year of 350 million names takes {short(cost(HOURLY, SIZES[-1]).processors)} processors with epochs of an hour"
    return picture(800, 440, title, parts)


# Where it goes.

HIGH, ROW, BAR, FIRST, WIDE = 68, 40, 24, 236, 520


def share_picture():
    parts = [text(16, 26, "Where the cost of a year goes, in parts of 100; browsers are counted too", "name"),
             text(FIRST - 10, HIGH - 12, ASKED, "note end")]
    for place, title in enumerate(YEARS):
        y, x = HIGH + place * ROW, FIRST
        parts.append(text(FIRST - 10, y + BAR / 2 + 4, title, "note end"))
        for look, share in zip(LOOKS, shares(title)):
            width = share * WIDE
            parts.append(f'  <rect class="{look} bar" x="{x:.1f}" y="{y}" width="{width:.1f}" height="{BAR}"/>')
            if share > 0.04:
                parts.append(text(x + width / 2, y + BAR / 2 + 4, f"{100 * share:.0f}", "on middle"))
            x += width
    bottom = HIGH + len(YEARS) * ROW + 8
    for place, (look, what) in enumerate(zip(LOOKS, SHARES)):
        x, y = 40 + place % 3 * 250, bottom + place // 3 * 24
        parts += [f'  <rect class="{look} bar" x="{x}" y="{y}" width="14" height="14"/>', text(x + 22, y + 12, what, "note")]
    title = "The greatest part of the cost of a year is the verifying of signatures; then come keys, and signatures made"
    return picture(780, bottom + 62, title, parts)


PICTURES = {"scale-cost.svg": cost_picture, "scale-share.svg": share_picture}
