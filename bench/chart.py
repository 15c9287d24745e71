"""Draws how the times of calls are to those of other maps: dots on a logarithmic scale, with a line at 1. bench/pages uses it."""
from math import log

# How far apart dots stand one below the other, where the scale begins and ends, where figures begin, and how wide all is.
STEP, LEFT, RIGHT, FIGURES, WIDE = 14, 185, 595, 607, 745
COLOURS = ["#4a8fe7", "#e08e2b", "#3f9d6b"]
GREY = "#767676"

# Where the scale may begin and end, and has lines; and for how many of them there is room for a figure each. Else powers of ten have one.
TICKS = [float(f"{figure}e{power}") for power in range(-6, 7) for figure in (1, 2, 5)]
MOST_FIGURES = 13


class Scale:
    """The scale on which all these figures lie."""

    def __init__(self, figures: list):
        least = max(it for it in TICKS if it < min(figures))
        most = min(it for it in TICKS if it > max(figures))
        self.ticks = [it for it in TICKS if least <= it <= most]
        self.told = [it for it in self.ticks if len(self.ticks) <= MOST_FIGURES or f"{it:e}".startswith("1")]

    def at(self, figure: float) -> float:
        """How far to the right a figure stands."""
        low, high = log(self.ticks[0]), log(self.ticks[-1])
        return LEFT + (log(figure) - low) / (high - low) * (RIGHT - LEFT)


def text_at(x: float, y: float, words: str, anchor: str = "start") -> str:
    return f'<text x="{x:.0f}" y="{y:.0f}" text-anchor="{anchor}">{words}</text>'


def dot_at(x: float, y: float, colour: str) -> str:
    return f'<circle cx="{x:.1f}" cy="{y:.1f}" r="4" fill="{colour}"/>'


def span_at(x: float, upto: float, y: float, colour: str) -> str:
    return f'<path d="M{x:.1f} {y:.1f}H{upto:.1f}" stroke="{colour}" stroke-width="1.5"/>'


def line_at(x: float, top: int, bottom: int, rest: str) -> str:
    return f'<path d="M{x:.1f} {top}V{bottom}" stroke="{GREY}" {rest}/>'


def legend(series: list, y: int) -> list:
    """What the colours tell."""
    parts, x = [], LEFT
    for colour, name in zip(COLOURS, series):
        parts += [dot_at(x + 5, y - 4, colour), text_at(x + 15, y, name)]
        x += 34 + 7 * len(name)
    return parts


def chart(lines: list, series: list, rows: list) -> str:
    """Dots with a thin line to a worst figure. `lines` is what stands above them; `series` names the dots of a group; a row has a name, and
    for each dot its figure with the worst one, or None where the map has no such call."""
    scale = Scale([1, *(it for _, pairs in rows for pair in pairs if pair for it in pair)])
    top = 18 * len(lines) + 36
    step = STEP * len(series) + 10
    bottom = top + step * len(rows)
    parts = [text_at(8, 18 * place + 16, words) for place, words in enumerate(lines)] + legend(series, top - 14)
    parts += [line_at(scale.at(it), top - 6, bottom, 'stroke-opacity="0.25"') for it in scale.ticks]
    for place, (name, pairs) in enumerate(rows):
        begin = top + step * place
        parts.append(text_at(LEFT - 8, begin + (STEP * len(series) + 7) / 2, name, "end"))
        for y, colour, of, pair in zip(range(begin, bottom, STEP), COLOURS, series, pairs):
            told = f"{of}: no such call"
            if pair:
                figure, worst = scale.at(pair[0]), scale.at(pair[1])
                parts += [span_at(figure, worst, y + STEP / 2, colour), dot_at(figure, y + STEP / 2, colour)]
                told = f"{pair[0]:.2f}, worst {pair[1]:.2f}"
            parts.append(text_at(FIGURES, y + STEP - 3, told))
    parts.append(line_at(scale.at(1), top - 6, bottom, 'stroke-width="1.5" stroke-dasharray="4 3"'))
    parts += [text_at(scale.at(it), bottom + 14, f"{it:g}", "middle") for it in scale.told]
    style = f"text{{font:12px sans-serif;fill:{GREY}}}@media(prefers-color-scheme:dark){{text{{fill:#b8b8b8}}}}"
    size = f'width="{WIDE}" height="{bottom + 22}" viewBox="0 0 {WIDE} {bottom + 22}"'
    head = f'<svg xmlns="http://www.w3.org/2000/svg" {size} role="img">'
    return "\n".join([head, f"<title>{' '.join(lines)}</title>", f"<style>{style}</style>", *parts, "</svg>", ""])
