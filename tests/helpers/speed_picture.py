"""The tables of docs/PERFORMANCE.md as they are read, and the picture that is drawn from them, for tests/speed.

A table is a list of rows, a row its cells by their heads; the first cell is the row's name. A figure that has a goal is
bold. The picture is the text of an SVG, and depends on the tables alone: a bar for each ratio of times that has a goal, and
on it a mark for the ratio of instructions.
"""
import dataclasses
import html
import math
import re

BOLD = "**"
NUMBER = re.compile(r"\d{1,3}(,\d{3})*(\.\d+)?")
RATIO_GOAL = 1.0  # the most that a ratio of times may be

# Groups of bars: the heading, the table, the head of the ratios, and those of the instructions on both sides.
GROUPS = (
    (
        "Event sheets, beside the Rust",
        "Event sheets",
        "port / Rust",
        ("port: instructions a line", "Rust: instructions a line"),
    ),
    (
        "Bundles, beside the Rust",
        "Bundles",
        "port / Rust",
        ("port: instructions a clause", "Rust: instructions a clause"),
    ),
    (
        "Bundles, beside a call each",
        "Bundles",
        "port / a call each",
        ("port: instructions a clause", "a call each: instructions a clause"),
    ),
)

# In pixels: columns and lines of text, from the left and from the top, and the sizes of what is drawn.
WIDTH = 820
MARGIN = 16
NAMES_END, RATIOS_END, BARS_START, BARS_END = 200, 244, 258, WIDTH - 24
TITLE_AT, LEGEND_AT, AXIS_AT, BARS_AT = 28, 54, 84, 84
LEGEND_STEP, LEGEND_GAP = 200, 8
HEADING, HEADING_FOOT = 26, 18
CORNER = 6  # of the panel, rounded
ROW, BAR = 20, 12
MARK = 4.5  # from its middle to its corners
DROP = 4.5  # from the middle of a letter to its foot

GRID = 5  # lines for a ratio of 1
LEAST_LINES = 6  # so that the axis goes beyond the goal

TITLE = "Time of the library beside the original Rust, as a ratio; shorter is better"
LEGEND = (("met", "time, meets the goal"), ("missed", "time, misses the goal"))
MARK_LEGEND = "instructions, the same ratio"
LIGHT = {"panel": "#ffffff", "text": "#1f2328", "quiet": "#59636e", "grid": "#d8dee4", "met": "#6ea3dc", "missed": "#e8772e"}
DARK = {"panel": "#0d1117", "text": "#e6edf3", "quiet": "#9aa4af", "grid": "#30363d", "met": "#3d74b8", "missed": "#d9661f"}
COLOURS = """\
.panel {{ fill: {panel} }} text {{ fill: {text} }} .quiet {{ fill: {quiet} }}
.grid {{ stroke: {grid} }} .goal {{ stroke: {text} }} .mark {{ fill: {text}; stroke: {panel} }}
.met {{ fill: {met} }} .missed {{ fill: {missed} }}"""
STYLE = f"""\
text {{ font: 13px sans-serif }} .strong {{ font-weight: bold }} .end {{ text-anchor: end }} .middle {{ text-anchor: middle }}
.goal {{ stroke-width: 2 }}
{COLOURS.format(**LIGHT)}
@media (prefers-color-scheme: dark) {{
{COLOURS.format(**DARK)}
}}"""


# ---- Tables


def cells_of(line):
    return [cell.strip() for cell in line.strip().strip("|").split("|")]


def table_of(lines):
    """The table that stands in lines of a page."""
    heads, *others = map(cells_of, lines)
    rows = others[1:]  # a line of dashes stands before them
    return [dict(zip(heads, row, strict=True)) for row in rows]


def name_of(row):
    return next(iter(row.values()))


def has_goal(cell):
    return cell.startswith(BOLD)


def is_figure(cell):
    bare = cell.strip(BOLD)
    return cell in (bare, BOLD + bare + BOLD) and NUMBER.fullmatch(bare) is not None


def figure(cell):
    return float(cell.strip(BOLD).replace(",", ""))


def unrounded(cell):
    """The least and the most that a figure may have been before it was rounded: up where it has a goal, else to the nearest."""
    _, _, places = cell.strip(BOLD).partition(".")
    unit = 10 ** -len(places)
    return (figure(cell) - unit, figure(cell)) if has_goal(cell) else (figure(cell) - unit / 2, figure(cell) + unit / 2)


# ---- Bars


@dataclasses.dataclass
class Bar:
    """A row's name, its ratio of times as it is written and as a number, and its ratio of instructions."""

    name: str
    written: str
    time: float
    instructions: float

    def kind(self):
        return "missed" if self.time > RATIO_GOAL else "met"


def bars(table, ratio, sides):
    """A bar for each row of a table whose ratio has a goal."""
    found = []
    for row in table:
        port, other = (figure(row[head]) for head in sides)
        if has_goal(row[ratio]):
            found.append(Bar(name_of(row), row[ratio].strip(BOLD), figure(row[ratio]), port / other))
    return found


# ---- Drawing


def text(x, y, words, kind="plain"):
    return f'<text x="{x:g}" y="{y:g}" class="{kind}">{html.escape(words)}</text>'


def upright(x, bottom, kind):
    """A line from below its number on."""
    return f'<path d="M{x:.1f} {AXIS_AT + MARK}V{bottom}" class="{kind}"/>'


def block(x, middle, width, kind):
    return f'<rect x="{x:g}" y="{middle - BAR / 2:g}" width="{width:.1f}" height="{BAR}" class="{kind}"/>'


def mark(x, middle):
    return f'<path d="M{x - MARK:.1f} {middle:g}l{MARK} {-MARK}l{MARK} {MARK}l{-MARK} {MARK}z" class="mark"/>'


def legend():
    """What the colours and the mark mean."""
    drawn, middle, places = [], LEGEND_AT - DROP, range(MARGIN, WIDTH, LEGEND_STEP)
    for x, (kind, words) in zip(places, LEGEND):
        drawn += [block(x, middle, BAR, kind), text(x + BAR + LEGEND_GAP, LEGEND_AT, words)]
    x = places[len(LEGEND)]
    return [*drawn, mark(x + BAR / 2, middle), text(x + BAR + LEGEND_GAP, LEGEND_AT, MARK_LEGEND)]


def drawn_bar(bar, across, middle):
    """A bar with its mark, its name and its ratio."""
    foot, kind = middle + DROP, "strong end" if bar.kind() == "missed" else "end"
    return [
        text(NAMES_END, foot, bar.name, kind),
        text(RATIOS_END, foot, bar.written, kind),
        block(BARS_START, middle, across(bar.time) - BARS_START, bar.kind()),
        mark(across(bar.instructions), middle),
    ]


def drawn_groups(groups, across):
    """Each group under its heading, and how far down that goes."""
    drawn, at = [], BARS_AT
    for heading, group in groups:
        drawn.append(text(MARGIN, at + HEADING_FOOT, heading, "strong"))
        at += HEADING
        for bar in group:
            drawn += drawn_bar(bar, across, at + ROW / 2)
            at += ROW
    return drawn, at


def described(groups):
    """The picture in words."""
    missed = [f"{bar.name} {bar.written}" for _, group in groups for bar in group if bar.kind() == "missed"]
    each = [f"{heading}: {'; '.join(f'{bar.name} {bar.written}' for bar in group)}." for heading, group in groups]
    return " ".join([f"Ratios of times, the goal being at most {RATIO_GOAL}. Above it: {'; '.join(missed) or 'none'}.", *each])


def picture(tables):
    """The picture of tables, which are given by their titles."""
    groups = [(heading, bars(tables[title], ratio, sides)) for heading, title, ratio, sides in GROUPS]
    longest = max(max(bar.time, bar.instructions) for _, group in groups for bar in group)
    lines = max(LEAST_LINES, math.ceil(longest * GRID))

    def across(ratio):
        return BARS_START + (BARS_END - BARS_START) * ratio * GRID / lines

    drawn, bottom = drawn_groups(groups, across)
    height, goal = bottom + MARGIN, across(RATIO_GOAL)
    parts = [
        f'<svg xmlns="http://www.w3.org/2000/svg" width="{WIDTH}" height="{height}" viewBox="0 0 {WIDTH} {height}"'
        ' role="img" aria-labelledby="title words">',
        f'<title id="title">{TITLE}</title>',
        f'<desc id="words">{html.escape(described(groups))}</desc>',
        f"<style>\n{STYLE}\n</style>",
        f'<rect width="{WIDTH}" height="{height}" rx="{CORNER}" class="panel"/>',
        text(MARGIN, TITLE_AT, TITLE, "strong"),
        *legend(),
    ]
    for ratio in (number / GRID for number in range(lines + 1) if number != GRID):
        parts += [upright(across(ratio), bottom, "grid"), text(across(ratio), AXIS_AT, f"{ratio:.1f}", "quiet middle")]
    parts += [text(goal, AXIS_AT, f"goal {RATIO_GOAL}", "strong middle"), *drawn, upright(goal, bottom, "goal")]
    return "\n".join([*parts, "</svg>", ""])
