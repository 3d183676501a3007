"""Charts of horizontal bars, as SVG for light and dark pages."""
import textwrap
from html import escape
from typing import Dict, Iterator, List, NamedTuple, Sequence

# All lengths are in the units of the drawing, which are pixels unless it is scaled.
WIDTH, MARGIN = 760, 20
# The height of a bar, and the distances of bars, of groups and of lines of text.
BAR, PITCH, GROUP_GAP = 13, 17, 11
TITLE_LINE, PANEL_LINE, NOTE_LINE = 24, 28, 17
# The widths of the column of names, and of the texts after the longest bar.
NAMES, TEXTS = 148, 168
# About the width of a letter of the legend, and the letters of a line of notes.
LETTER, NOTE_LETTERS = 7, 112
# From the middle of a bar down to the baseline of its text, and from its end to its text.
HALF_LETTER, SPACE = 4.5, 6

# The kinds of bars are the classes ours, tested (ours, which first tests its image) and mecab. Page
# and texts have GitHub's colors.
STYLE = """text { font: 13px system-ui, -apple-system, "Segoe UI", "Noto Sans", sans-serif }
.title { font-size: 16px; font-weight: 600 }
.panel { font-weight: 600 }
.note { font-size: 12px }
.page { fill: #ffffff }
text { fill: #1f2328 }
text.note { fill: #59636e }
.axis { stroke: #818b98 }
.ours { fill: #0550ae }
.tested { fill: #54a3f8 }
.mecab { fill: #8c959f }
@media (prefers-color-scheme: dark) {
  .page { fill: #0d1117 }
  text { fill: #f0f6fc }
  text.note { fill: #9198a1 }
  .axis { stroke: #656c76 }
  .ours { fill: #79c0ff }
  .tested { fill: #1f6feb }
  .mecab { fill: #7d8590 }
}"""


class Bar(NamedTuple):
    """A bar from 0 to `value`, with a text after it.

    `kind` is its class in STYLE. A thin line leads on to `reach`, if that is more than `value`.
    """

    kind: str
    value: float
    text: str
    reach: float = 0

    def end(self) -> float:
        return max(self.value, self.reach)


class Group(NamedTuple):
    """Bars that are compared with each other, under one name."""

    name: str
    bars: List[Bar]


class Panel(NamedTuple):
    """Groups on one scale."""

    title: str
    groups: List[Group]


class Chart(NamedTuple):
    """A drawing. `legend` has the kinds of its bars, with what each means."""

    title: str
    legend: Dict[str, str]
    panels: List[Panel]
    notes: List[str]


def drawn_text(x: float, y: float, words: str, kind: str = "plain") -> str:
    return f'<text class="{kind}" x="{x:.1f}" y="{y:.1f}">{escape(words)}</text>'


def drawn_line(x: float, y: float, to_x: float, to_y: float) -> str:
    ends = f'x1="{x:.1f}" y1="{y:.1f}" x2="{to_x:.1f}" y2="{to_y:.1f}"'
    return f'<line class="axis" {ends}/>'


def drawn_rectangle(kind: str, x: float, y: float, width: float, height: float) -> str:
    place = f'x="{x:.1f}" y="{y:.1f}" width="{width:.1f}" height="{height}"'
    return f'<rect class="{kind}" {place}/>'


def drawn_bar(bar: Bar, x: float, y: float, scale: float) -> Iterator[str]:
    """Yields the elements of a bar whose upper left corner is at (x, y)."""
    middle, width, end = y + BAR / 2, bar.value * scale, bar.end() * scale
    yield drawn_rectangle(bar.kind, x, y, width, BAR)
    if bar.reach > bar.value:
        yield drawn_line(x + width, middle, x + end, middle)
    yield drawn_text(x + end + SPACE, middle + HALF_LETTER, bar.text)


def height_of(groups: Sequence[Group]) -> int:
    return sum(len(group.bars) * PITCH + GROUP_GAP for group in groups)


def drawn_groups(groups: Sequence[Group], y: float) -> Iterator[str]:
    """Yields the elements of groups whose first bar starts at height `y`."""
    x, top, bottom = MARGIN + NAMES, y - 3, y + height_of(groups) - GROUP_GAP
    longest = max((bar.end() for group in groups for bar in group.bars), default=1)
    scale = (WIDTH - MARGIN - TEXTS - x) / longest
    for group in groups:
        middle = y + (len(group.bars) * PITCH - (PITCH - BAR)) / 2
        yield drawn_text(MARGIN, middle + HALF_LETTER, group.name)
        for bar in group.bars:
            yield from drawn_bar(bar, x, y, scale)
            y += PITCH
        y += GROUP_GAP
    yield drawn_line(x, top, x, bottom)


def drawn_legend(legend: Dict[str, str], y: float) -> Iterator[str]:
    x: float = MARGIN
    for kind, words in legend.items():
        yield drawn_rectangle(kind, x, y - BAR + 2, BAR, BAR)
        yield drawn_text(x + BAR + SPACE, y, words)
        x += BAR + 4 * SPACE + LETTER * len(words)


def drawing_of(chart: Chart) -> str:
    """Returns the SVG text of a chart."""
    y = MARGIN + 14
    elements = [drawn_text(MARGIN, y, chart.title, "title")]
    y += TITLE_LINE
    elements += drawn_legend(chart.legend, y)
    for panel in chart.panels:
        y += PANEL_LINE
        elements.append(drawn_text(MARGIN, y, panel.title, "panel"))
        y += BAR
        elements += drawn_groups(panel.groups, y)
        y += height_of(panel.groups)
    notes = [textwrap.wrap(note, NOTE_LETTERS, break_on_hyphens=False) for note in chart.notes]
    for line in (line for lines in notes for line in lines):
        y += NOTE_LINE
        elements.append(drawn_text(MARGIN, y, line, "note"))
    height = y + MARGIN
    size = f'width="{WIDTH}" height="{height}" viewBox="0 0 {WIDTH} {height}"'
    head = f'<svg xmlns="http://www.w3.org/2000/svg" {size} role="img">'
    page = drawn_rectangle("page", 0, 0, WIDTH, height)
    title = f"<title>{escape(chart.title)}</title>"
    return "\n".join([head, title, f"<style>\n{STYLE}\n</style>", page, *elements, "</svg>\n"])
