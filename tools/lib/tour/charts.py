"""Charts: how a count changes from command to command, for several values of one size of the world."""
import re
from typing import List, NamedTuple, Tuple

from .. import program, tool
from ..inputs.session import Session
from ..pictures import svg
from .lessons import Lesson

SIZES = {"regions": 1, "frames": 2, "registers": 3, "levels": 4, "rate": 5}
COUNTS = {"left": "left", "page calls": "calls"}        # the line of lispm_inside whose numbers are added
LABELS = {"left": "units not yet scanned", "page calls": "page calls, written and read"}
COLOURS = [svg.VERMILION, svg.BLUE, svg.GREEN, svg.PURPLE]
LEFT, TOP, WIDTH, HEIGHT, STEP = 60, 50, 620, 260, 20


class Chart(NamedTuple):
    """A count, a size with its values, the commands, and for each value the count after each command."""
    counted: str
    size: str
    values: List[int]
    commands: List[str]
    rows: List[List[int]]


def read_mark(mark: str) -> Tuple[str, str, List[int]]:
    """The count, the size and its values, of `chart COUNT, SIZE N ..`."""
    count, _, rest = mark[len("chart "):].partition(", ")
    size, *values = rest.split(" ")
    if count not in COUNTS or size not in SIZES:
        raise tool.ToolError(f"not a chart: {mark}")
    return count, size, [int(value) for value in values]


def with_size(trace: Session, size: str, value: int) -> Session:
    """The session in a world that has this value of the size."""
    def changed(text: str) -> str:
        words = text.split(" ")
        return " ".join(words[:SIZES[size]] + [str(value)] + words[SIZES[size] + 1:]) if words[0] == "space" else text
    return trace._replace(header=[line._replace(text=changed(line.text)) for line in trace.header])


def count_of(output: bytes, head: str) -> int:
    """The sum of the numbers on the line of lispm_inside that begins with `head`. The words of memory aren't parsed for it."""
    found = re.search(rf"^{head} (.*)$", output.decode("latin-1"), re.M)
    if found is None:
        raise tool.ToolError("the session of a chart was not answered completely", tool.WRONG)
    return sum(int(word) for word in found.group(1).split(" ") if word.isdigit())


def row(trace: Session, count: str, inside: str) -> List[int]:
    """The count after each command."""
    cuts = [trace.cut(number) for number in range(1, len(trace.commands) + 1)]
    return [count_of(program.run(inside, [], cut.text()).output, COUNTS[count]) for cut in cuts]


def made(lesson: Lesson, mark: str, inside: str) -> Chart:
    count, size, values = read_mark(mark)
    trace = lesson.session
    rows = []
    for value in values:
        tool.progress(f"{size} {value}")
        rows.append(row(with_size(trace, size, value), count, inside))
    tool.end_progress()
    return Chart(count, size, values, [command.text for command in trace.commands], rows)


def text(chart: Chart) -> List[str]:
    """A table: a line for each command, a column for each value of the size."""
    heads = "".join(f"{chart.size} {value}".rjust(12) for value in chart.values)
    lines = [f"{LABELS[chart.counted]}", f"    {'':24}{heads}"]
    for command, counts in zip(chart.commands, zip(*chart.rows)):
        lines.append(f"    {command:24}" + "".join(f"{count:>12}" for count in counts))
    return lines


def across(at: int, count: int) -> float:
    return LEFT + WIDTH * at / max(1, count)


def down(value: int, most: int) -> float:
    return TOP + HEIGHT - HEIGHT * value / max(1, most)


def line_pieces(chart: Chart, at: int, most: int) -> List[str]:
    """The line of one value, and its entry in the legend."""
    colour, counts = COLOURS[at % len(COLOURS)], chart.rows[at]
    points = " ".join(f"{across(n, len(counts)):.1f},{down(value, most):.1f}" for n, value in enumerate(counts, 1))
    dash = ["", "8 3", "3 3", "8 3 2 3"][at % 4]
    style = f'fill="none" stroke="{colour}" stroke-width="2" stroke-dasharray="{dash}"'
    y = TOP + 14 + at * STEP
    sample = f"{LEFT + WIDTH + 20},{y - 4} {LEFT + WIDTH + 60},{y - 4}"
    return [f'<polyline points="{points}" {style}/>', f'<polyline points="{sample}" {style}/>',
            svg.text(LEFT + WIDTH + 66, y, f"{chart.size} {chart.values[at]}")]


def command_pieces(chart: Chart) -> List[str]:
    """The commands below the chart, rotated."""
    pieces = []
    for n, command in enumerate(chart.commands, 1):
        x, y = across(n, len(chart.commands)), TOP + HEIGHT + 14
        pieces.append(svg.text(x, y, command, "small", f'text-anchor="end" transform="rotate(-50 {x:.1f} {y})"'))
    return pieces


def ticks(most: int) -> List[int]:
    """Round numbers from 0 on, at most six: multiples of 1, 2 or 5 times a power of ten."""
    steps = (digit * 10 ** power for power in range(10) for digit in (1, 2, 5))
    return list(range(0, most + 1, next(step for step in steps if most <= 5 * step)))


def scale_pieces(most: int) -> List[str]:
    """Horizontal lines at round numbers, each with its number."""
    pieces = []
    for value in ticks(most):
        y = down(value, most)
        pieces += [f'<path d="M{LEFT},{y:.1f} h{WIDTH}" stroke="#DDDDDD"/>',
                   svg.text(LEFT - 6, y + 4, str(value), "small", 'text-anchor="end"')]
    return pieces


def title(count: str, size: str, values: List[int]) -> str:
    return f"{LABELS[count]} after each command, {size} {', '.join(map(str, values))}"


def drawing(chart: Chart) -> str:
    """The chart as an SVG."""
    most = max(max(counts) for counts in chart.rows)
    head = title(chart.counted, chart.size, chart.values)
    pieces = [svg.text(LEFT, 26, head, "big")] + scale_pieces(most) + command_pieces(chart)
    for at in range(len(chart.values)):
        pieces += line_pieces(chart, at, most)
    return svg.page(LEFT + WIDTH + 180, TOP + HEIGHT + 120, head, "\n".join(text(chart)), pieces)
