"""Pictures as SVG that loads nothing. On a dark screen they are dark."""
from __future__ import annotations

from html import escape
from itertools import groupby
from typing import NamedTuple

from .timeline import BINS, BROKEN, COLOURS, Mark, Scene, Shade, Strip, View

_WIDTH, _LANE, _LETTER, _BOLD = 1000, 26, 6.4, 7.7
#: The room at both ends of a lane, so that rings are not cut; the room right of the lanes, where an overview has the number of events;
#: and the height of a lane in an overview.
_PAD, _RIGHT, _RIGHT_OF_STRIP, _STRIP_LANE = 12, 20, 80, 15
#: Longer names are cut in the middle.
_NAME = 44
#: Up to six breaks have a label with the name of their row. If there are more, labels have numbers.
NAMED = 6
#: Numbered breaks that are closer than this share a label.
_NEAR = 60
#: The number of shades of grey in an overview.
_LEVELS = 4
#: The colours on a dark screen. Attributes have those for a light one.
STYLE = ("@media screen and (prefers-color-scheme: dark) { .dk-back { fill: #16181d } .dk-grid { stroke: #3a3f47 } .dk-line { stroke: #6b7280 } "
         ".dk-text { fill: #d7dbe2 } .dk-event { stroke: #f3f4f6 } .dk-many { fill: #d7dbe2 } .dk-broken { stroke: #ff6b7d } "
         ".dk-say { fill: #ff8a98; stroke: #16181d } .dk-ring { stroke: #ff6b7d } }")


def short(name: str, most: int = _NAME) -> str:
    """A name that is cut in the middle if it is longer than ``most``."""
    return name if len(name) <= most else f"{name[: most * 2 // 3]}\u2026{name[-(most - most * 2 // 3 - 1):]}"


def colour_of(row: int) -> str:
    """The colour of a row's stretches."""
    return COLOURS[row % len(COLOURS)]


class _Label(NamedTuple):
    """A label for some breaks. ``left`` says that it stands left of their line, ``level`` in which line of labels."""

    marks: list[Mark]
    text: str
    left: bool
    level: int


class _Canvas:
    """What all pictures have: lanes with their names at the left, labels of the breaks above and the axis below."""

    def __init__(self, view: View, names: list[str], lane: int, right: int, links: str):
        self.view, self.names, self.lane, self.links = view, names, lane, links
        longest = max((len(short(name)) for name in names), default=8)
        self.left = min(max(round(longest * _LETTER) + 20, 90), 330)
        self.right = _WIDTH - right
        self.inner = self.right - self.left
        self.labels = self._placed(view.marks)
        self.top = 34 + 15 * max((label.level + 1 for label in self.labels), default=0)
        self.bottom = self.top + lane * len(names)
        self.height = self.bottom + 44

    def x(self, time: float) -> float:
        """The horizontal place of a time."""
        inner = self.inner - 2 * _PAD
        scale = inner / (self.view.end - self.view.begin)
        return round(self.left + _PAD + min(max((time - self.view.begin) * scale, 0), inner), 1)

    def middle(self, lane: int) -> int:
        """The height of a lane."""
        return self.top + self.lane * lane + self.lane // 2

    def lanes(self) -> list[str]:
        """The names of the lanes, and their lines."""
        out = []
        for lane, name in enumerate(self.names):
            cut = f"<title>{escape(name)}</title>" if short(name) != name else ""
            out.append(f"<text class='dk-text' x='{self.left - 10}' y='{self.middle(lane) + 4}' text-anchor='end' fill='#111'>"
                       f"{escape(short(name))}{cut}</text>")
            out.append(f"<path class='dk-line' d='M{self.left} {self.middle(lane)} H{self.right}' stroke='#999' stroke-width='.6'/>")
        return out

    def axis(self) -> list[str]:
        """The numbers below the lanes, with lines up from them."""
        numbers, name = self.view.axis()
        out = []
        for time, number in numbers:
            at = self.x(time)
            out.append(f"<path class='dk-grid' d='M{at} {self.top} V{self.bottom + 4}' stroke='#ddd'/>")
            out.append(f"<text class='dk-text' x='{at}' y='{self.bottom + 17}' text-anchor='middle' fill='#444'>{number}</text>")
        out.append(f"<text class='dk-text' x='{self.right}' y='{self.bottom + 32}' text-anchor='end' fill='#444'>{escape(name)}</text>")
        if self.view.caption:
            out.append(f"<text class='dk-text' x='20' y='{self.bottom + 32}' font-weight='bold' fill='#444'>{escape(self.view.caption)}</text>")
        return out

    def _groups(self, marks: list[Mark]) -> list[list[Mark]]:
        """The breaks in groups that share a label. If there are few breaks, each has its own."""
        groups: list[list[Mark]] = []
        for mark in marks:
            if len(marks) > NAMED and groups and self.x(mark.time) - self.x(groups[-1][0].time) < _NEAR:
                groups[-1].append(mark)
            else:
                groups.append([mark])
        return groups

    def _placed(self, marks: list[Mark]) -> list[_Label]:
        """The labels of the breaks, placed so that none covers another."""
        found: list[_Label] = []
        taken: list[list[tuple[float, float]]] = []
        for group in self._groups(marks):
            at = self.x(group[0].time)
            left = at > _WIDTH / 2
            text = self._text(group, len(marks) <= NAMED, (at if left else _WIDTH - at) - 10)
            width = len(text) * _BOLD + 10
            begin, end = (at - width, at) if left else (at, at + width)
            level = next((level for level, others in enumerate(taken) if all(end <= one or two <= begin for one, two in others)), len(taken))
            taken += [[]] if level == len(taken) else []
            taken[level].append((begin, end))
            found.append(_Label(group, text, left, level))
        return found

    def _text(self, group: list[Mark], named: bool, room: float) -> str:
        """The text of a label that fits the room."""
        if not named:
            return f"row {group[0].row}" if len(group) == 1 else f"{len(group)} rows"
        time = f", {self.view.time_format.at(group[0].time)}"
        return short(group[0].label, max(int(room / _BOLD) - len(time), 12)) + time

    def marks(self) -> list[str]:
        """The breaks: first all lines, then all labels on top of them."""
        lines, labels = [], []
        for group, text, left, level in self.labels:
            at, y = self.x(group[0].time), 18 + 15 * level
            lines += [self._linked(mark, f"<path class='dk-broken' d='M{self.x(mark.time)} {y - 8} V{self.bottom}' stroke='{BROKEN}' "
                                         f"stroke-width='1.4' stroke-dasharray='4 2'>{self._tip([mark])}</path>") for mark in group]
            place = f"x='{round(at + (-5 if left else 5), 1)}' y='{y}' text-anchor='{'end' if left else 'start'}'"
            labels.append(self._linked(group[0], f"<text class='dk-say' {place} fill='{BROKEN}' font-weight='bold' paint-order='stroke' "
                                                 f"stroke='white' stroke-width='4'>{escape(text)}{self._tip(group)}</text>"))
        return lines + labels

    def _tip(self, group: list[Mark]) -> str:
        """The tooltip of some breaks."""
        return "<title>" + escape("\n".join(f"{mark.label}, {self.view.time_format.at(mark.time)}" for mark in group)) + "</title>"

    def _linked(self, mark: Mark, drawn: str) -> str:
        return f"<a href='{escape(self.links)}{mark.row}'>{drawn}</a>" if self.links else drawn

    def drawn(self, parts: list[list[str]], style: bool) -> str:
        """The SVG element with these parts."""
        head = (f"<svg xmlns='http://www.w3.org/2000/svg' viewBox='0 0 {_WIDTH} {self.height}' role='img' "
                "font-family='DejaVu Sans, Verdana, sans-serif' font-size='11'>")
        out = [head, f"<title>{escape(self.view.title)}</title>", *([f"<style>{STYLE}</style>"] if style else [])]
        out.append(f"<rect class='dk-back' width='{_WIDTH}' height='{self.height}' fill='white'/>")
        return "\n".join([*out, *(line for part in parts for line in part), "</svg>"]) + "\n"


class _Drawing(_Canvas):
    """Events, and the stretches that rows ask for."""

    def __init__(self, picture: Scene, links: str, legend: bool):
        super().__init__(picture, [name for name, _ in picture.lanes], _LANE, _RIGHT, links)
        self.picture = picture
        self.legend = self._legend() if legend else []
        self.height += 16 * (self.legend[-1][1] + 1 if self.legend else 0)

    def events(self) -> list[str]:
        """A stroke for each event, with a ring if a reason names it."""
        out = []
        for lane, (name, times) in enumerate(self.picture.lanes):
            # If there are many events, their strokes are thinner.
            width = 1.8 if len(times) < self.inner / 5 else max(round(0.4 * self.inner / len(times), 1), 0.3)
            for time in times:
                tip = escape(f"{name} at {self.picture.time_format.at(time)}")
                at, middle = self.x(time), self.middle(lane)
                if (lane, time) in self.picture.blamed:
                    out.append(f"<circle class='dk-ring' cx='{at}' cy='{middle}' r='10' fill='none' stroke='{BROKEN}' stroke-width='1.6'/>")
                out.append(f"<path class='dk-event' d='M{at} {middle - 8} v16' stroke='#111' stroke-width='{width}'><title>{tip}</title></path>")
        return out

    def shades(self) -> list[str]:
        """The stretches, in a group for each row."""
        out = []
        for row in self.picture.shaded:
            stretches = [self._shade(shade) for shade in self.picture.shades if shade.row == row]
            out += [f"<g class='row{row}'>", *stretches, "</g>"]
        return out

    def _shade(self, shade: Shade) -> str:
        picture, end = self.picture, self.picture.shown_end(shade)
        colour = BROKEN if shade.broken else colour_of(shade.row)
        opacity = ".35" if shade.broken else ".08" if shade.end is None else ".22"
        width = max(round(self.x(end) - self.x(shade.begin), 1), 1.5)
        upto = " on" if shade.end is None else f" to {picture.time_format.at(shade.end)}"
        # Only the beginning of a stretch without an end is shown, with a dashed border.
        dashed = " stroke-dasharray='2 2'" if shade.end is None else ""
        tip = escape(f"{picture.rows[shade.row]}: from {picture.time_format.at(shade.begin)}{upto}{', nothing came' if shade.broken else ''}")
        return (f"<rect x='{self.x(shade.begin)}' y='{self.top + _LANE * shade.lane + 4}' width='{width}' height='{_LANE - 8}' "
                f"fill='{colour}' fill-opacity='{opacity}' stroke='{colour}' stroke-opacity='.45' stroke-width='.7'{dashed}>"
                f"<title>{tip}</title></rect>")

    def _legend(self) -> list[tuple[int, int, str, str]]:
        """The parts of the legend: column, line, name and colour."""
        parts = [(short(self.picture.rows[row], 30), colour_of(row)) for row in self.picture.shaded]
        if any(shade.broken for shade in self.picture.shades):
            parts.append(("nothing came", BROKEN))
        found, x, line = [], 20, 0
        for name, colour in parts:
            width = round(len(name) * _BOLD) + 34
            if x + width > _WIDTH - 20 and x > 20:
                x, line = 20, line + 1
            found.append((x, line, name, colour))
            x += width
        return found

    def legend_parts(self) -> list[str]:
        """Which colour is which row."""
        out = []
        for x, line, name, colour in self.legend:
            y = self.bottom + 50 + 16 * line
            out.append(f"<rect x='{x}' y='{y - 9}' width='14' height='10' fill='{colour}' fill-opacity='.35' stroke='{colour}'/>")
            out.append(f"<text class='dk-text' x='{x + 19}' y='{y}' fill='#444'>{escape(name)}</text>")
        return out


class _StripDrawing(_Canvas):
    """An overview of a whole log. Darker bins have more events."""

    def __init__(self, strip: Strip, links: str):
        super().__init__(strip, [name for name, _, _ in strip.lanes], _STRIP_LANE, _RIGHT_OF_STRIP, links)
        self.strip = strip

    def bins(self) -> list[str]:
        """The bins of each lane, black for the fullest one, and the number of its events."""
        out = []
        for lane, (name, events, counts) in enumerate(self.strip.lanes):
            levels = [-(-_LEVELS * count // max(counts)) for count in counts]
            tip = escape(f"{name}: {events} events")
            for level in sorted({*levels} - {0}):
                out.append(f"<path class='dk-many' d='{self._runs(lane, levels, level)}' fill='#111' fill-opacity='{level / _LEVELS}'>"
                           f"<title>{tip}</title></path>")
            out.append(f"<text class='dk-text' x='{self.right + 8}' y='{self.middle(lane) + 4}' fill='#444'>{events}</text>")
        return out

    def _runs(self, lane: int, levels: list[int], level: int) -> str:
        """The path of all bins of one level."""
        width, y, place, out = (self.inner - 2 * _PAD) / BINS, self.middle(lane) - 5, 0, ""
        for one, group in groupby(levels):
            length = len(list(group))
            if one == level:
                wide = f"{max(length * width, 1.2):.1f}"
                out += f"M{self.left + _PAD + place * width:.1f} {y}h{wide}v10h-{wide}z"
            place += length
        return out


def svg(picture: Scene, style: bool = True, links: str = "", legend: bool = True) -> str:
    """The picture as one SVG element. A page leaves out the style and the legend, which it has itself, and gives ``links``, the address of
    a row without its number."""
    drawing = _Drawing(picture, links, legend)
    parts = [drawing.axis(), drawing.lanes(), drawing.shades(), drawing.events(), drawing.marks(), drawing.legend_parts()]
    return drawing.drawn(parts, style)


def strip_svg(strip: Strip, links: str = "") -> str:
    """The overview as one SVG element for a page."""
    drawing = _StripDrawing(strip, links)
    return drawing.drawn([drawing.axis(), drawing.lanes(), drawing.bins(), drawing.marks()], False)
