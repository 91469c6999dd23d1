"""A small histogram of the values that a row measured, as SVG. A bar with a value outside the limits is red."""
from __future__ import annotations

from html import escape

from .measured import Described
from .units import shown

_WIDTH, _HEIGHT, _EDGE, _BAR = 140, 34, 5, 14


def histogram_svg(found: Described, unit: str | None) -> str:
    """The histogram and the limits; empty if there are no values. A lower limit of 0 is not drawn."""
    begin, width, counts, outside = (found["histogram"][name] for name in ("begin", "width", "counts", "outside"))
    if not counts:
        return ""
    limits = [limit for limit in (found["lower"], found["upper"]) if limit is not None]
    low, high = min([begin, *limits]) - width, max([begin + width * len(counts), *limits]) + width
    scale = (_WIDTH - 2 * _EDGE) / (high - low)
    wide = min(max(width * scale, 2), _BAR)
    title = f"{found['quantity']} from {shown(found['least'], unit)} to {shown(found['greatest'], unit)}"
    out = [f'<svg class="histogram" viewBox="0 0 {_WIDTH} {_HEIGHT}" role="img"><title>{escape(title)}</title>']
    out.append(f'<path class="base" d="M0 {_HEIGHT - .5} H{_WIDTH}"/>')
    for number, (count, bad) in enumerate(zip(counts, outside)):
        first = begin + width * number
        height = round(max(count / max(counts) * (_HEIGHT - 6), 2.5), 1)
        tip = escape(f"{count} from {shown(first, unit)} to {shown(first + width - 1, unit)}")
        left = _EDGE + (first + width / 2 - low) * scale - wide / 2
        out.append(f'<rect class="{"outside" if bad else "inside"}" x="{left:.1f}" y="{_HEIGHT - 1 - height:.1f}" '
                   f'width="{wide:.1f}" height="{height}"><title>{tip}</title></rect>' if count else "")
    for limit in limits if found["lower"] else limits[-1:] if found["upper"] is not None else ():
        tip = escape(f"limit: {shown(limit, unit)}")
        out.append(f'<path class="limit" d="M{_EDGE + (limit + 0.5 - low) * scale:.1f} 0 V{_HEIGHT}"><title>{tip}</title></path>')
    return "".join([*out, "</svg>"])
