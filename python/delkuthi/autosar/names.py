"""Names of a table for paths of a file: the last part of each, and more of the path where two are alike."""
from __future__ import annotations

import re
from collections import defaultdict
from typing import Callable, Iterable

from ..rows import one_line


def event_name(parts: list[str]) -> str:
    """A name of the grammar: letters, digits and underscores, and no digit first."""
    name = re.sub(r"\W", "_", "_".join(parts))
    return name if re.match(r"[^\W\d]", name) else f"e_{name}"


def row_name(parts: list[str]) -> str:
    """A name of one line."""
    return "".join(c if one_line(c) else "?" for c in "/".join(parts))


def unique(paths: Iterable[str], name: Callable[[list[str]], str]) -> dict[str, str]:
    """A name for each path: of its last part, with as many parts before it as it takes to tell it from the others, or a number at last."""
    parts = {path: [one for one in path.split("/") if one] or ["unnamed"] for path in paths}
    depth = dict.fromkeys(parts, 1)
    alike = _alike(parts, depth, name)
    while longer := [path for several in alike.values() if len(several) > 1 for path in several if depth[path] < len(parts[path])]:
        depth.update((path, depth[path] + 1) for path in longer)
        alike = _alike(parts, depth, name)
    return _numbered(alike)


def _alike(parts: dict[str, list[str]], depth: dict[str, int], name: Callable[[list[str]], str]) -> dict[str, list[str]]:
    """The paths of each name, where a name consists of a number of parts of its path."""
    found: dict[str, list[str]] = defaultdict(list)
    for path, several in parts.items():
        found[name(several[-depth[path] :])].append(path)
    return found


def _numbered(alike: dict[str, list[str]]) -> dict[str, str]:
    """One path for each name: those that cannot be told apart get a number."""
    found: dict[str, str] = {}
    taken = {name for name in alike}
    for name, paths in alike.items():
        found[paths[0]] = name
        for path in paths[1:]:
            number = next(number for number in range(2, len(taken) + len(paths) + 2) if f"{name}_{number}" not in taken)
            found[path] = f"{name}_{number}"
            taken.add(found[path])
    return found
