"""Draws the ratios of a table of `bench/peers` as bars, by gnuplot."""

import re
import subprocess
import sys
from pathlib import Path
from typing import List, NamedTuple

HEAD = "| measure | Watchman | wqd | wqd is better, times |"
RATIO = re.compile(r"([0-9.,e+-]+) \(([0-9.,e+-]+) to ([0-9.,e+-]+)\)")


class Bar(NamedTuple):
    name: str
    median: float
    least: float
    greatest: float


def draw(page: Path, picture: Path) -> None:
    bars = bars_of(page.read_text(encoding="utf-8"))
    if not bars:
        sys.exit(f"bench/peers: {page} has no table of bench/peers")
    try:
        subprocess.run(["gnuplot"], input=script(bars, picture).encode(), check=True)
    except FileNotFoundError:
        sys.exit("bench/peers: gnuplot is missing; Debian has it as gnuplot-nox")


def bars_of(text: str) -> List[Bar]:
    lines = text.splitlines()
    if HEAD not in lines:
        return []
    bars = []
    for line in lines[lines.index(HEAD) + 2 :]:
        if not line.startswith("|"):
            break
        cells = [cell.strip() for cell in line.strip("|").split("|")]
        found = RATIO.fullmatch(cells[3])
        if found and found.group(1) != "0":  # nothing has no place on the scale
            bars.append(Bar(cells[0], *(float(part.replace(",", "")) for part in found.groups())))
    return bars


def script(bars: List[Bar], picture: Path) -> str:
    rows = "".join(f'"{bar.name}" {bar.median} {bar.least} {bar.greatest}\n' for bar in reversed(bars))
    names = ", ".join(f'"{bar.name}" {place}' for place, bar in enumerate(reversed(bars)))
    return f"""set terminal svg size 800,{60 + 26 * len(bars)} font "sans,13" background "white"
set output "{picture}"
set title "wqd beside Watchman, times better: median, least and greatest"
set logscale x
set grid x
set ytics ({names})
set yrange [-0.7:{len(bars) - 0.3}]
set arrow from 1, graph 0 to 1, graph 1 nohead lw 2 lc rgb "#888888"
unset key
$rows << END
{rows}END
plot $rows using 2:0:3:4 with xerrorbars pt 7 ps 0.8 lw 2 lc rgb "#2a6fbb"
"""
